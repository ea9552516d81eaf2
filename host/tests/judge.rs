//! The library's `judge` against the reference's: every number and every byte, on many tables and
//! right sheets, with lent bytes of many lengths. A failure prints both texts; `SEED=n` repeats a run.

mod common;

use common::{
    judged::{compare, compare_at_some_length, compare_safe, need, Tally},
    sheets::{self, fields_of, sheet, some_sheet},
    shown,
    tables::{looking, some_table, text_of},
    Random,
};
use host::{families, judge, solve, Memory, Refusal, Sheet, Table};

#[test]
fn right_sheets() {
    let mut random = Random::start("right_sheets", 41);
    let mut tally = Tally::default();
    for _ in 0..12_000 {
        let (table, sheet) = (some_table(&mut random), some_sheet(&mut random).text());
        compare_at_some_length(&mut random, &table, &sheet, &mut tally);
    }
    println!("{tally:?}");
    assert!(tally.judged > 8_000 && tally.lines.iter().all(|lines| *lines > 30_000));
    assert!(tally.refused[6] > 500 && tally.refused[8] > 500);
    assert_eq!(tally.refused[7] + tally.refused[9] + tally.refused[10], 0);
}

/// Refusal 7 would be due for the solver; here it isn't.
#[test]
fn tables_with_too_many_looks_to_be_solved() {
    let mut random = Random::start("tables_with_too_many_looks_to_be_solved", 42);
    let (mut tally, mut memory) = (Tally::default(), Memory::with_places(0));
    let mut too_many = 0;
    for _ in 0..1_500 {
        let (rows, names) = (random.between(24, 48), random.between(1, 4));
        let table = text_of(&looking(&mut random, rows, names));
        let refusal = solve(&table, &mut memory).refusal();
        too_many += usize::from(refusal == Some(Refusal::TooManyCodes));
        let sheet = some_sheet(&mut random).text();
        compare(&table, &sheet, need(&sheet), &mut tally);
    }
    println!("{tally:?}, {too_many} refused by the solver");
    assert_eq!(tally.judged, tally.calls);
    assert!(too_many > 1_000 && tally.lines.iter().all(|lines| *lines > 3_000));
}

/// The least that is enough, a byte less, three more, and none.
#[test]
fn lent_bytes() {
    let mut random = Random::start("lent_bytes", 43);
    let mut tally = Tally::default();
    let yes = b"yes\n";
    for lines in 1..=Sheet::LINES {
        let sheet = sheet(&mut random, lines, 16).text();
        let need = need(&sheet);
        for (lent, refusal) in [(need - 1, 8), (need, 0), (need + 3, 0), (0, 8)] {
            let numbers = compare(yes, &sheet, lent, &mut tally);
            assert_eq!(numbers.refusal, refusal);
            let written = if refusal == 0 { need } else { 0 };
            assert_eq!(numbers.written as usize, written);
        }
    }
    assert_eq!(need(&sheet(&mut random, Sheet::LINES, 1).text()), 1_420);
}

/// Truth that comes from far, on sheets as long as they can be.
#[test]
fn long_dependencies() {
    let mut tally = Tally::default();
    for lines in [1, 2, 3, 10, 100, Sheet::LINES] {
        for (direction, end) in [(1, lines - 1), (3, 0)] {
            let sheet = families::chain_sheet(lines, end).text();
            for table in [
                families::on_the_way(direction),
                families::to_and_fro(direction),
            ] {
                compare(&table, &sheet, need(&sheet), &mut tally);
                let judged = judge(&table, &sheet);
                assert_eq!(judged, Ok(vec![true; lines]), "{}", shown(&table));
            }
        }
    }
    let rows = Table::read(&families::to_and_fro(1)).map(|table| table.rows().len());
    assert_eq!(rows, Ok(Table::ROWS));
}

/// A right sheet is written as its fields are, line by line.
#[test]
fn sheets_are_written_as_they_are() {
    let mut random = Random::start("sheets_are_written_as_they_are", 48);
    for _ in 0..500 {
        let sheet = some_sheet(&mut random);
        let text = sheets::text_of(&fields_of(&sheet));
        assert_eq!(sheet.text(), text);
        let judged = compare_safe(b"yes\n", &text).map(|lines| lines.len());
        assert_eq!(judged, Ok(sheet.lines().len()));
    }
}

/// A refusal is shown with the faulty line of the text that it is about.
#[test]
fn refusals_show_the_faulty_line() {
    let shown = |table: &[u8], sheet: &[u8]| {
        let refusal = judge(table, sheet).expect_err("a refusal");
        let shown = refusal.in_texts(table, sheet).to_string();
        let line = shown.split_once('\n').map_or("", |(_, line)| line);
        (refusal.number(), line.to_string())
    };
    let line = |number: u32, line: &str| (number, line.to_string());
    let (table, sheet) = (b"yes\n", b"0\t-\t-\n");
    assert_eq!(shown(b"yes\nis 1\n", sheet), line(2, "  line 1: is 1"));
    assert_eq!(shown(table, b"0\t-\n"), line(9, "  line 0: 0\\t-"));
    assert_eq!(shown(table, b""), line(9, ""));
    let unclosed = "  line 0: 0\\t-\\t- (no line feed after it)";
    assert_eq!(shown(table, b"0\t-\t-"), line(9, unclosed));
    let unnamed = sheet.repeat(2);
    assert_eq!(shown(table, &unnamed), line(10, "  line 1: 0\\t-\\t-"));
    // What is too short is neither text.
    let too_few = Refusal::TooFewPlaces;
    assert_eq!(
        too_few.in_texts(table, sheet).to_string(),
        too_few.to_string()
    );
}
