//! The linked library against the reference where a limit is near: rows, names and codes.

mod common;

use common::{
    both::{compare, compare_at_some_lengths, places, Tally},
    tables::{damage, table, text_of, Size},
    Random,
};
use host::{families, table::Row, Numbers, Table};

/// 46 to 50 rows, and a text that ends within a line.
#[test]
fn rows_at_their_limit() {
    let mut random = Random::start("rows_at_their_limit", 6);
    let mut tally = Tally::default();
    for _ in 0..1_000 {
        let size = Size {
            rows: random.between(46, 50),
            names: random.between(1, 2),
            looks: random.between(0, 3),
        };
        let mut text = text_of(&table(&mut random, size));
        if random.chance(1, 8) {
            damage(&mut random, &mut text);
        }
        compare_at_some_lengths(&mut random, &text, &mut tally);
    }
    println!("{tally:?}");
    assert!(tally.sat > 20 && tally.unsat > 20);
    assert!(tally.refused[3] > 200 && tally.refused[6] > 20);
}

/// Names up to 23: 15 is the last one, and 16 is refused.
#[test]
fn names_at_their_limit() {
    let mut random = Random::start("names_at_their_limit", 7);
    let mut tally = Tally::default();
    for _ in 0..1_000 {
        let size = Size {
            rows: random.between(2, 7),
            names: random.between(14, 24),
            looks: random.between(0, 1),
        };
        let rows = table(&mut random, size);
        compare_at_some_lengths(&mut random, &text_of(&rows), &mut tally);
    }
    println!("{tally:?}");
    assert!(tally.sat > 100 && tally.unsat > 50 && tally.refused[4] > 100);
}

/// Every pair of N and m around N × 2^m = 4,096. One slice is a place short, so that nothing is
/// searched: 7 comes before 8, and 8 before the search.
#[test]
fn codes_at_their_limit() {
    let mut tally = Tally::default();
    for looks in 7..=46 {
        for names in 1..=16 {
            let text = many_looks(Row::Yes, names, looks);
            for short in 0..4 {
                let mut lengths = [places(&text); 4];
                lengths[short] -= 1;
                compare(&text, lengths, &mut tally);
            }
        }
    }
    println!("{tally:?}");
    // 2^8 to 2^12 leave room for 16, 8, 4, 2 and 1 names, 2^7 for all 16.
    assert_eq!(tally.refused[8], 4 * (16 + 16 + 8 + 4 + 2 + 1));
    assert_eq!(tally.texts, tally.refused[7] + tally.refused[8]);
}

/// A question, the largest name, and looks in all directions at the question.
fn many_looks(question: Row, names: usize, looks: usize) -> Vec<u8> {
    let mut rows = vec![question, Row::IsNot(names - 1)];
    rows.extend((0..looks).map(|look| Row::Go(look % 2 + 1, look % 2)));
    text_of(&rows)
}

/// A few tables with 8,192 codes and more, solved; the largest have 65,536.
#[test]
fn large_tables() {
    let mut tally = Tally::default();
    let tables = [
        many_looks(Row::Yes, 16, 8),
        many_looks(Row::Go(1, 1), 2, 8),
        many_looks(Row::No, 8, 6),
        many_looks(Row::No, 1, 9),
        many_looks(Row::Go(2, 0), 1, 11),
    ];
    for text in &tables {
        let c = places(text);
        assert!(c >= 8_192);
        compare(text, [c, c + 1, c + 3, c + 2], &mut tally);
    }
    println!("{tally:?}");
    assert!(tally.sat == 2 && tally.unsat == 3);
}

/// The library keeps what is asked of the first 16,384 codes' truths, and works out those beyond
/// when they are asked for: as many codes, and more, looking at rows that hang on others.
#[test]
fn codes_beyond_what_is_kept() {
    let mut tally = Tally::default();
    for (text, c) in [
        (families::ancestors(3), 16_384),
        (families::descendants(4), 20_480),
        (families::siblings(8), 24_576),
    ] {
        assert_eq!(places(&text), c);
        compare(&text, [c; 4], &mut tally);
    }
    assert_eq!(tally.sat, 3);
}

/// As many levels as there are rows for. 2^47 ways lead from row 0 of the first table to its last
/// row, 2^23 in the second one to its last two.
#[test]
fn rows_that_double_at_every_level() {
    let mut tally = Tally::default();
    let mut numbers = |text: &[u8], c: usize| {
        let rows = Table::read(text).map(|table| table.rows().len());
        assert_eq!((rows, places(text)), (Ok(Table::ROWS), c));
        compare(text, [c; 4], &mut tally)
    };
    // Round 1 enters flags 0, 4 and 8, round 2 the other nine that are proper.
    let unsat = Numbers {
        verdict: Numbers::UNSAT,
        height: 2,
        ..Numbers::default()
    };
    assert_eq!(numbers(&families::shared(47), 16), unsat);
    // Name 1 is worth 32, flag 1 2 and the look 1; the child is 40, with name 1 and flag 4.
    let sat = Numbers {
        verdict: Numbers::SAT,
        height: 2,
        top: 35,
        ..Numbers::default()
    };
    assert_eq!(numbers(&families::woven(23), 64), sat);
}

/// The benchmark's families at sizes that are quick to solve.
#[test]
fn families_of_tables() {
    type Make = fn(usize) -> Vec<u8>;
    let families: [(Make, usize); 10] = [
        (families::chain, 6),
        (families::descendants, 2),
        (families::ancestors, 2),
        (families::siblings, 5),
        (families::contradiction, 4),
        (families::names, 15),
        (families::counter, 4),
        (families::endless, 7),
        (families::shared, 47),
        (families::woven, 23),
    ];
    let mut tally = Tally::default();
    for (make, largest) in families {
        for size in 2..=largest {
            let text = make(size);
            compare(&text, [places(&text) + 1; 4], &mut tally);
        }
    }
    println!("{tally:?}");
    assert_eq!(tally.sat, 5 + 1 + 1 + 4 + 14 + 3 + 22);
    assert_eq!(tally.unsat, 3 + 6 + 46);
    assert!(tally.tall > 10);
}
