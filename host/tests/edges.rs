//! The edges of the texts, with answers worked out by hand from the specification: of tables
//! (`data/edges.txt`) and of sheets (`data/sheets.txt`).

mod common;

use common::marked::{edges, text_of};
use host::{judge_on, judged_bytes, solve, Answer, Memory, Sheet};

#[test]
fn every_edge_is_answered_as_the_page_says() {
    let mut memory = Memory::largest();
    let mut count = 0;
    for edge in edges(include_str!("data/edges.txt")) {
        let (marked, expected) = (edge[0], edge[1]);
        let answer = solve(&text_of(marked), &mut memory);
        let refused_by_reading = match &answer {
            Answer::Refused(refusal) if refusal.number() <= 4 => {
                format!("refused {} {}", refusal.number(), refusal.place())
            }
            _ => String::new(),
        };
        if expected.starts_with("read ") {
            assert_eq!(refused_by_reading, "", "{marked}");
        } else {
            assert_eq!(refused_by_reading, expected, "{marked}");
        }
        count += 1;
    }
    assert_eq!(count, 89, "all edges of the page");
}

/// What `judge` says of a table and a sheet with so many bytes, in the words of the page.
fn judged(table: &[u8], sheet: &[u8], lent: usize) -> String {
    let mut out = vec![b'?'; lent];
    let numbers = judge_on(table, sheet, &mut out);
    let (written, untouched) = out.split_at(numbers.written as usize);
    assert!(untouched.iter().all(|byte| *byte == b'?'));
    if numbers.refusal != 0 {
        return format!("refused {} {}", numbers.refusal, numbers.place);
    }
    let written = String::from_utf8_lossy(written);
    let digits = written.split_terminator('\n').enumerate();
    let digits: String = digits
        .map(|(line, text)| {
            let digit = text.strip_prefix(&format!("{line}\t"));
            digit.expect("a line begins with its number")
        })
        .collect();
    format!("judged {digits}")
}

#[test]
fn every_sheet_is_judged_as_the_page_says() {
    let mut count = 0;
    for edge in edges(include_str!("data/sheets.txt")) {
        let [table, sheet, lent, expected] = edge[..4] else {
            panic!("four columns: {edge:?}");
        };
        let lent = match lent {
            "enough" => judged_bytes(Sheet::LINES),
            bytes => bytes.parse().expect("a number of bytes"),
        };
        let answer = judged(&text_of(table), &text_of(sheet), lent);
        assert_eq!(answer, expected, "{table} on {sheet}");
        count += 1;
    }
    assert_eq!(count, 72, "all sheets of the page");
}
