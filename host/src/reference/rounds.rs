//! The rounds and the result.

use crate::{table::Table, Answer, Slices, NONE};

use super::{clear, codes::Codes, mark_used};

/// Solves an accepted table on slices that are long enough.
pub fn solve(table: &Table, mut lent: Slices<'_>) -> Answer {
    let codes = Codes::new(table);
    clear(&mut lent, codes.count());
    for round in 1.. {
        let entering = codes_to_enter(&codes, &lent);
        if entering.is_empty() {
            return Answer::Unsat { rounds: round - 1 };
        }
        for entry in &entering {
            lent.round[entry.code] = round as u16;
            lent.first[entry.code] = entry.first;
            lent.next[entry.code] = entry.next;
        }
        // Codes enter in rising order, so the first good one is the smallest.
        if let Some(top) = entering.iter().find(|entry| codes.good(entry.code)) {
            mark_used(&mut lent, top.code);
            let (height, top) = (round, top.code as u16);
            return Answer::Sat { height, top };
        }
    }
    unreachable!("each counted round enters a code, and there are finitely many")
}

/// A code that a round enters, and its recorded neighbours.
struct Entry {
    code: usize,
    first: u16,
    next: u16,
}

/// The codes that the coming round enters, in rising order. The slices hold the earlier rounds.
fn codes_to_enter(codes: &Codes, lent: &Slices<'_>) -> Vec<Entry> {
    let entered = |code: &usize| lent.round[*code] != 0;
    let earlier: Vec<usize> = (0..codes.count()).filter(entered).collect();
    (0..codes.count())
        .filter(|code| !entered(code) && codes.proper(*code))
        .filter_map(|code| {
            let first = neighbour(codes, code, 1, &earlier)?;
            let next = neighbour(codes, code, 2, &earlier)?;
            Some(Entry { code, first, next })
        })
        .collect()
}

/// What is recorded for a direction: the smallest earlier code that `code` takes there, or
/// [`NONE`] where the direction isn't flagged; nothing where it is flagged in vain.
fn neighbour(codes: &Codes, code: usize, direction: usize, earlier: &[usize]) -> Option<u16> {
    if !codes.has(code, direction) {
        return Some(NONE);
    }
    let taken = earlier.iter().find(|u| codes.takes(code, direction, **u));
    taken.map(|u| *u as u16)
}
