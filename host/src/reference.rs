//! A second solver and a second judge, written from the specification alone and as directly as
//! possible. They are clear rather than fast. The tests compare them with the linked libraries,
//! number by number and place by place.
//!
//! [`scan`] is a variant that searches the way the library does, for the benchmark; the tests compare
//! it as well.

mod codes;
mod judge;
mod loops;
#[doc(hidden)]
pub mod nodes;
mod rounds;
pub mod scan;

pub use judge::judge_on;

use crate::{table::Table, Answer, Numbers, Refusal, Slices, NONE};

/// Solves `text` on four borrowed slices, as [`solve_on`](crate::solve_on) does.
///
/// ```
/// use host::{reference, Numbers, Slices};
///
/// let (mut round, mut first, mut next, mut used) = ([9; 16], [9; 16], [9; 16], [9; 16]);
/// let lent = Slices { round: &mut round, first: &mut first, next: &mut next, used: &mut used };
/// let numbers = reference::solve_on(b"yes\n", lent);
/// assert_eq!(numbers, Numbers { verdict: Numbers::SAT, height: 1, ..Numbers::default() });
/// assert_eq!((round[0], first[0], used[0], used[4]), (1, 65535, 1, 0));
/// ```
pub fn solve_on(text: &[u8], lent: Slices<'_>) -> Numbers {
    let answer = match accept(text, &lent) {
        Err(refusal) => Answer::Refused(refusal),
        Ok(table) => rounds::solve(&table, lent),
    };
    answer.numbers()
}

/// The table of a text, or the refusal: 1 to 4 by the reader, then 5 and 6.
fn sound_table(text: &[u8]) -> Result<Table, Refusal> {
    let table = Table::read(text)?;
    if let Some(row) = loops::smallest_row_with_missing_reference(&table) {
        return Err(Refusal::NoSuchRow { row });
    }
    if let Some(row) = loops::smallest_row_on_a_loop(&table) {
        return Err(Refusal::Loop { row });
    }
    Ok(table)
}

/// The table of a text that is solved, or the refusal: 1 to 6, then 7 and 8.
fn accept(text: &[u8], lent: &Slices<'_>) -> Result<Table, Refusal> {
    let table = sound_table(text)?;
    if table.codes() > Table::CODES as u64 {
        return Err(Refusal::TooManyCodes);
    }
    if shortest(lent) < table.codes() as usize {
        return Err(Refusal::TooFewPlaces);
    }
    Ok(table)
}

fn shortest(lent: &Slices<'_>) -> usize {
    let u16s = [lent.round.len(), lent.first.len(), lent.next.len()];
    u16s.into_iter().fold(lent.used.len(), usize::min)
}

/// Clears the first `codes` places: no code is entered, none has a neighbour, none is used.
fn clear(lent: &mut Slices<'_>, codes: usize) {
    lent.round[..codes].fill(0);
    lent.first[..codes].fill(NONE);
    lent.next[..codes].fill(NONE);
    lent.used[..codes].fill(0);
}

/// Marks the codes met from the top through `first` and `next`.
fn mark_used(lent: &mut Slices<'_>, top: usize) {
    let mut met = vec![top];
    while let Some(code) = met.pop() {
        if lent.used[code] == 0 {
            lent.used[code] = 1;
            let neighbours = [lent.first[code], lent.next[code]];
            met.extend(
                neighbours
                    .iter()
                    .filter(|u| **u != NONE)
                    .map(|u| usize::from(*u)),
            );
        }
    }
}
