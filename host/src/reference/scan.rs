//! The reference doing the library's own scan: in each round, for each proper code that isn't
//! entered and each flagged direction, all codes from 0 on are tried until one of an earlier round
//! is taken. The truths of all rows in a code are worked out once for each code, before the first
//! round: in one pass, in an order of the rows that is fixed beforehand. So nothing is followed by
//! recursion, and a row costs the same however many rows name it.
//!
//! This is what the benchmark measures the library against: the same work in plain Rust.

use crate::{
    table::{Look, Row, Table},
    Answer, Numbers, Slices, NONE,
};

use super::{
    accept, clear,
    codes::{converse, parts},
    mark_used,
};

/// Solves `text` on four borrowed slices, as [`solve_on`](crate::solve_on) does.
pub fn solve_on(text: &[u8], lent: Slices<'_>) -> Numbers {
    let answer = match accept(text, &lent) {
        Err(refusal) => Answer::Refused(refusal),
        Ok(table) => Scan::new(&table).solve(lent),
    };
    answer.numbers()
}

/// What the scan reads of a table.
struct Scan {
    looks: Vec<Look>,
    codes: usize,
    /// The truths of all rows in each code.
    truths: Vec<u64>,
}

impl Scan {
    fn new(table: &Table) -> Scan {
        let codes = table.codes() as usize;
        let pass = Pass::new(table);
        Scan {
            looks: table.looks(),
            codes,
            truths: (0..codes).map(|code| pass.truths(code)).collect(),
        }
    }

    fn solve(&self, mut lent: Slices<'_>) -> Answer {
        clear(&mut lent, self.codes);
        for round in 1.. {
            let (entered, top) = self.enter_round(round, &mut lent);
            if let Some(top) = top {
                mark_used(&mut lent, top);
                let (height, top) = (u32::from(round), top as u16);
                return Answer::Sat { height, top };
            }
            if !entered {
                let rounds = u32::from(round) - 1;
                return Answer::Unsat { rounds };
            }
        }
        unreachable!("each counted round enters a code, and there are finitely many")
    }

    /// One round: whether it entered a code, and the smallest good code that it entered.
    fn enter_round(&self, round: u16, lent: &mut Slices<'_>) -> (bool, Option<usize>) {
        let (mut entered, mut top) = (false, None);
        for code in 0..self.codes {
            if lent.round[code] != 0 || !self.proper(code) {
                continue;
            }
            let Some(first) = self.neighbour(code, 1, round, lent.round) else {
                continue;
            };
            let Some(next) = self.neighbour(code, 2, round, lent.round) else {
                continue;
            };
            lent.round[code] = round;
            lent.first[code] = first;
            lent.next[code] = next;
            entered = true;
            if top.is_none() && self.good(code) {
                top = Some(code);
            }
        }
        (entered, top)
    }

    /// The first code of an earlier round that `t` takes, [`NONE`] where the direction isn't
    /// flagged, nothing where it is flagged in vain.
    fn neighbour(&self, t: usize, direction: usize, now: u16, round: &[u16]) -> Option<u16> {
        if !self.has(t, direction) {
            return Some(NONE);
        }
        let back = converse(direction);
        'codes: for (u, entered) in round[..self.codes].iter().enumerate() {
            if *entered == 0 || *entered == now || !self.has(u, back) {
                continue;
            }
            for (bit, look) in self.looks.iter().enumerate() {
                if look.direction == direction && has_bit(t, bit) != self.truth(look.at, u) {
                    continue 'codes;
                }
                if look.direction == back && has_bit(u, bit) != self.truth(look.at, t) {
                    continue 'codes;
                }
            }
            return Some(u as u16);
        }
        None
    }

    fn has(&self, code: usize, direction: usize) -> bool {
        code >> self.looks.len() >> (direction - 1) & 1 == 1
    }

    fn proper(&self, code: usize) -> bool {
        let fits =
            |(bit, look): (usize, &Look)| !has_bit(code, bit) || self.has(code, look.direction);
        !(self.has(code, 3) && self.has(code, 4)) && self.looks.iter().enumerate().all(fits)
    }

    fn good(&self, code: usize) -> bool {
        !self.has(code, 3) && !self.has(code, 4) && self.truth(0, code)
    }

    fn truth(&self, row: usize, code: usize) -> bool {
        is_true(self.truths[code], row)
    }
}

/// How the truths of a table's rows in a code are worked out.
struct Pass<'a> {
    rows: &'a [Row],
    order: Vec<usize>,
    /// For each row the number of its bit, where it is a `go` row.
    bit_of: Vec<usize>,
    looks: usize,
}

impl<'a> Pass<'a> {
    fn new(table: &'a Table) -> Pass<'a> {
        let looks = table.looks();
        let mut bit_of = vec![0; table.rows().len()];
        for (bit, look) in looks.iter().enumerate() {
            bit_of[look.row] = bit;
        }
        Pass {
            rows: table.rows(),
            order: order(table.rows()),
            bit_of,
            looks: looks.len(),
        }
    }

    /// The truths of all rows in a code. When a row's turn comes, those of the rows that it names
    /// are there.
    fn truths(&self, code: usize) -> u64 {
        let (name, flags, bits) = parts(code, self.looks);
        let mut truths = 0;
        for row in &self.order {
            let truth = match self.rows[*row] {
                Row::Yes => true,
                Row::No => false,
                Row::Is(is) => name == is,
                Row::IsNot(is) => name != is,
                Row::Any(i, j) => is_true(truths, i) || is_true(truths, j),
                Row::All(i, j) => is_true(truths, i) && is_true(truths, j),
                Row::Go(..) => has_bit(bits, self.bit_of[*row]),
                Row::Stop(direction) => !has_bit(flags, direction - 1),
            };
            truths |= u64::from(truth) << row;
        }
        truths
    }
}

/// All rows, each behind those that it names by `any` or `all`. The table has no loop, so there is
/// always a next one. Most rows name later ones, so it is looked for from the last row backwards.
fn order(rows: &[Row]) -> Vec<usize> {
    let mut order = Vec::new();
    let mut placed = vec![false; rows.len()];
    while order.len() < rows.len() {
        for row in (0..rows.len()).rev() {
            let ready = match rows[row] {
                Row::Any(i, j) | Row::All(i, j) => placed[i] && placed[j],
                _ => true,
            };
            if ready && !placed[row] {
                placed[row] = true;
                order.push(row);
            }
        }
    }
    order
}

// The truths of a code are one word, that of row i its bit i.
const _: () = assert!(Table::ROWS <= u64::BITS as usize);

fn is_true(truths: u64, row: usize) -> bool {
    truths >> row & 1 == 1
}

fn has_bit(bits: usize, bit: usize) -> bool {
    bits >> bit & 1 == 1
}
