//! Codes: their flags and bits, the truth of a row in a code, proper, takes, good.

use crate::table::{Look, Row, Table};

/// The converse of a direction: 3 of 1, 4 of 2, and back.
pub fn converse(direction: usize) -> usize {
    match direction {
        1 => 3,
        2 => 4,
        3 => 1,
        4 => 2,
        other => panic!("{other} is no direction"),
    }
}

/// A table's codes, taken apart once.
pub struct Codes {
    codes: Vec<Code>,
    looks: Vec<Look>,
}

/// A code taken apart: its flags, its bits, and the truth of every row in it.
struct Code {
    flags: usize,
    bits: usize,
    truth: Vec<bool>,
}

impl Code {
    fn has(&self, direction: usize) -> bool {
        self.flags >> (direction - 1) & 1 == 1
    }

    fn bit(&self, look: usize) -> bool {
        self.bits >> look & 1 == 1
    }
}

impl Codes {
    /// All C codes of an accepted table.
    pub fn new(table: &Table) -> Codes {
        let looks = table.looks();
        let take_apart = |code: usize| {
            let (name, flags, bits) = parts(code, looks.len());
            Code {
                flags,
                bits,
                truth: Truth::of_all_rows(table, &looks, (name, flags, bits)),
            }
        };
        let codes = (0..table.codes() as usize).map(take_apart).collect();
        Codes { codes, looks }
    }

    /// C.
    pub fn count(&self) -> usize {
        self.codes.len()
    }

    /// Whether the code has a neighbour in the direction.
    pub fn has(&self, code: usize, direction: usize) -> bool {
        self.codes[code].has(direction)
    }

    /// Not both flags 4 and 8, and each set bit's direction is flagged.
    pub fn proper(&self, code: usize) -> bool {
        let code = &self.codes[code];
        let fits = |(bit, look): (usize, &Look)| !code.bit(bit) || code.has(look.direction);
        !(code.has(3) && code.has(4)) && self.looks.iter().enumerate().all(fits)
    }

    /// Neither flag 4 nor 8, and row 0 is true.
    pub fn good(&self, code: usize) -> bool {
        let code = &self.codes[code];
        !code.has(3) && !code.has(4) && code.truth[0]
    }

    /// Whether code `t` takes code `u` as its neighbour in direction 1 or 2.
    pub fn takes(&self, t: usize, direction: usize, u: usize) -> bool {
        let (t, u) = (&self.codes[t], &self.codes[u]);
        let back = converse(direction);
        let agrees = |(bit, look): (usize, &Look)| {
            let down = look.direction != direction || t.bit(bit) == u.truth[look.at];
            let up = look.direction != back || u.bit(bit) == t.truth[look.at];
            down && up
        };
        t.has(direction) && u.has(back) && self.looks.iter().enumerate().all(agrees)
    }
}

/// Name, flags and bits of a code, with m look rows.
pub fn parts(code: usize, m: usize) -> (usize, usize, usize) {
    (code >> m >> 4, code >> m & 15, code & ((1 << m) - 1))
}

/// The truths of the rows in one code, worked out as they are asked for, in no order fixed
/// beforehand. Each is kept, because a row may be reached through `any` and `all` by very many
/// ways; so the recursion takes each row once.
struct Truth<'a> {
    table: &'a Table,
    looks: &'a [Look],
    name: usize,
    flags: usize,
    bits: usize,
    known: Vec<Option<bool>>,
}

impl Truth<'_> {
    fn of_all_rows(
        table: &Table,
        looks: &[Look],
        (name, flags, bits): (usize, usize, usize),
    ) -> Vec<bool> {
        let count = table.rows().len();
        let known = vec![None; count];
        let mut truth = Truth {
            table,
            looks,
            name,
            flags,
            bits,
            known,
        };
        (0..count).map(|row| truth.of(row)).collect()
    }

    fn of(&mut self, row: usize) -> bool {
        if let Some(truth) = self.known[row] {
            return truth;
        }
        let truth = match self.table.rows()[row] {
            Row::Yes => true,
            Row::No => false,
            Row::Is(name) => self.name == name,
            Row::IsNot(name) => self.name != name,
            Row::Any(i, j) => self.of(i) || self.of(j),
            Row::All(i, j) => self.of(i) && self.of(j),
            Row::Go(..) => self.bit_of(row),
            Row::Stop(direction) => self.flags >> (direction - 1) & 1 == 0,
        };
        self.known[row] = Some(truth);
        truth
    }

    fn bit_of(&self, row: usize) -> bool {
        let look = self.looks.iter().position(|look| look.row == row);
        let look = look.expect("a go row is a look row");
        self.bits >> look & 1 == 1
    }
}
