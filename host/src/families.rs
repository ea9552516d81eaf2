//! Families of tables that grow with a number, and rules with sheets on which their truth comes from
//! far, for the benchmark and the comparison tests.

use std::fmt::Write;

use crate::{Sheet, Side};

/// A table under construction: rows are named before they are numbered.
#[derive(Default)]
struct Draft {
    lines: Vec<String>,
}

impl Draft {
    /// Adds a row and gives its number.
    fn row(&mut self, line: String) -> usize {
        self.lines.push(line);
        self.lines.len() - 1
    }

    /// Adds a row that is written later.
    fn later(&mut self) -> usize {
        self.row(String::new())
    }

    fn is(&mut self, name: usize) -> usize {
        self.row(format!("is {name}"))
    }

    fn go(&mut self, direction: usize, at: usize) -> usize {
        self.row(format!("go {direction} {at}"))
    }

    fn any(&mut self, i: usize, j: usize) -> usize {
        self.row(format!("any {i} {j}"))
    }

    fn all(&mut self, i: usize, j: usize) -> usize {
        self.row(format!("all {i} {j}"))
    }

    /// Makes row `at` true exactly where row `as_row` is.
    fn same(&mut self, at: usize, as_row: usize) {
        self.lines[at] = format!("any {as_row} {as_row}");
    }

    /// Makes row `at` true where all of these rows are.
    fn all_of(&mut self, at: usize, rows: &[usize]) {
        let joined = rows.iter().copied().reduce(|i, j| self.all(i, j));
        self.same(at, joined.expect("at least one row"));
    }

    /// A row that is true at a node from which walking in either of two directions, any number
    /// of times, leads to a node of this name.
    fn reach(&mut self, directions: [usize; 2], name: usize) -> usize {
        let reach = self.later();
        let here = self.is(name);
        let [one, other] = directions.map(|direction| self.go(direction, reach));
        let there = self.any(one, other);
        self.lines[reach] = format!("any {here} {there}");
        reach
    }

    fn text(&self) -> Vec<u8> {
        let mut text = String::new();
        for line in &self.lines {
            writeln!(text, "{}", line.replace(' ', "\t")).expect("a string takes any text");
        }
        text.into_bytes()
    }
}

/// A chain of `n` first children whose last is named 1: m = n, N = 2, height n + 1.
pub fn chain(n: usize) -> Vec<u8> {
    let mut draft = Draft::default();
    for step in 0..n {
        draft.go(1, step + 1);
    }
    draft.is(1);
    draft.text()
}

/// The same chain without end, asked `n` times: m = n, N = 1, unsat. The largest table has n = 12.
pub fn endless(n: usize) -> Vec<u8> {
    let mut draft = Draft::default();
    for _ in 0..n {
        draft.go(1, 0);
    }
    draft.text()
}

/// Under the top some descendant is named 1, some 2, and so on to `n`: m = 2n, N = n + 1.
pub fn descendants(n: usize) -> Vec<u8> {
    let mut draft = Draft::default();
    let question = draft.later();
    let reached: Vec<usize> = (1..=n).map(|name| draft.reach([1, 2], name)).collect();
    draft.all_of(question, &reached);
    draft.text()
}

/// Some descendant has ancestors (or siblings of such) named 1, 2, and so on to `n`:
/// m = 2n + 2, N = n + 1.
pub fn ancestors(n: usize) -> Vec<u8> {
    let mut draft = Draft::default();
    let question = draft.later();
    let here = draft.later();
    let [first, next] = [1, 2].map(|direction| draft.go(direction, question));
    let below = draft.any(first, next);
    draft.lines[question] = format!("any {here} {below}");
    let reached: Vec<usize> = (1..=n).map(|name| draft.reach([3, 4], name)).collect();
    draft.all_of(here, &reached);
    draft.text()
}

/// The `n`-th next sibling is named 2 and has a previous one named 1: m = n + 1, N = 3,
/// height n + 1.
pub fn siblings(n: usize) -> Vec<u8> {
    let mut draft = Draft::default();
    for step in 0..n {
        draft.go(2, step + 1);
    }
    let end = draft.later();
    let last = draft.is(2);
    let back = draft.later();
    let named = draft.is(1);
    let previous = draft.go(4, back);
    draft.lines[back] = format!("any {named} {previous}");
    draft.lines[end] = format!("all {last} {back}");
    draft.text()
}

/// The first child has every name from 0 to `n`: m = n + 1, N = n + 1, unsat.
pub fn contradiction(n: usize) -> Vec<u8> {
    let mut draft = Draft::default();
    let question = draft.later();
    let mut looks = Vec::new();
    for name in 0..=n {
        let named = draft.is(name);
        looks.push(draft.go(1, named));
    }
    draft.all_of(question, &looks);
    draft.text()
}

/// Somewhere a first child isn't named `n` but its parent is: m = 3 whatever `n` is, N = n + 1.
pub fn names(n: usize) -> Vec<u8> {
    let mut draft = Draft::default();
    let question = draft.later();
    let [first, next] = [1, 2].map(|direction| draft.go(direction, question));
    let below = draft.any(first, next);
    let parent_is = draft.is(n);
    let parent = draft.go(3, parent_is);
    let other = draft.row(format!("isnot {n}"));
    let here = draft.all(parent, other);
    draft.lines[question] = format!("any {here} {below}");
    draft.text()
}

/// A binary counter of `bits` bits that counts the first children below a node, and has all bits
/// set at the top: m = 2 × bits, N = 1, height 2^bits. It takes two bits or more.
pub fn counter(bits: usize) -> Vec<u8> {
    let mut draft = Draft::default();
    let question = draft.later();
    let stop = draft.row("stop 1".to_string());
    // The lowest bit turns at every step.
    let lowest = draft.bit(stop);
    draft.turn(lowest, [lowest.unset, lowest.set]);
    // The carry into a bit is that all lower bits are set; of it, too, there is an opposite.
    let mut carry = [lowest.set, lowest.unset];
    for number in 1..bits {
        let bit = draft.bit(stop);
        let [carried, stays] = carry;
        let both = draft.all(bit.set, carried);
        let neither = draft.all(bit.unset, stays);
        let (kept, turned) = (draft.all(bit.set, stays), draft.all(bit.unset, carried));
        let becomes = [draft.any(kept, turned), draft.any(both, neither)];
        draft.turn(bit, becomes);
        if number + 1 < bits {
            carry = [both, draft.any(bit.unset, stays)];
        } else {
            draft.lines[question] = format!("all {} {carried}", bit.set);
        }
    }
    draft.text()
}

/// The rows of one bit of a counter.
#[derive(Clone, Copy)]
struct Bit {
    set: usize,
    unset: usize,
    unset_by_child: usize,
}

impl Draft {
    /// A bit that is unset where the counting begins.
    fn bit(&mut self, stop: usize) -> Bit {
        let set = self.later();
        let unset_by_child = self.later();
        let unset = self.any(stop, unset_by_child);
        Bit {
            set,
            unset,
            unset_by_child,
        }
    }

    /// Lets a bit be set or unset where the child says that it becomes so.
    fn turn(&mut self, bit: Bit, [set, unset]: [usize; 2]) {
        self.lines[bit.set] = format!("go 1 {set}");
        self.lines[bit.unset_by_child] = format!("go 1 {unset}");
    }
}

/// `n` rows of which each names the next one twice, above a `no`: 2^n ways lead from row 0 to it.
/// m = 0, N = 1, unsat. The largest table has n = 47.
pub fn shared(n: usize) -> Vec<u8> {
    let mut draft = Draft::default();
    for row in 1..=n {
        draft.any(row, row);
    }
    draft.row("no".to_string());
    draft.text()
}

/// `n` levels of an `all` and an `any` row that both name both rows of the next level; in the last
/// one stand a look and a name. 2^n ways lead from row 0 to these two, and they are both true where
/// row 0 is, one of them where row 1 is: the top is named 1, and row 1 is true at its first child.
/// m = 1, N = 2, height 2. It takes one level or more; the largest table has n = 23.
pub fn woven(n: usize) -> Vec<u8> {
    let mut draft = Draft::default();
    for level in 1..=n {
        let next = [2 * level, 2 * level + 1];
        draft.all(next[0], next[1]);
        draft.any(next[0], next[1]);
    }
    draft.go(1, 1);
    draft.is(1);
    draft.text()
}

/// A node of name 1 is met on the way in a direction. For judging: one step of the way is one step of
/// the truth.
pub fn on_the_way(direction: usize) -> Vec<u8> {
    let mut draft = Draft::default();
    let question = draft.later();
    let here = draft.is(1);
    let onwards = draft.go(direction, question);
    draft.lines[question] = format!("any {here} {onwards}");
    draft.text()
}

/// The way in a direction comes to an end, asked by looking to and fro 22 times for each step. For
/// judging: one step of the way is 47 steps of the truth, through as many of the 48 rows.
pub fn to_and_fro(direction: usize) -> Vec<u8> {
    let converse = (direction + 1) % 4 + 1;
    let mut draft = Draft::default();
    let question = draft.later();
    let looks = draft.later();
    draft.same(looks, looks + 1);
    for turn in 0..22 {
        draft.go(direction, looks + 2 * turn + 2);
        draft.go(converse, looks + 2 * turn + 3);
    }
    draft.go(direction, question);
    let end = draft.row(format!("stop {direction}"));
    draft.lines[question] = format!("any {looks} {end}");
    draft.text()
}

/// A chain of so many first children, all named 0 but the one at `named`, which is 1.
pub fn chain_sheet(lines: usize, named: usize) -> Sheet {
    let name = |line: usize| usize::from(line == named);
    let mut sheet = Sheet::new(name(0)).expect("a name");
    for line in 1..lines {
        sheet.add(line - 1, Side::First, name(line));
    }
    sheet
}
