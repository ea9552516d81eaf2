//! A text solved by the library and by both references on equal slices, and compared.

use host::{
    reference::{self, scan},
    solve_on, Numbers, Slices, Table,
};

use super::{shown, Random};

/// The four slices with what they held before the call.
#[derive(Debug, Clone, PartialEq, Eq)]
struct Lent {
    round: Vec<u16>,
    first: Vec<u16>,
    next: Vec<u16>,
    used: Vec<u8>,
}

impl Lent {
    /// Slices of these lengths, filled with a pattern that no clearing would leave.
    fn patterned(lengths: [usize; 4]) -> Lent {
        let pattern = |length: usize, salt: usize| -> Vec<u16> {
            let value = |at: usize| (at * 40_503 + salt) as u16 | 0x0101;
            (0..length).map(value).collect()
        };
        Lent {
            round: pattern(lengths[0], 11),
            first: pattern(lengths[1], 23),
            next: pattern(lengths[2], 37),
            used: pattern(lengths[3], 53).iter().map(|v| *v as u8).collect(),
        }
    }

    fn slices(&mut self) -> Slices<'_> {
        Slices {
            round: &mut self.round,
            first: &mut self.first,
            next: &mut self.next,
            used: &mut self.used,
        }
    }

    /// Whether both hold the same from place `from` on.
    fn same_from(&self, other: &Lent, from: usize) -> bool {
        fn tail<T>(slice: &[T], from: usize) -> &[T] {
            &slice[from.min(slice.len())..]
        }
        tail(&self.round, from) == tail(&other.round, from)
            && tail(&self.first, from) == tail(&other.first, from)
            && tail(&self.next, from) == tail(&other.next, from)
            && tail(&self.used, from) == tail(&other.used, from)
    }
}

/// How often each outcome was met: a run that met too few of one has compared too little.
#[derive(Default, Debug)]
pub struct Tally {
    pub texts: usize,
    pub sat: usize,
    /// Of the sat ones, those of height 3 or more.
    pub tall: usize,
    pub unsat: usize,
    pub refused: [usize; 9],
}

impl Tally {
    fn count(&mut self, numbers: Numbers) {
        self.texts += 1;
        match numbers.verdict {
            Numbers::SAT => self.sat += 1,
            Numbers::UNSAT => self.unsat += 1,
            _ => self.refused[numbers.refusal as usize] += 1,
        }
        if numbers.verdict == Numbers::SAT && numbers.height >= 3 {
            self.tall += 1;
        }
    }
}

/// C of a text that can be read and whose C is within the limit; else a small number.
pub fn places(text: &[u8]) -> usize {
    let codes = Table::read(text).map_or(64, |table| table.codes());
    if codes <= Table::CODES as u64 {
        codes as usize
    } else {
        64
    }
}

/// Mostly lengths that are enough, each for itself; sometimes one short slice, or several.
fn lengths(random: &mut Random, c: usize) -> [usize; 4] {
    let mut lengths = [0; 4].map(|_| c + random.pick(&[0, 0, 1, 1, 2, 33]));
    match random.below(8) {
        0 => lengths[random.below(4)] = c - 1,
        1 => lengths = lengths.map(|_| random.pick(&[0, c / 2, c - 1, c, c, c + 1])),
        _ => {}
    }
    lengths
}

type Solver = fn(&[u8], Slices<'_>) -> Numbers;

/// The reference, and the one that does the library's own scan.
const REFERENCES: [(&str, Solver); 2] =
    [("reference", reference::solve_on), ("scan", scan::solve_on)];

/// Solves a text by the library and by both references on equal slices, compares, and gives the
/// numbers.
pub fn compare(text: &[u8], lengths: [usize; 4], tally: &mut Tally) -> Numbers {
    let before = Lent::patterned(lengths);
    let mut ours = before.clone();
    let numbers = solve_on(text, ours.slices());
    let of = || format!("lengths {lengths:?}, text:\n{}", shown(text));
    for (name, solver) in REFERENCES {
        let mut theirs = before.clone();
        let expected = solver(text, theirs.slices());
        let differ = |what: &str| format!("{name}: {what} differ; {}", of());
        assert_eq!(numbers, expected, "{}", differ("numbers"));
        assert!(ours.round == theirs.round, "{}", differ("rounds"));
        assert!(ours.first == theirs.first, "{}", differ("firsts"));
        assert!(ours.next == theirs.next, "{}", differ("nexts"));
        assert!(ours.used == theirs.used, "{}", differ("useds"));
    }
    let used_places = if numbers.verdict == Numbers::REFUSED {
        0
    } else {
        places(text)
    };
    assert!(
        ours.same_from(&before, used_places),
        "touched beyond C or after a refusal; {}",
        of()
    );
    tally.count(numbers);
    numbers
}

pub fn compare_at_some_lengths(random: &mut Random, text: &[u8], tally: &mut Tally) {
    let lengths = lengths(random, places(text));
    compare(text, lengths, tally);
}
