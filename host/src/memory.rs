//! The memory that a call is lent, and the call itself.

use crate::{solve_on, Answer, Slices, Table, Tree, NONE};

/// The four slices that the solver works in, and what the last call left there.
///
/// One memory serves any number of calls.
#[derive(Debug, Clone)]
pub struct Memory {
    round: Vec<u16>,
    first: Vec<u16>,
    next: Vec<u16>,
    used: Vec<u8>,
    shown: Option<Shown>,
}

/// Where the last call's tree begins, how a code's name is read, and C: what stands in the places
/// from C on was left by earlier calls.
#[derive(Debug, Clone, Copy)]
struct Shown {
    top: u16,
    codes_of_a_name: usize,
    codes: usize,
}

impl Memory {
    /// A memory of `places` places in each slice. `sheetsat` has 4,096.
    pub fn with_places(places: usize) -> Memory {
        Memory {
            round: vec![0; places],
            first: vec![NONE; places],
            next: vec![NONE; places],
            used: vec![0; places],
            shown: None,
        }
    }

    /// The memory that is enough for every table: 65,536 places.
    pub fn largest() -> Memory {
        Memory::with_places(Table::CODES)
    }

    /// The least memory that `text` can be solved in: C places, or none where the text is
    /// refused whatever it is lent.
    ///
    /// ```
    /// use host::{solve, Answer, Memory};
    ///
    /// let text = b"go\t1\t1\nis\t1\n";
    /// let mut memory = Memory::for_table(text);
    /// assert_eq!(memory.places(), 64);
    /// assert!(solve(text, &mut memory).is_sat());
    /// ```
    pub fn for_table(text: &[u8]) -> Memory {
        let codes = Table::read(text).map_or(0, |table| table.codes());
        let places = usize::try_from(codes).unwrap_or(usize::MAX);
        Memory::with_places(if places <= Table::CODES { places } else { 0 })
    }

    /// The places in each slice.
    pub fn places(&self) -> usize {
        self.round.len()
    }

    /// The tree that the last call showed: there is one exactly if it answered [`Answer::Sat`].
    pub fn tree(&self) -> Option<Tree<'_>> {
        let Shown {
            top,
            codes_of_a_name,
            codes,
        } = self.shown?;
        Some(Tree {
            top,
            codes_of_a_name,
            round: &self.round[..codes],
            first: &self.first[..codes],
            next: &self.next[..codes],
            used: &self.used[..codes],
        })
    }

    fn lend(&mut self) -> Slices<'_> {
        Slices {
            round: &mut self.round,
            first: &mut self.first,
            next: &mut self.next,
            used: &mut self.used,
        }
    }
}

/// Solves the table in `text`.
///
/// ```
/// use host::{solve, Answer, Memory, Refusal};
///
/// let mut memory = Memory::with_places(4096);
/// assert_eq!(solve(b"is\t1\n", &mut memory), Answer::Sat { height: 1, top: 16 });
/// assert_eq!(solve(b"no\n", &mut memory), Answer::Unsat { rounds: 2 });
/// assert_eq!(solve(b"any\t0\t0\n", &mut memory), Answer::Refused(Refusal::Loop { row: 0 }));
/// assert!(memory.tree().is_none(), "the last call showed no tree");
/// ```
///
/// # Panics
///
/// If the linked library gives numbers that no answer has. It is proved not to: such a library
/// is another one than this crate was written for.
pub fn solve(text: &[u8], memory: &mut Memory) -> Answer {
    let numbers = solve_on(text, memory.lend());
    let answer = Answer::new(numbers)
        .unwrap_or_else(|| panic!("the linked library's numbers are no answer: {numbers:?}"));
    memory.shown = shown(text, answer);
    answer
}

fn shown(text: &[u8], answer: Answer) -> Option<Shown> {
    let Answer::Sat { top, .. } = answer else {
        return None;
    };
    let table = Table::read(text).expect("a text that was solved can be read");
    Some(Shown {
        top,
        codes_of_a_name: table.codes_of_a_name() as usize,
        codes: table.codes() as usize,
    })
}
