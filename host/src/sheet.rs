//! A sheet as text, and judging it: where on it a table's row 0 is true.

use std::fmt;

use crate::{judge_on, JudgedNumbers, Refusal, Table, Tree};

/// Which neighbour of a node below it: its first child or its next sibling.
#[derive(Debug, Clone, Copy, PartialEq, Eq)]
pub enum Side {
    /// The first child, in direction 1.
    First,
    /// The next sibling, in direction 2.
    Next,
}

impl Side {
    /// Both sides, in the order of a line's fields.
    pub const BOTH: [Side; 2] = [Side::First, Side::Next];

    /// The direction that leads there.
    pub fn direction(self) -> usize {
        match self {
            Side::First => 1,
            Side::Next => 2,
        }
    }
}

/// One line of a sheet: a node's name, and the lines of its neighbours below it.
#[derive(Debug, Clone, Copy, PartialEq, Eq)]
pub struct Line {
    /// The name, 0 to 15.
    pub name: usize,
    /// The line of its first child.
    pub first: Option<usize>,
    /// The line of its next sibling.
    pub next: Option<usize>,
}

impl Line {
    /// The line of its neighbour on this side.
    pub fn on(&self, side: Side) -> Option<usize> {
        match side {
            Side::First => self.first,
            Side::Next => self.next,
        }
    }

    fn on_mut(&mut self, side: Side) -> &mut Option<usize> {
        match side {
            Side::First => &mut self.first,
            Side::Next => &mut self.next,
        }
    }
}

impl fmt::Display for Line {
    /// The three fields parted by tabs, without the line feed.
    fn fmt(&self, f: &mut fmt::Formatter<'_>) -> fmt::Result {
        write!(f, "{}", self.name)?;
        for side in Side::BOTH {
            match self.on(side) {
                Some(line) => write!(f, "\t{line}")?,
                None => write!(f, "\t-")?,
            }
        }
        Ok(())
    }
}

/// A right sheet: one that no table's judging refuses.
///
/// It begins as its top and grows by one line at a time, which hangs from an earlier one. So each
/// line names greater ones, and each but line 0 is named once; every right sheet can be made so.
/// It is written as text by its `Display`.
///
/// ```
/// use host::{judge, Sheet, Side};
///
/// let mut sheet = Sheet::new(0).unwrap();
/// let child = sheet.add(0, Side::First, 1).unwrap();
/// sheet.add(child, Side::Next, 2).unwrap();
/// assert_eq!(sheet.to_string(), "0\t1\t-\n1\t-\t2\n2\t-\t-\n");
/// assert_eq!(sheet.add(child, Side::Next, 3), None, "it has a next sibling already");
///
/// let has_a_next_sibling = b"go\t2\t1\nyes\n";
/// assert_eq!(judge(has_a_next_sibling, &sheet.text()), Ok(vec![false, true, false]));
/// ```
#[derive(Debug, Clone, PartialEq, Eq)]
pub struct Sheet {
    lines: Vec<Line>,
}

impl Sheet {
    /// The most lines of a sheet.
    pub const LINES: usize = 255;

    /// A sheet of one line, or `None` where the name is above 15.
    pub fn new(name: usize) -> Option<Sheet> {
        let lines = vec![leaf(name)?];
        Some(Sheet { lines })
    }

    /// The tree that a solver showed, each node at the line of its place; `None` where it has more
    /// nodes than a sheet has lines.
    ///
    /// ```
    /// use host::{judge, solve, Memory, Sheet};
    ///
    /// let table = b"all\t1\t2\ngo\t1\t3\ngo\t2\t3\nyes\n";
    /// let mut memory = Memory::for_table(table);
    /// solve(table, &mut memory);
    /// let sheet = Sheet::of(&memory.tree().unwrap()).unwrap();
    /// assert_eq!(sheet.to_string(), "0\t1\t2\n0\t-\t-\n0\t-\t-\n");
    /// assert_eq!(judge(table, &sheet.text()), Ok(vec![true, false, false]));
    /// ```
    pub fn of(tree: &Tree<'_>) -> Option<Sheet> {
        let mut nodes = tree.nodes();
        let mut sheet = Sheet::new(nodes.next()?.name)?;
        for node in nodes {
            let (line, side) = node.above?;
            sheet.add(line, side, node.name)?;
        }
        Some(sheet)
    }

    /// Adds a line of this name as the neighbour of `line` on `side`, and gives its number. It is
    /// `None`, and nothing is added, where the sheet is full, the name is above 15, `line` isn't
    /// there, or has such a neighbour already.
    pub fn add(&mut self, line: usize, side: Side, name: usize) -> Option<usize> {
        let (leaf, number) = (leaf(name)?, self.lines.len());
        let to = self.lines.get_mut(line)?.on_mut(side);
        if to.is_some() || number == Sheet::LINES {
            return None;
        }
        *to = Some(number);
        self.lines.push(leaf);
        Some(number)
    }

    /// The lines by their numbers.
    pub fn lines(&self) -> &[Line] {
        &self.lines
    }

    /// The sheet as text.
    pub fn text(&self) -> Vec<u8> {
        self.to_string().into_bytes()
    }
}

/// A line without neighbours, or `None` where the name is above 15.
fn leaf(name: usize) -> Option<Line> {
    let (first, next) = (None, None);
    (name < Table::NAMES).then_some(Line { name, first, next })
}

impl fmt::Display for Sheet {
    fn fmt(&self, f: &mut fmt::Formatter<'_>) -> fmt::Result {
        self.lines.iter().try_for_each(|line| writeln!(f, "{line}"))
    }
}

/// The bytes that are written of a judged sheet of so many lines: for each its number, a tab, 1 or
/// 0 and a line feed.
///
/// ```
/// use host::{judged_bytes, Sheet};
///
/// assert_eq!(judged_bytes(11), 10 * 4 + 5);
/// assert_eq!(judged_bytes(Sheet::LINES), 1_420);
/// ```
pub fn judged_bytes(lines: usize) -> usize {
    (0..lines).map(|line| line.to_string().len() + 3).sum()
}

/// Judges `sheet` by `table`, both as text: the truth of row 0 at each line, or the refusal.
///
/// The table may have any number of looks: its codes are not counted here. Names that the table
/// doesn't reach count as 0. Enough bytes are lent for every sheet, so refusal 8 doesn't occur.
///
/// ```
/// use host::{judge, Refusal};
///
/// let some_descendant_is_1 = b"any\t1\t2\nis\t1\ngo\t1\t0\n";
/// let sheet = b"0\t1\t-\n0\t2\t-\n1\t3\t-\n0\t-\t-\n";
/// assert_eq!(judge(some_descendant_is_1, sheet), Ok(vec![true, true, true, false]));
///
/// let refused = |sheet: &[u8]| judge(some_descendant_is_1, sheet).unwrap_err();
/// assert_eq!(refused(b"16\t-\t-\n"), Refusal::WrongSheetForm { line: 0 });
/// assert_eq!(refused(b"0\t1\t1\n0\t-\t-\n"), Refusal::WrongLinks { line: 1 });
/// assert_eq!(judge(b"any\t0\t0\n", sheet), Err(Refusal::Loop { row: 0 }));
/// ```
///
/// # Panics
///
/// If the linked library gives numbers or bytes that no outcome has. It is proved not to: such a
/// library is another one than this crate was written for.
pub fn judge(table: &[u8], sheet: &[u8]) -> Result<Vec<bool>, Refusal> {
    let mut out = vec![0; judged_bytes(Sheet::LINES)];
    let numbers = judge_on(table, sheet, &mut out);
    let written = outcome(numbers)
        .unwrap_or_else(|| panic!("the linked library's numbers are no outcome: {numbers:?}"))?;
    let judged = out.get(..written).and_then(truths);
    Ok(judged.unwrap_or_else(|| panic!("the linked library wrote {}", out.escape_ascii())))
}

/// The number of bytes written or the refusal, or `None` where the numbers stand for neither.
fn outcome(numbers: JudgedNumbers) -> Option<Result<usize, Refusal>> {
    let JudgedNumbers {
        written,
        refusal,
        place,
    } = numbers;
    match Refusal::new(refusal, place) {
        None => (refusal == 0 && place == 0).then_some(Ok(written as usize)),
        // Codes aren't counted, and enough is lent.
        Some(Refusal::TooManyCodes | Refusal::TooFewPlaces) => None,
        Some(refusal) => (written == 0).then_some(Err(refusal)),
    }
}

/// The truths written in the bytes of a judged sheet, or `None` where they aren't such bytes.
fn truths(bytes: &[u8]) -> Option<Vec<bool>> {
    let lines = bytes.split_inclusive(|byte| *byte == b'\n').enumerate();
    lines.map(|(number, line)| truth(number, line)).collect()
}

fn truth(number: usize, line: &[u8]) -> Option<bool> {
    let number = number.to_string();
    match line.strip_prefix(number.as_bytes())? {
        b"\t0\n" => Some(false),
        b"\t1\n" => Some(true),
        _ => None,
    }
}
