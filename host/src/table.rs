//! The table as text: its rows, its limits and its reader.

use crate::Refusal;

/// One row of a table. It is true at a node when:
#[derive(Debug, Clone, Copy, PartialEq, Eq)]
pub enum Row {
    /// Always.
    Yes,
    /// Never.
    No,
    /// The node's name is this one.
    Is(usize),
    /// The node's name is another one.
    IsNot(usize),
    /// One of the two rows is true there.
    Any(usize, usize),
    /// Both rows are true there.
    All(usize, usize),
    /// It has a neighbour in the direction (first number) where the row (second number) is true.
    Go(usize, usize),
    /// It has no neighbour in the direction.
    Stop(usize),
}

impl Row {
    /// The rows that this one names.
    pub fn references(self) -> Vec<usize> {
        match self {
            Row::Any(i, j) | Row::All(i, j) => vec![i, j],
            Row::Go(_, i) => vec![i],
            _ => Vec::new(),
        }
    }

    /// The name that this row mentions.
    fn name(self) -> Option<usize> {
        match self {
            Row::Is(name) | Row::IsNot(name) => Some(name),
            _ => None,
        }
    }

    /// The direction that this row mentions.
    fn direction(self) -> Option<usize> {
        match self {
            Row::Go(direction, _) | Row::Stop(direction) => Some(direction),
            _ => None,
        }
    }

    /// Whether name and direction are within their limits.
    fn in_range(self) -> bool {
        self.name().is_none_or(|name| name < Table::NAMES)
            && self.direction().is_none_or(|d| (1..=4).contains(&d))
    }
}

/// A look row: the `go` row `row`, which looks in `direction` at row `at`.
#[derive(Debug, Clone, Copy, PartialEq, Eq)]
pub struct Look {
    /// The row that looks.
    pub row: usize,
    /// The direction it looks in.
    pub direction: usize,
    /// The row that is looked at.
    pub at: usize,
}

/// A table as it was read. References and loops are not tested by the reader.
#[derive(Debug, Clone, PartialEq, Eq)]
pub struct Table {
    rows: Vec<Row>,
}

impl Table {
    /// The most rows of a table.
    pub const ROWS: usize = 48;
    /// Names are below this.
    pub const NAMES: usize = 16;
    /// The most codes of a table.
    pub const CODES: usize = 65_536;
    /// The most bytes of a line with its line feed.
    const LINE: usize = 10;

    /// Reads a text downwards, up to the first faulty line. Gives refusals 1 to 4.
    ///
    /// ```
    /// use host::{table::Row, Refusal, Table};
    ///
    /// let table = Table::read(b"go\t1\t1\nis\t1\n").unwrap();
    /// assert_eq!(table.rows(), [Row::Go(1, 1), Row::Is(1)]);
    /// assert_eq!((table.names(), table.looks().len(), table.codes()), (2, 1, 64));
    /// assert_eq!(Table::read(b"yes\nis\t01\n"), Err(Refusal::WrongForm { line: 1 }));
    /// ```
    pub fn read(text: &[u8]) -> Result<Table, Refusal> {
        if text.is_empty() {
            return Err(Refusal::NoText);
        }
        let mut rows = Vec::new();
        for (line, bytes) in text.split_inclusive(|byte| *byte == b'\n').enumerate() {
            if line == Table::ROWS {
                return Err(Refusal::TooManyLines);
            }
            let row = read_line(bytes).ok_or(Refusal::WrongForm { line })?;
            if !row.in_range() {
                return Err(Refusal::OutOfRange { line });
            }
            rows.push(row);
        }
        Ok(Table { rows })
    }

    /// The rows by their numbers.
    pub fn rows(&self) -> &[Row] {
        &self.rows
    }

    /// N: one more than the largest name mentioned, 1 if none is.
    pub fn names(&self) -> usize {
        let largest = self.rows.iter().filter_map(|row| row.name()).max();
        largest.unwrap_or(0) + 1
    }

    /// The look rows in the order of their bits; there are m of them.
    pub fn looks(&self) -> Vec<Look> {
        let look = |(row, of): (usize, &Row)| match *of {
            Row::Go(direction, at) => Some(Look { row, direction, at }),
            _ => None,
        };
        self.rows.iter().enumerate().filter_map(look).collect()
    }

    /// 16 × 2^m: the codes of one name.
    pub fn codes_of_a_name(&self) -> u64 {
        16 << self.looks().len()
    }

    /// C = N × 16 × 2^m, whether or not it is within [`Table::CODES`].
    pub fn codes(&self) -> u64 {
        self.names() as u64 * self.codes_of_a_name()
    }
}

/// A line with its line feed, taken apart into fields; `None` where its form is wrong.
fn read_line(line: &[u8]) -> Option<Row> {
    let fields = line.strip_suffix(b"\n")?;
    if line.len() > Table::LINE {
        return None;
    }
    let fields: Vec<&[u8]> = fields.split(|byte| *byte == b'\t').collect();
    let row = match fields[..] {
        [b"yes"] => Row::Yes,
        [b"no"] => Row::No,
        [b"is", name] => Row::Is(read_number(name)?),
        [b"isnot", name] => Row::IsNot(read_number(name)?),
        [b"any", i, j] => Row::Any(read_number(i)?, read_number(j)?),
        [b"all", i, j] => Row::All(read_number(i)?, read_number(j)?),
        [b"go", direction, i] => Row::Go(read_number(direction)?, read_number(i)?),
        [b"stop", direction] => Row::Stop(read_number(direction)?),
        _ => return None,
    };
    Some(row)
}

/// A number of one or two digits without a leading zero.
fn read_number(field: &[u8]) -> Option<usize> {
    let digit = |byte: u8| usize::from(byte - b'0');
    match *field {
        [ones @ b'0'..=b'9'] => Some(digit(ones)),
        [tens @ b'1'..=b'9', ones @ b'0'..=b'9'] => Some(10 * digit(tens) + digit(ones)),
        _ => None,
    }
}
