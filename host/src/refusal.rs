//! Why a table or a sheet was refused, in words and with the faulty line.

use std::fmt;

use crate::Table;

/// Why a table, or a sheet to be judged by it, was refused. Lines and rows are counted from 0.
#[derive(Debug, Clone, Copy, PartialEq, Eq)]
pub enum Refusal {
    /// 1: the text has length 0.
    NoText,
    /// 2: a line has a wrong kind word, field count or number, lacks its line feed, or is too long.
    WrongForm {
        /// The faulty line.
        line: usize,
    },
    /// 3: a 49th line begins.
    TooManyLines,
    /// 4: a name is above 15, or a direction is outside 1 to 4.
    OutOfRange {
        /// The faulty line.
        line: usize,
    },
    /// 5: a reference names a row that isn't there.
    NoSuchRow {
        /// The smallest row with such a reference.
        row: usize,
    },
    /// 6: a walk leads from a row back to itself with directions that cancel.
    Loop {
        /// The smallest row on one.
        row: usize,
    },
    /// 7: N × 2^m is above 4,096.
    TooManyCodes,
    /// 8: a lent slice is shorter than what is written there: C numbers by
    /// [`solve`](crate::solve), a line a node by [`judge_on`](crate::judge_on).
    TooFewPlaces,
    /// 9: a line of the sheet has a wrong field count, name or number or lacks its line feed; there
    /// is no line, or a 256th begins.
    WrongSheetForm {
        /// The faulty line: the first, 0 where there is none, or 255.
        line: usize,
    },
    /// 10: a line of the sheet names a line that isn't greater or isn't there; or it isn't line 0
    /// and is named never or more than once.
    WrongLinks {
        /// The smallest such line.
        line: usize,
    },
}

impl Refusal {
    /// The refusal with this number and place, or `None` where no refusal has them.
    ///
    /// ```
    /// use host::Refusal;
    ///
    /// assert_eq!(Refusal::new(6, 2), Some(Refusal::Loop { row: 2 }));
    /// assert_eq!(Refusal::new(7, 2), None);
    /// ```
    pub fn new(number: u32, place: u32) -> Option<Refusal> {
        let at = place as usize;
        let refusal = match number {
            1 => Refusal::NoText,
            2 => Refusal::WrongForm { line: at },
            3 => Refusal::TooManyLines,
            4 => Refusal::OutOfRange { line: at },
            5 => Refusal::NoSuchRow { row: at },
            6 => Refusal::Loop { row: at },
            7 => Refusal::TooManyCodes,
            8 => Refusal::TooFewPlaces,
            9 => Refusal::WrongSheetForm { line: at },
            10 => Refusal::WrongLinks { line: at },
            _ => return None,
        };
        (refusal.place() == at).then_some(refusal)
    }

    /// The refusal's number, 1 to 10.
    pub fn number(self) -> u32 {
        match self {
            Refusal::NoText => 1,
            Refusal::WrongForm { .. } => 2,
            Refusal::TooManyLines => 3,
            Refusal::OutOfRange { .. } => 4,
            Refusal::NoSuchRow { .. } => 5,
            Refusal::Loop { .. } => 6,
            Refusal::TooManyCodes => 7,
            Refusal::TooFewPlaces => 8,
            Refusal::WrongSheetForm { .. } => 9,
            Refusal::WrongLinks { .. } => 10,
        }
    }

    /// The line or row it is about, 0 where it is about the whole table or the memory.
    pub fn place(self) -> usize {
        match self {
            Refusal::WrongForm { line } | Refusal::OutOfRange { line } => line,
            Refusal::WrongSheetForm { line } | Refusal::WrongLinks { line } => line,
            Refusal::NoSuchRow { row } | Refusal::Loop { row } => row,
            Refusal::TooManyLines => Table::ROWS,
            Refusal::NoText | Refusal::TooManyCodes | Refusal::TooFewPlaces => 0,
        }
    }

    /// Whether it is about the sheet: 9 and 10 are, and their lines are the sheet's. All other
    /// lines and rows are the table's.
    pub fn is_about_sheet(self) -> bool {
        matches!(
            self,
            Refusal::WrongSheetForm { .. } | Refusal::WrongLinks { .. }
        )
    }

    /// The faulty line as a part of the caller's text, without its line feed; `None` where the
    /// refusal is about no line of it. The text is the one that the refusal is about.
    ///
    /// ```
    /// use host::Refusal;
    ///
    /// let text = b"yes\nis\t16\n";
    /// assert_eq!(Refusal::OutOfRange { line: 1 }.line(text), Some(&text[4..9]));
    /// assert_eq!(Refusal::TooManyCodes.line(text), None);
    /// ```
    pub fn line(self, text: &[u8]) -> Option<&[u8]> {
        if matches!(
            self,
            Refusal::NoText | Refusal::TooManyCodes | Refusal::TooFewPlaces
        ) {
            return None;
        }
        let mut lines = text.split_inclusive(|byte| *byte == b'\n');
        let line = lines.nth(self.place())?;
        Some(line.strip_suffix(b"\n").unwrap_or(line))
    }

    /// The refusal together with the faulty line of `text`, the one that it is about, to be shown
    /// to its author.
    ///
    /// Tabs are shown as `\t`, so that a blank in the place of a tab is seen.
    ///
    /// ```
    /// use host::Refusal;
    ///
    /// let text = b"go\t1\t1\nis 1\n";
    /// assert_eq!(
    ///     Refusal::WrongForm { line: 1 }.in_text(text).to_string(),
    ///     "refused 2 at 1: the line has a wrong kind word, field count or number, \
    ///      lacks its line feed or is too long\n  \
    ///      line 1: is 1"
    /// );
    /// ```
    pub fn in_text(self, text: &[u8]) -> InText<'_> {
        InText {
            refusal: self,
            text,
        }
    }

    /// A refusal by [`judge`](crate::judge) together with the faulty line, of the table or of the
    /// sheet.
    ///
    /// ```
    /// use host::judge;
    ///
    /// let (table, sheet) = (b"is\t1\n", b"0\t1\t-\n1\t1\t-\n");
    /// let refusal = judge(table, sheet).unwrap_err();
    /// assert_eq!(
    ///     refusal.in_texts(table, sheet).to_string(),
    ///     "refused 10 at 1: the sheet's line names a line that isn't greater or isn't there, \
    ///      or isn't named exactly once\n  \
    ///      line 1: 1\\t1\\t-"
    /// );
    /// ```
    pub fn in_texts<'a>(self, table: &'a [u8], sheet: &'a [u8]) -> InText<'a> {
        match self {
            // What is too short is neither text.
            Refusal::TooFewPlaces => self.in_text(&[]),
            _ if self.is_about_sheet() => self.in_text(sheet),
            _ => self.in_text(table),
        }
    }

    fn words(self) -> &'static str {
        match self {
            Refusal::NoText => "the text is empty",
            Refusal::WrongForm { .. } => {
                "the line has a wrong kind word, field count or number, \
                 lacks its line feed or is too long"
            }
            Refusal::TooManyLines => "a 49th line begins",
            Refusal::OutOfRange { .. } => "a name is above 15, or a direction is outside 1 to 4",
            Refusal::NoSuchRow { .. } => "the row names a row that isn't there",
            Refusal::Loop { .. } => {
                "the row leads back to itself by directions that cancel, \
                 so its truth would hang on itself"
            }
            Refusal::TooManyCodes => "too many names and looks: names × 2^looks is above 4,096",
            Refusal::TooFewPlaces => "too few places in the lent memory for the answer",
            Refusal::WrongSheetForm { .. } => {
                "the sheet's line has a wrong field count, name or number or lacks its line feed, \
                 or the sheet has no line or a 256th"
            }
            Refusal::WrongLinks { .. } => {
                "the sheet's line names a line that isn't greater or isn't there, \
                 or isn't named exactly once"
            }
        }
    }
}

/// A refusal is an error like any other, so that `?` hands it on.
///
/// ```
/// fn first(table: &[u8], sheet: &[u8]) -> Result<bool, Box<dyn std::error::Error>> {
///     Ok(host::judge(table, sheet)?[0])
/// }
/// assert!(first(b"yes\n", b"0\t-\t-\n").unwrap());
/// assert!(first(b"yes\n", b"").is_err());
/// ```
impl std::error::Error for Refusal {}

impl fmt::Display for Refusal {
    fn fmt(&self, f: &mut fmt::Formatter<'_>) -> fmt::Result {
        let (number, place) = (self.number(), self.place());
        write!(f, "refused {number} at {place}: {}", self.words())
    }
}

/// A refusal with the faulty line; see [`Refusal::in_text`].
#[derive(Debug, Clone, Copy)]
pub struct InText<'a> {
    refusal: Refusal,
    text: &'a [u8],
}

impl InText<'_> {
    /// The most bytes of a faulty line that are shown.
    const SHOWN: usize = 40;

    fn fmt_line(&self, line: &[u8], f: &mut fmt::Formatter<'_>) -> fmt::Result {
        let shown = &line[..line.len().min(Self::SHOWN)];
        let more = if shown.len() < line.len() { "…" } else { "" };
        let place = self.refusal.place();
        write!(f, "\n  line {place}: {}{more}", shown.escape_ascii())?;
        if self.lacks_line_feed() {
            write!(f, " (no line feed after it)")?;
        }
        Ok(())
    }

    /// Whether the faulty line is the last one and isn't closed.
    fn lacks_line_feed(&self) -> bool {
        let lines = self.text.split_inclusive(|byte| *byte == b'\n').count();
        !self.text.ends_with(b"\n") && self.refusal.place() + 1 == lines
    }

    /// The numbers behind a refusal that is about no line.
    fn fmt_size(&self, f: &mut fmt::Formatter<'_>) -> fmt::Result {
        let Ok(table) = Table::read(self.text) else {
            return Ok(());
        };
        let (names, looks) = (table.names(), table.looks().len());
        let codes = table.codes();
        write!(f, "\n  names {names}, looks {looks}, codes {codes}")
    }
}

impl fmt::Display for InText<'_> {
    fn fmt(&self, f: &mut fmt::Formatter<'_>) -> fmt::Result {
        write!(f, "{}", self.refusal)?;
        match self.refusal.line(self.text) {
            Some(line) => self.fmt_line(line, f),
            None => self.fmt_size(f),
        }
    }
}
