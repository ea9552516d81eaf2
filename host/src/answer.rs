//! The verdict in Rust's terms.

use std::fmt;

use crate::{Numbers, Refusal};

/// What the solver says of a table.
#[derive(Debug, Clone, Copy, PartialEq, Eq)]
pub enum Answer {
    /// Some finite tree makes row 0 true at its top.
    Sat {
        /// The least height of such a tree.
        height: u32,
        /// The code at the top of the shown tree.
        top: u16,
    },
    /// No finite tree makes row 0 true at its top.
    Unsat {
        /// The rounds that entered a code.
        rounds: u32,
    },
    /// The table is not one that the solver takes, or it was lent too little.
    Refused(Refusal),
}

impl Answer {
    /// Whether some tree makes row 0 true.
    pub fn is_sat(self) -> bool {
        matches!(self, Answer::Sat { .. })
    }

    /// The refusal, if it is one.
    pub fn refusal(self) -> Option<Refusal> {
        match self {
            Answer::Refused(refusal) => Some(refusal),
            _ => None,
        }
    }

    /// The answer that these numbers stand for, or `None` where they stand for none.
    ///
    /// ```
    /// use host::{Answer, Numbers, Refusal};
    ///
    /// let numbers = Numbers { verdict: 0, height: 0, top: 0, refusal: 3, place: 48 };
    /// assert_eq!(Answer::new(numbers), Some(Answer::Refused(Refusal::TooManyLines)));
    /// assert_eq!(Answer::new(Numbers { verdict: 3, ..numbers }), None);
    /// ```
    pub fn new(numbers: Numbers) -> Option<Answer> {
        let answer = match numbers.verdict {
            Numbers::REFUSED => {
                let refusal = Refusal::new(numbers.refusal, numbers.place);
                // The solver is given no sheet.
                Answer::Refused(refusal.filter(|refusal| !refusal.is_about_sheet())?)
            }
            Numbers::SAT => Answer::Sat {
                height: numbers.height,
                top: u16::try_from(numbers.top).ok()?,
            },
            Numbers::UNSAT => Answer::Unsat {
                rounds: numbers.height,
            },
            _ => return None,
        };
        // Every number that the answer doesn't speak of is 0.
        (answer.numbers() == numbers).then_some(answer)
    }

    /// The answer as the boundary's numbers.
    pub fn numbers(self) -> Numbers {
        match self {
            Answer::Sat { height, top } => Numbers {
                verdict: Numbers::SAT,
                height,
                top: u32::from(top),
                ..Numbers::default()
            },
            Answer::Unsat { rounds } => Numbers {
                verdict: Numbers::UNSAT,
                height: rounds,
                ..Numbers::default()
            },
            Answer::Refused(refusal) => Numbers {
                verdict: Numbers::REFUSED,
                refusal: refusal.number(),
                place: refusal.place() as u32,
                ..Numbers::default()
            },
        }
    }
}

impl fmt::Display for Answer {
    /// ```
    /// use host::{Answer, Refusal};
    ///
    /// let sat = Answer::Sat { height: 2, top: 15 };
    /// assert_eq!(sat.to_string(), "sat: a tree makes row 0 true at its top, height 2, top code 15");
    /// let refused = Answer::Refused(Refusal::NoText);
    /// assert_eq!(refused.to_string(), "refused 1 at 0: the text is empty");
    /// ```
    fn fmt(&self, f: &mut fmt::Formatter<'_>) -> fmt::Result {
        match self {
            Answer::Sat { height, top } => write!(
                f,
                "sat: a tree makes row 0 true at its top, height {height}, top code {top}"
            ),
            Answer::Unsat { rounds } => write!(
                f,
                "unsat: no tree makes row 0 true at its top, {rounds} rounds"
            ),
            Answer::Refused(refusal) => write!(f, "{refusal}"),
        }
    }
}
