//! The C boundary: `solve` takes one text and four lent slices and gives five numbers, `judge` takes
//! two texts and one lent slice and gives three.

/// A place of `first` and `next` that names no code: 65,535 is never a proper code.
pub const NONE: u16 = u16::MAX;

/// The result of a call as the boundary gives it. [`Answer`](crate::Answer) says the same in
/// Rust's terms; the comparison tests compare these numbers.
#[repr(C)]
#[derive(Debug, Clone, Copy, PartialEq, Eq, Default)]
pub struct Numbers {
    /// 0 refused, 1 SAT, 2 UNSAT.
    pub verdict: u32,
    /// The height with SAT, the rounds with UNSAT.
    pub height: u32,
    /// The top code with SAT.
    pub top: u32,
    /// 1 to 8 where refused.
    pub refusal: u32,
    /// The line or row that the refusal is about.
    pub place: u32,
}

impl Numbers {
    /// The verdict of a refused table.
    pub const REFUSED: u32 = 0;
    /// The verdict of a table that some tree makes true.
    pub const SAT: u32 = 1;
    /// The verdict of a table that no tree makes true.
    pub const UNSAT: u32 = 2;
}

/// The result of judging a sheet as the boundary gives it. [`judge`](crate::judge) says the same in
/// Rust's terms.
#[repr(C)]
#[derive(Debug, Clone, Copy, PartialEq, Eq, Default)]
pub struct JudgedNumbers {
    /// The bytes written, 0 where refused.
    pub written: u32,
    /// 1 to 6 or 8 to 10 where refused, else 0.
    pub refusal: u32,
    /// The line or row that the refusal is about.
    pub place: u32,
}

/// The four slices lent to a call, of any lengths. The call uses the first C places of each and
/// leaves the rest as it was; a refused call leaves all of them as they were.
#[derive(Debug)]
pub struct Slices<'a> {
    /// The round that entered each code, 0 where none did.
    pub round: &'a mut [u16],
    /// The recorded neighbour in direction 1, or [`NONE`].
    pub first: &'a mut [u16],
    /// The recorded neighbour in direction 2, or [`NONE`].
    pub next: &'a mut [u16],
    /// 1 for the codes met from the top through `first` and `next`, else 0.
    pub used: &'a mut [u8],
}

mod raw {
    extern "C" {
        // A Rattle slice crosses as a pointer and then a length.
        pub fn solve(
            text: *const u8,
            text_len: usize,
            round: *mut u16,
            round_len: usize,
            first: *mut u16,
            first_len: usize,
            next: *mut u16,
            next_len: usize,
            used: *mut u8,
            used_len: usize,
        ) -> super::Numbers;

        pub fn judge(
            table: *const u8,
            table_len: usize,
            sheet: *const u8,
            sheet_len: usize,
            out: *mut u8,
            out_len: usize,
        ) -> super::JudgedNumbers;
    }
}

/// Solves `text` on four borrowed slices and gives the bare numbers.
///
/// ```
/// use host::{solve_on, Numbers, Slices};
///
/// let (mut round, mut first, mut next, mut used) = ([9; 17], [9; 16], [9; 20], [9; 16]);
/// let lent = Slices { round: &mut round, first: &mut first, next: &mut next, used: &mut used };
/// let numbers = solve_on(b"no\n", lent);
/// assert_eq!(numbers, Numbers { verdict: Numbers::UNSAT, height: 2, ..Numbers::default() });
/// assert_eq!(round[0], 1);  // the first round enters code 0
/// assert_eq!(round[16], 9); // the seventeenth place is beyond C = 16
/// ```
pub fn solve_on(text: &[u8], lent: Slices<'_>) -> Numbers {
    let Slices {
        round,
        first,
        next,
        used,
    } = lent;
    // SAFETY: each pointer comes from a live slice and goes with that slice's length; the four
    // mutable slices are borrowed apart from each other and from the text; the call keeps none
    // of them and asks nothing of the contents or the lengths. An empty slice's pointer goes with
    // length 0 and is not read.
    unsafe {
        raw::solve(
            text.as_ptr(),
            text.len(),
            round.as_mut_ptr(),
            round.len(),
            first.as_mut_ptr(),
            first.len(),
            next.as_mut_ptr(),
            next.len(),
            used.as_mut_ptr(),
            used.len(),
        )
    }
}

/// Judges `sheet` by `table` on borrowed bytes of any number, and gives the bare numbers.
///
/// The first `written` bytes of `out` are then one line a node: its number, a tab, 1 or 0 for row 0,
/// a line feed. The rest is as it was; a refused call leaves all of it as it was.
///
/// ```
/// use host::{judge_on, JudgedNumbers};
///
/// let (table, sheet) = (b"is\t1\n", b"0\t1\t-\n1\t-\t-\n");
/// let mut out = *b"??????????";
/// let numbers = judge_on(table, sheet, &mut out);
/// assert_eq!(numbers, JudgedNumbers { written: 8, refusal: 0, place: 0 });
/// assert_eq!(&out, b"0\t0\n1\t1\n??");
/// let numbers = judge_on(table, sheet, &mut out[..7]);
/// assert_eq!(numbers, JudgedNumbers { written: 0, refusal: 8, place: 0 });
/// ```
pub fn judge_on(table: &[u8], sheet: &[u8], out: &mut [u8]) -> JudgedNumbers {
    // SAFETY: each pointer comes from a live slice and goes with that slice's length; the texts
    // are only read, and may be one and the same; `out` is borrowed apart from both; the call keeps
    // none of them and asks nothing of the contents or the lengths. An empty slice's pointer goes
    // with length 0 and is not read.
    unsafe {
        raw::judge(
            table.as_ptr(),
            table.len(),
            sheet.as_ptr(),
            sheet.len(),
            out.as_mut_ptr(),
            out.len(),
        )
    }
}
