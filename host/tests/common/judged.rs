//! A sheet judged by the library and by the reference on equal bytes, and the two compared.

use host::{judge, judge_on, judged_bytes, reference, JudgedNumbers, Refusal, Sheet};

use super::{shown, Random};

/// How often each outcome was met: a run that met too few of one has compared too little.
#[derive(Default, Debug)]
pub struct Tally {
    pub calls: usize,
    pub judged: usize,
    /// Of the judged lines, those where row 0 is true, and the others.
    pub lines: [usize; 2],
    pub refused: [usize; 11],
}

impl Tally {
    fn count(&mut self, numbers: JudgedNumbers, written: &[u8]) {
        self.calls += 1;
        if numbers.refusal != 0 {
            self.refused[numbers.refusal as usize] += 1;
            return;
        }
        self.judged += 1;
        let digits = |digit: &[u8]| written.windows(3).filter(|part| *part == digit).count();
        self.lines[0] += digits(b"\t1\n");
        self.lines[1] += digits(b"\t0\n");
    }
}

/// The bytes that are written of a sheet, if it is right.
pub fn need(sheet: &[u8]) -> usize {
    let lines = sheet.iter().filter(|byte| **byte == b'\n').count();
    judged_bytes(lines.min(Sheet::LINES))
}

/// Judges a sheet both ways with so many bytes, compares, and gives the numbers.
pub fn compare(table: &[u8], sheet: &[u8], lent: usize, tally: &mut Tally) -> JudgedNumbers {
    // No byte of this pattern is one that is written.
    let before: Vec<u8> = (0..lent).map(|at| (at * 37) as u8 | 0x80).collect();
    let (mut ours, mut theirs) = (before.clone(), before.clone());
    let numbers = judge_on(table, sheet, &mut ours);
    let expected = reference::judge_on(table, sheet, &mut theirs);
    let of = || {
        let (table, sheet) = (shown(table), shown(sheet));
        format!("{lent} bytes, table:\n{table}\nsheet:\n{sheet}")
    };
    assert_eq!(numbers, expected, "numbers differ; {}", of());
    assert!(ours == theirs, "bytes differ; {}", of());
    let written = numbers.written as usize;
    assert!(
        ours[written..] == before[written..],
        "touched beyond what is written, or after a refusal; {}",
        of()
    );
    tally.count(numbers, &ours[..written]);
    numbers
}

/// Judges a sheet with as many bytes as it needs, or about as many.
pub fn compare_at_some_length(
    random: &mut Random,
    table: &[u8],
    sheet: &[u8],
    tally: &mut Tally,
) -> JudgedNumbers {
    let need = need(sheet);
    let short = [0, need / 2, need.saturating_sub(1)];
    let lent = match random.below(8) {
        0 => random.pick(&short),
        1..=4 => need,
        _ => need + random.pick(&[1, 3, 100]),
    };
    compare(table, sheet, lent, tally)
}

/// The safe interface says what the numbers and bytes say, whatever was lent for them.
pub fn compare_safe(table: &[u8], sheet: &[u8]) -> Result<Vec<bool>, Refusal> {
    let mut out = vec![0; judged_bytes(Sheet::LINES)];
    let numbers = reference::judge_on(table, sheet, &mut out);
    let judged = judge(table, sheet);
    let expected = match Refusal::new(numbers.refusal, numbers.place) {
        Some(refusal) => Err(refusal),
        None => Ok(out[..numbers.written as usize]
            .split_inclusive(|byte| *byte == b'\n')
            .map(|line| line.ends_with(b"\t1\n"))
            .collect()),
    };
    assert_eq!(judged, expected, "sheet:\n{}", shown(sheet));
    judged
}
