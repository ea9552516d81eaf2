//! A second judge: the sheet is read, tested and evaluated by plain code of its own.

use std::fmt::Write;

use crate::{table::Table, JudgedNumbers, Refusal};

use super::{nodes::NodeList, sound_table};

/// The most lines of a sheet.
const LINES: usize = 255;

/// Judges `sheet` by `table`, as [`judge_on`](crate::judge_on) does.
///
/// ```
/// use host::{reference, JudgedNumbers};
///
/// let mut out = [b'?'; 10];
/// let numbers = reference::judge_on(b"go\t3\t1\nyes\n", b"0\t1\t-\n0\t-\t-\n", &mut out);
/// assert_eq!(numbers, JudgedNumbers { written: 8, refusal: 0, place: 0 });
/// assert_eq!(&out, b"0\t0\n1\t1\n??");
/// ```
pub fn judge_on(table: &[u8], sheet: &[u8], out: &mut [u8]) -> JudgedNumbers {
    match judge(table, sheet, out) {
        Ok(written) => JudgedNumbers {
            written: written as u32,
            ..JudgedNumbers::default()
        },
        Err(refusal) => JudgedNumbers {
            written: 0,
            refusal: refusal.number(),
            place: refusal.place() as u32,
        },
    }
}

/// The number of bytes written, or the refusal: 1 to 6, then 9, 10 and 8.
fn judge(table: &[u8], sheet: &[u8], out: &mut [u8]) -> Result<usize, Refusal> {
    let table = sound_table(table)?;
    let lines = read(sheet)?;
    if let Some(line) = (0..lines.len()).find(|line| faulty(&lines, *line)) {
        return Err(Refusal::WrongLinks { line });
    }
    let text = verdicts(&table, &lines);
    let front = out.get_mut(..text.len()).ok_or(Refusal::TooFewPlaces)?;
    front.copy_from_slice(text.as_bytes());
    Ok(text.len())
}

/// A line: the name, and what the fields for directions 1 and 2 name.
type Line = (usize, [Option<usize>; 2]);

/// The lines of a sheet, or refusal 9.
fn read(text: &[u8]) -> Result<Vec<Line>, Refusal> {
    let wrong = |line: usize| Refusal::WrongSheetForm { line };
    let mut lines = Vec::new();
    let mut rest = text;
    while lines.is_empty() || !rest.is_empty() {
        let number = lines.len();
        let end = rest.iter().position(|byte| *byte == b'\n');
        let (line, after) = end.map_or((None, rest), |end| (Some(&rest[..end]), &rest[end + 1..]));
        if number == LINES {
            return Err(wrong(number));
        }
        lines.push(line.and_then(read_line).ok_or(wrong(number))?);
        rest = after;
    }
    Ok(lines)
}

/// A line without its line feed, taken apart; `None` where its form is wrong.
fn read_line(line: &[u8]) -> Option<Line> {
    let fields: Vec<&[u8]> = line.split(|byte| *byte == b'\t').collect();
    let [name, first, next] = fields[..] else {
        return None;
    };
    let name = number(name).filter(|name| *name < Table::NAMES)?;
    Some((name, [link(first)?, link(next)?]))
}

fn link(field: &[u8]) -> Option<Option<usize>> {
    match field {
        b"-" => Some(None),
        _ => number(field).map(Some),
    }
}

/// A number of one to three digits that is written as numbers are.
fn number(field: &[u8]) -> Option<usize> {
    let number: usize = std::str::from_utf8(field).ok()?.parse().ok()?;
    (number < 1_000 && number.to_string().as_bytes() == field).then_some(number)
}

/// Whether the line names a line that isn't greater or isn't there, or isn't line 0 and is named
/// never or more than once.
fn faulty(lines: &[Line], line: usize) -> bool {
    let wrong = |to: &usize| *to <= line || *to >= lines.len();
    let named = lines.iter().flat_map(|(_, links)| links.iter().flatten());
    let times = named.filter(|to| **to == line).count();
    let (_, links) = lines[line];
    links.iter().flatten().any(wrong) || (line > 0 && times != 1)
}

/// One line a node: its number and 1 or 0 for row 0.
fn verdicts(table: &Table, lines: &[Line]) -> String {
    let truth = tree(table, lines).solution(table.rows(), false);
    let mut text = String::new();
    for (line, rows) in truth.iter().enumerate() {
        writeln!(text, "{line}\t{}", u8::from(rows[0])).expect("a string takes any text");
    }
    text
}

/// The tree that the lines are, with names as the table counts them.
fn tree(table: &Table, lines: &[Line]) -> NodeList {
    let counted = |name: usize| if name < table.names() { name } else { 0 };
    let names = lines.iter().map(|(name, _)| counted(*name)).collect();
    let mut nodes = NodeList::unlinked(names);
    for (from, (_, links)) in lines.iter().enumerate() {
        for (direction, link) in (1..).zip(links) {
            link.inspect(|to| nodes.link(from, direction, *to));
        }
    }
    nodes
}
