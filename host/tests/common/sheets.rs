//! Random sheets: right ones of many shapes, and damaged ones.

use host::{Sheet, Side};

use super::{tables, Random};

/// A right sheet of so many lines with names below `names`. A line hangs from one of the last few
/// lines or from any, on one side or on either: chains, lists, bushes and what is between.
pub fn sheet(random: &mut Random, lines: usize, names: usize) -> Sheet {
    let reach = random.pick(&[1, 2, 5, 20, Sheet::LINES, Sheet::LINES]);
    let sides = random.pick(&[
        &Side::BOTH[..],
        &Side::BOTH,
        &Side::BOTH,
        &Side::BOTH[..1],
        &Side::BOTH[1..],
    ]);
    let mut sheet = Sheet::new(random.below(names)).expect("a name of a sheet");
    while sheet.lines().len() < lines {
        let count = sheet.lines().len();
        let from = count - 1 - random.below(count.min(reach));
        // Where the line has such a neighbour already, another place is tried.
        sheet.add(from, random.pick(sides), random.below(names));
    }
    sheet
}

/// A right sheet, mostly of few lines, sometimes of as many as there may be.
pub fn some_sheet(random: &mut Random) -> Sheet {
    let (lines, names) = (some_lines(random), random.pick(&[1, 2, 2, 3, 4, 16]));
    sheet(random, lines, names)
}

fn some_lines(random: &mut Random) -> usize {
    match random.below(20) {
        0 => Sheet::LINES - random.below(3),
        1..=2 => random.between(1, Sheet::LINES),
        3..=6 => random.between(9, 40),
        _ => random.between(1, 9),
    }
}

/// The three fields of each line.
pub type Fields = Vec<[String; 3]>;

pub fn fields_of(sheet: &Sheet) -> Fields {
    let link = |link: Option<usize>| link.map_or("-".to_string(), |to| to.to_string());
    let lines = sheet.lines().iter();
    lines
        .map(|line| [line.name.to_string(), link(line.first), link(line.next)])
        .collect()
}

pub fn text_of(fields: &Fields) -> Vec<u8> {
    let lines = fields.iter().map(|fields| fields.join("\t") + "\n");
    lines.collect::<String>().into_bytes()
}

/// A kind of damage: what it does to the fields, then to the text, and the outcomes that it can
/// have, as refusal numbers with 0 for a sheet that is judged all the same.
pub struct Damage {
    pub name: &'static str,
    pub fields: fn(&mut Random, &mut Fields),
    pub text: fn(&mut Random, &mut Vec<u8>),
    pub outcomes: &'static [u32],
}

const fn in_fields(
    name: &'static str,
    outcomes: &'static [u32],
    fields: fn(&mut Random, &mut Fields),
) -> Damage {
    Damage {
        name,
        fields,
        text: |_, _| {},
        outcomes,
    }
}

const fn in_text(
    name: &'static str,
    outcomes: &'static [u32],
    text: fn(&mut Random, &mut Vec<u8>),
) -> Damage {
    Damage {
        name,
        fields: |_, _| {},
        text,
        outcomes,
    }
}

pub const DAMAGES: [Damage; 18] = [
    in_fields("a name above 15", &[9], |random, fields| {
        let name = random.pick(&[16, 17, 20, 99, 100, 115, 255, 256, 999]);
        line(random, fields)[0] = name.to_string();
    }),
    in_fields("leading zeros", &[9], |random, fields| {
        let zeros = random.pick(&["0", "00"]);
        let field = field(random, fields);
        *field = format!("{zeros}{field}");
    }),
    in_fields("four digits", &[9], |random, fields| {
        let side = random.between(1, 2);
        line(random, fields)[side] = random.between(1_000, 70_000).to_string();
    }),
    in_fields("a field that isn't there", &[9], |random, fields| {
        field(random, fields).clear();
    }),
    in_fields("a field too many", &[9], |random, fields| {
        field(random, fields).push_str("\t-");
    }),
    in_fields("fields swapped", &[0, 9, 10], |random, fields| {
        let (one, other) = random.pick(&[(0, 1), (0, 2), (1, 2)]);
        line(random, fields).swap(one, other);
    }),
    in_fields("lines swapped", &[0, 10], |random, fields| {
        let (one, other) = (random.below(fields.len()), random.below(fields.len()));
        fields.swap(one, other);
    }),
    in_fields("a line twice", &[9, 10], |random, fields| {
        let at = random.below(fields.len());
        fields.insert(at, fields[at].clone());
    }),
    in_fields("a line removed", &[0, 9, 10], |random, fields| {
        let at = random.below(fields.len());
        fields.remove(at);
    }),
    in_fields("a line not greater is named", &[10], |random, fields| {
        let at = random.below(fields.len());
        fields[at][random.between(1, 2)] = random.between(0, at).to_string();
    }),
    in_fields(
        "a line that isn't there is named",
        &[10],
        |random, fields| {
            let (count, far) = (fields.len(), random.between(fields.len(), 999));
            let side = random.between(1, 2);
            line(random, fields)[side] = random.pick(&[count, count + 1, far]).to_string();
        },
    ),
    in_fields("another line is named", &[0, 10], |random, fields| {
        let at = random.below(fields.len());
        let to = random.between(at, fields.len() - 1).max(1);
        fields[at][random.between(1, 2)] = to.to_string();
    }),
    in_fields(
        "one line named by both fields",
        &[0, 10],
        |random, fields| {
            let line = line(random, fields);
            line[1] = line[random.between(1, 2)].clone();
            line[2] = line[1].clone();
        },
    ),
    in_fields("a line no longer named", &[0, 10], |random, fields| {
        let side = random.between(1, 2);
        line(random, fields)[side] = "-".to_string();
    }),
    in_fields("256 lines and more", &[9], |random, fields| {
        let leaf = ["0", "-", "-"].map(str::to_string);
        fields.resize(Sheet::LINES, leaf);
        for _ in 0..random.between(1, 3) {
            let last = random.pick(&["-", "0", "", "x", "-\t-"]);
            fields.push(["0", "-", last].map(str::to_string));
        }
        // Some line before the 256th has a wrong form as well, or none.
        if random.chance(1, 3) {
            field(random, fields).push('x');
        }
    }),
    in_text("no final line feed", &[9], |_, text| {
        text.pop();
    }),
    in_text("a line feed removed", &[9], |random, text| {
        let feeds = text.iter().enumerate().filter(|(_, byte)| **byte == b'\n');
        let places: Vec<usize> = feeds.map(|(at, _)| at).collect();
        text.remove(random.pick(&places));
    }),
    in_text("bytes changed", &[0, 9, 10], tables::damage),
];

fn line<'a>(random: &mut Random, fields: &'a mut Fields) -> &'a mut [String; 3] {
    let at = random.below(fields.len());
    &mut fields[at]
}

fn field<'a>(random: &mut Random, fields: &'a mut Fields) -> &'a mut String {
    let at = random.below(3);
    &mut line(random, fields)[at]
}

/// A sheet's text with one damage.
pub fn damaged(random: &mut Random, sheet: &Sheet, damage: &Damage) -> Vec<u8> {
    let mut fields = fields_of(sheet);
    (damage.fields)(random, &mut fields);
    let mut text = text_of(&fields);
    (damage.text)(random, &mut text);
    text
}
