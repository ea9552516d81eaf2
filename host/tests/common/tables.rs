//! Random tables: valid ones, ones near a loop, ones at a limit, and damaged ones.

use host::{table::Row, Table};

use super::Random;

/// How large a random table is.
#[derive(Clone, Copy)]
pub struct Size {
    pub rows: usize,
    pub names: usize,
    pub looks: usize,
}

/// How a row is written.
pub fn written(row: Row) -> String {
    match row {
        Row::Yes => "yes\n".to_string(),
        Row::No => "no\n".to_string(),
        Row::Is(name) => format!("is\t{name}\n"),
        Row::IsNot(name) => format!("isnot\t{name}\n"),
        Row::Any(i, j) => format!("any\t{i}\t{j}\n"),
        Row::All(i, j) => format!("all\t{i}\t{j}\n"),
        Row::Go(direction, i) => format!("go\t{direction}\t{i}\n"),
        Row::Stop(direction) => format!("stop\t{direction}\n"),
    }
}

pub fn text_of(rows: &[Row]) -> Vec<u8> {
    let lines: String = rows.iter().map(|row| written(*row)).collect();
    lines.into_bytes()
}

/// A table whose references mostly point forwards, and back only from look rows: many such
/// tables are free of loops, and their recursion is real.
pub fn table(random: &mut Random, size: Size) -> Vec<Row> {
    let mut looks = 0;
    let mut rows = Vec::new();
    for at in 0..size.rows {
        let mut row = any_row(random, at, size);
        if matches!(row, Row::Go(..)) {
            looks += 1;
            if looks > size.looks {
                row = leaf(random, size.names);
            }
        }
        rows.push(row);
    }
    rows
}

fn any_row(random: &mut Random, at: usize, size: Size) -> Row {
    let last = at + 1 == size.rows;
    match random.below(10) {
        0..=2 if !last => Row::Any(onwards(random, at, size), onwards(random, at, size)),
        3..=5 if !last => Row::All(onwards(random, at, size), onwards(random, at, size)),
        6..=8 => Row::Go(random.pick(&[1, 1, 2, 2, 3, 4]), random.below(size.rows)),
        _ => leaf(random, size.names),
    }
}

/// A row behind `at`; once in forty any row, for loops through `any` and `all` alone.
fn onwards(random: &mut Random, at: usize, size: Size) -> usize {
    if random.chance(1, 40) {
        return random.below(size.rows);
    }
    random.between(at + 1, size.rows - 1)
}

fn leaf(random: &mut Random, names: usize) -> Row {
    let name = random.below(names);
    match random.below(8) {
        0 => Row::Yes,
        1 => Row::No,
        2..=4 => Row::Is(name),
        5 => Row::IsNot(name),
        _ => Row::Stop(random.between(1, 4)),
    }
}

/// Some node reached through directions `down` where something holds that is found by going
/// through directions `back`: recursion both ways, as a rule of the trade has it.
pub fn there_and_back(random: &mut Random, names: usize) -> Vec<Row> {
    let down = random.pick(&[1, 2]);
    let back = random.pick(&[3, 4]);
    let (here, there) = (random.below(names), random.below(names));
    let last = match random.below(4) {
        0 => Row::Stop(random.between(1, 4)),
        1 => Row::IsNot(there),
        _ => Row::Is(there),
    };
    let join = |random: &mut Random, i, j| match random.chance(1, 2) {
        true => Row::Any(i, j),
        false => Row::All(i, j),
    };
    vec![
        join(random, 1, 2),
        Row::Go(down, 0),
        join(random, 3, 4),
        Row::Is(here),
        join(random, 5, 6),
        Row::Go(back, 4),
        last,
    ]
}

/// A path of steps, each with a test of the name and a look at the next step. The last step
/// ends, or looks back at an earlier one: tall trees come of these.
pub fn path(random: &mut Random, names: usize) -> Vec<Row> {
    let steps = random.between(2, 4);
    let mut rows = Vec::new();
    for step in 0..steps {
        let at = 3 * step;
        let onwards = match step + 1 == steps && random.chance(1, 2) {
            true => 3 * random.below(steps),
            false => at + 3,
        };
        rows.push(match random.chance(4, 5) {
            true => Row::All(at + 1, at + 2),
            false => Row::Any(at + 1, at + 2),
        });
        rows.push(leaf(random, names));
        rows.push(Row::Go(random.pick(&[1, 1, 1, 2, 2, 2, 3, 4]), onwards));
    }
    rows.push(Row::Is(random.below(names)));
    rows
}

/// Where the rows of a table look that has no loop, if its `any` and `all` rows name later ones.
/// Either all references point forwards; or the rows before a place look down, those from it on
/// look up and never back before it.
struct Looking {
    rows: usize,
    forwards: bool,
    turn: usize,
}

impl Looking {
    fn some(random: &mut Random, rows: usize) -> Looking {
        Looking {
            rows,
            forwards: random.chance(1, 3),
            turn: random.below(rows + 1),
        }
    }

    /// A look for row `at`, unless there is no row that it may look at.
    fn look(&self, random: &mut Random, at: usize) -> Option<Row> {
        let (directions, least) = match (self.forwards, at < self.turn) {
            (true, _) => (&[1, 2, 3, 4][..], at + 1),
            (_, true) => (&[1, 2][..], 0),
            (_, false) => (&[3, 4][..], self.turn),
        };
        let last = self.rows - 1;
        (least <= last).then(|| Row::Go(random.pick(directions), random.between(least, last)))
    }
}

/// A table without a loop in which most rows look, too many for the solver if it is large.
pub fn looking(random: &mut Random, rows: usize, names: usize) -> Vec<Row> {
    let looking = Looking::some(random, rows);
    let mut table = Vec::new();
    for at in 0..rows {
        let onwards = |random: &mut Random| random.between(at + 1, rows - 1);
        let look = looking.look(random, at);
        table.push(match (random.below(10), look) {
            (0..=5, Some(look)) => look,
            (6, _) if at + 1 < rows => Row::All(onwards(random), onwards(random)),
            (7..=8, _) if at + 1 < rows => Row::Any(onwards(random), onwards(random)),
            _ => leaf(random, names),
        });
    }
    table
}

/// A table without a loop in which most rows are `any` and `all` rows that name rows among the next
/// three: very many ways lead through them.
pub fn sharing(random: &mut Random, size: Size) -> Vec<Row> {
    let looking = Looking::some(random, size.rows);
    let last = size.rows - 1;
    let mut looks = size.looks;
    let mut table = Vec::new();
    for at in 0..size.rows {
        let near = |random: &mut Random| random.between(at + 1, last.min(at + 3));
        let look = looking.look(random, at).filter(|_| looks > 0);
        let row = match (random.below(10), look) {
            (0..=3, _) if at < last => Row::Any(near(random), near(random)),
            (4..=7, _) if at < last => Row::All(near(random), near(random)),
            (8, Some(look)) => look,
            _ => leaf(random, size.names),
        };
        looks -= usize::from(matches!(row, Row::Go(..)));
        table.push(row);
    }
    table
}

/// The same rows in another order, all but the first `kept`; references follow.
pub fn reordered(random: &mut Random, rows: &[Row], kept: usize) -> Vec<Row> {
    let mut place: Vec<usize> = (0..rows.len()).collect();
    for at in kept..rows.len() {
        place.swap(at, random.between(at, rows.len() - 1));
    }
    let mut moved = rows.to_vec();
    for (at, row) in rows.iter().enumerate() {
        moved[place[at]] = match *row {
            Row::Any(i, j) => Row::Any(place[i], place[j]),
            Row::All(i, j) => Row::All(place[i], place[j]),
            Row::Go(direction, i) => Row::Go(direction, place[i]),
            other => other,
        };
    }
    moved
}

/// A table of any of several makes; few of them have a loop.
pub fn some_table(random: &mut Random) -> Vec<u8> {
    let names = random.between(1, 4);
    let rows = match random.below(8) {
        0 => near_loop(random),
        1..=2 => path(random, names),
        3..=4 => there_and_back(random, names),
        5 => {
            let rows = random.between(1, Table::ROWS + 2);
            looking(random, rows, names)
        }
        _ => {
            let size = Size {
                rows: random.between(1, 12),
                names,
                looks: 12,
            };
            table(random, size)
        }
    };
    text_of(&rows)
}

/// A ring of looks whose directions cancel, or nearly: one direction may be turned.
pub fn near_loop(random: &mut Random) -> Vec<Row> {
    let half = random.between(1, 3);
    let out: Vec<usize> = (0..half).map(|_| random.between(1, 4)).collect();
    let converse = |direction: &usize| (direction + 1) % 4 + 1;
    let mut ring: Vec<usize> = out
        .iter()
        .chain(out.iter().rev().map(converse).collect::<Vec<_>>().iter())
        .copied()
        .collect();
    if random.chance(1, 2) {
        let turned = random.below(ring.len());
        ring[turned] = random.between(1, 4);
    }
    let turn = random.below(ring.len());
    ring.rotate_left(turn);
    let lead = random.below(3);
    let mut rows: Vec<Row> = (0..lead).map(|at| Row::Any(at + 1, at + 1)).collect();
    for (at, direction) in ring.iter().enumerate() {
        rows.push(Row::Go(*direction, lead + (at + 1) % ring.len()));
    }
    if random.chance(1, 2) {
        open_ring(random, &mut rows);
    }
    rows
}

/// Cuts one look of a ring and lets it look at a last row instead.
fn open_ring(random: &mut Random, rows: &mut Vec<Row>) {
    let at = random.below(rows.len());
    if let Row::Go(direction, _) = rows[at] {
        rows[at] = Row::Go(direction, rows.len());
        rows.push(Row::Yes);
    }
}

/// Damages a text in one place, or in several.
pub fn damage(random: &mut Random, text: &mut Vec<u8>) {
    for _ in 0..random.pick(&[1, 1, 1, 2, 3]) {
        let at = random.below(text.len() + 1);
        match random.below(14) {
            0 => text.truncate(at),
            1 => text.insert(at, random.below(256) as u8),
            2 => text.insert(at, random.pick(b"\t\n 0123456789\r\0isnotygaelp")),
            3 => drop(text.pop()),
            _ if text.is_empty() => {}
            4 => drop(text.remove(at % text.len())),
            5 => flip_a_bit(random, text, at),
            6 => replace(random, text, at),
            7..=12 => change_a_digit(random, text, at),
            _ => repeat_a_part(random, text, at),
        }
    }
}

fn flip_a_bit(random: &mut Random, text: &mut [u8], at: usize) {
    let place = at % text.len();
    text[place] ^= 1 << random.below(8);
}

fn replace(random: &mut Random, text: &mut [u8], at: usize) {
    let place = at % text.len();
    text[place] = random.pick(b"\t\n 0123456789AZaz");
}

/// The damage that is hardest to see: the line keeps its form.
fn change_a_digit(random: &mut Random, text: &mut Vec<u8>, at: usize) {
    let Some(place) = text[at..].iter().position(u8::is_ascii_digit) else {
        return;
    };
    if random.chance(1, 4) {
        text.insert(at + place, random.pick(b"0123456789"));
    } else {
        text[at + place] = random.pick(b"0123456789");
    }
}

fn repeat_a_part(random: &mut Random, text: &mut Vec<u8>, at: usize) {
    let end = text.len().min(at + random.between(1, 12));
    let part = text[at..end].to_vec();
    text.splice(at..at, part);
}
