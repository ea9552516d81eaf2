//! Refusal 6 against a search for loops that follows walks step by step.

mod common;

use std::collections::{HashSet, VecDeque};

use common::{
    shown,
    tables::{near_loop, table, text_of, Size},
    Random,
};
use host::{solve, table::Row, Memory, Refusal};

/// The most directions that a walk may have open. Small tables need few.
const OPEN: usize = 12;

/// The steps from a row: the rows it leads to, with the direction if there is one.
fn steps(row: Row) -> Vec<(Option<usize>, usize)> {
    match row {
        Row::Any(i, j) | Row::All(i, j) => vec![(None, i), (None, j)],
        Row::Go(direction, i) => vec![(Some(direction), i)],
        _ => Vec::new(),
    }
}

/// The open directions after one more: it closes the last one if that is its converse.
fn walked(open: &[usize], direction: Option<usize>) -> Vec<usize> {
    let mut open = open.to_vec();
    match direction {
        None => {}
        Some(direction)
            if open
                .last()
                .is_some_and(|last| last.abs_diff(direction) == 2) =>
        {
            open.pop();
        }
        Some(direction) => open.push(direction),
    }
    open
}

/// Whether some walk leads from the row back to it with no direction left open.
fn on_a_loop(rows: &[Row], from: usize) -> bool {
    let mut seen: HashSet<(usize, Vec<usize>)> = HashSet::new();
    let mut waiting = VecDeque::from([(from, Vec::new())]);
    while let Some((row, open)) = waiting.pop_front() {
        for (direction, at) in steps(rows[row]) {
            let open = walked(&open, direction);
            if at == from && open.is_empty() {
                return true;
            }
            if open.len() <= OPEN && seen.insert((at, open.clone())) {
                waiting.push_back((at, open));
            }
        }
    }
    false
}

fn check(rows: &[Row]) -> bool {
    let text = text_of(rows);
    // With no places every loop-free table is refused too, but by 7 or 8.
    let refusal = solve(&text, &mut Memory::with_places(0)).refusal();
    let smallest = (0..rows.len()).find(|row| on_a_loop(rows, *row));
    let expected = smallest.map(|row| Refusal::Loop { row });
    let loops = refusal.filter(|refusal| refusal.number() == 6);
    assert_eq!(loops, expected, "text:\n{}", shown(&text));
    expected.is_some()
}

#[test]
fn the_smallest_row_on_a_loop() {
    let mut random = Random::start("the_smallest_row_on_a_loop", 31);
    let mut with_loop = 0;
    for number in 0..4_000 {
        let size = Size {
            rows: random.between(1, 7),
            names: 1,
            looks: 4,
        };
        let rows = match number % 2 {
            0 => table(&mut random, size),
            _ => near_loop(&mut random),
        };
        with_loop += usize::from(check(&rows));
    }
    println!("{with_loop} with a loop");
    assert!((400..3_600).contains(&with_loop));
}

/// A walk that cancels only after two turns of its ring: 1 at the first turn, 3 at the second.
#[test]
fn a_loop_of_several_turns() {
    let choice = Row::Any(1, 2);
    let rows = [choice, Row::Go(1, 3), Row::Go(3, 3), Row::All(0, 0)];
    assert!(check(&rows));
    let rows = [choice, Row::Go(1, 3), Row::Go(2, 3), Row::All(0, 0)];
    assert!(!check(&rows));
}

/// Directions 1 and then 4 cancel nothing, though no tree has such a walk; 1 and then 3 do.
#[test]
fn only_the_converse_cancels() {
    for (out, back, is_loop) in [
        (1, 3, true),
        (2, 4, true),
        (3, 1, true),
        (4, 2, true),
        (1, 4, false),
        (2, 3, false),
        (1, 2, false),
    ] {
        assert_eq!(check(&[Row::Go(out, 1), Row::Go(back, 0)]), is_loop);
    }
}
