//! The linked library against the reference: every number and every place, on many texts and on
//! slices of many lengths. A failure prints the text; `SEED=n` repeats a run.

mod common;

use common::{
    both::{compare, compare_at_some_lengths, places, Tally},
    shown,
    tables::{damage, near_loop, path, reordered, sharing, table, text_of, there_and_back, Size},
    Random,
};
use host::{table::Row, Table};

fn small(random: &mut Random) -> Vec<Row> {
    let size = Size {
        rows: random.between(1, 9),
        names: random.between(1, 3),
        looks: random.between(0, 3),
    };
    table(random, size)
}

#[test]
fn small_tables() {
    let mut random = Random::start("small_tables", 1);
    let mut tally = Tally::default();
    for _ in 0..9_000 {
        let rows = small(&mut random);
        compare_at_some_lengths(&mut random, &text_of(&rows), &mut tally);
    }
    println!("{tally:?}");
    assert!(tally.sat > 1_000 && tally.unsat > 1_000 && tally.tall > 10);
    assert!(tally.refused[6] > 100 && tally.refused[8] > 500);
}

#[test]
fn recursion_there_and_back() {
    let mut random = Random::start("recursion_there_and_back", 2);
    let mut tally = Tally::default();
    for _ in 0..3_000 {
        let names = random.between(1, 4);
        let mut rows = there_and_back(&mut random, names);
        if random.chance(1, 3) {
            let changed = random.below(rows.len());
            rows[changed] = small(&mut random)[0];
        }
        compare_at_some_lengths(&mut random, &text_of(&rows), &mut tally);
    }
    println!("{tally:?}");
    assert!(tally.sat > 500 && tally.unsat > 300);
}

#[test]
fn paths() {
    let mut random = Random::start("paths", 9);
    let mut tally = Tally::default();
    for _ in 0..1_500 {
        let names = random.between(1, 3);
        let rows = path(&mut random, names);
        compare_at_some_lengths(&mut random, &text_of(&rows), &mut tally);
    }
    println!("{tally:?}");
    assert!(tally.sat > 300 && tally.unsat > 200 && tally.tall > 50);
}

#[test]
fn loops_and_near_loops() {
    let mut random = Random::start("loops_and_near_loops", 3);
    let mut tally = Tally::default();
    for _ in 0..3_000 {
        let rows = near_loop(&mut random);
        compare_at_some_lengths(&mut random, &text_of(&rows), &mut tally);
    }
    println!("{tally:?}");
    assert!(tally.refused[6] > 500 && tally.unsat + tally.sat > 500);
}

#[test]
fn damaged_bytes() {
    let mut random = Random::start("damaged_bytes", 4);
    let mut tally = Tally::default();
    for _ in 0..7_000 {
        let mut text = text_of(&small(&mut random));
        damage(&mut random, &mut text);
        // A repeated part may add looks; what is kept here stays quick to solve.
        if places(&text) <= 2_048 {
            compare_at_some_lengths(&mut random, &text, &mut tally);
        }
    }
    println!("{tally:?}");
    assert!(tally.texts > 6_000);
    for number in [1, 2, 4, 5, 6, 8] {
        assert!(tally.refused[number] > 10, "refusal {number}");
    }
}

#[test]
fn bytes_at_random() {
    let mut random = Random::start("bytes_at_random", 5);
    let mut tally = Tally::default();
    for _ in 0..2_000 {
        let length = random.below(40);
        let text: Vec<u8> = (0..length).map(|_| random.below(256) as u8).collect();
        compare_at_some_lengths(&mut random, &text, &mut tally);
        let bytes = b"\t\t\t\n\n\n0123456789yesnoisanyallgostop";
        let text: Vec<u8> = (0..length).map(|_| random.pick(bytes)).collect();
        compare_at_some_lengths(&mut random, &text, &mut tally);
    }
    println!("{tally:?}");
    assert!(tally.refused[1] > 20 && tally.refused[2] > 3_000);
}

/// Rows that are reached by very many ways through `any` and `all`: twice as many with each level.
#[test]
fn shared_rows() {
    let mut random = Random::start("shared_rows", 8);
    let mut tally = Tally::default();
    for _ in 0..200 {
        let depth = random.between(2, Table::ROWS - 3);
        let mut rows: Vec<Row> = (1..=depth)
            .map(|next| match random.chance(1, 2) {
                true => Row::Any(next, next),
                false => Row::All(next, next),
            })
            .collect();
        let back = random.below(depth);
        let direction = random.between(1, 4);
        rows.push(Row::Any(depth + 1, depth + 2));
        rows.push(Row::Is(1));
        rows.push(Row::Go(direction, back));
        compare_at_some_lengths(&mut random, &text_of(&rows), &mut tally);
    }
    println!("{tally:?}");
    assert!(tally.sat > 100);
}

/// Rows that are shared, written from the first to the last and in any other order. The verdict and
/// the height or rounds don't hang on it as long as the question stays row 0.
#[test]
fn shared_rows_in_any_order() {
    let mut random = Random::start("shared_rows_in_any_order", 10);
    let mut tally = Tally::default();
    for _ in 0..1_500 {
        let size = Size {
            rows: random.between(2, Table::ROWS),
            names: random.between(1, 3),
            looks: random.between(0, 4),
        };
        let rows = sharing(&mut random, size);
        let mut verdict = |rows: &[Row]| {
            let text = text_of(rows);
            let numbers = compare(&text, [places(&text); 4], &mut tally);
            (numbers.verdict, numbers.height)
        };
        let other = reordered(&mut random, &rows, 1);
        let of = || format!("{}\n{}", shown(&text_of(&rows)), shown(&text_of(&other)));
        assert_eq!(verdict(&rows), verdict(&other), "{}", of());
        let another = reordered(&mut random, &rows, 0);
        compare_at_some_lengths(&mut random, &text_of(&another), &mut tally);
    }
    println!("{tally:?}");
    assert!(tally.sat > 1_000 && tally.unsat > 1_000 && tally.tall > 5);
    assert_eq!(tally.sat + tally.unsat + tally.refused[8], tally.texts);
}
