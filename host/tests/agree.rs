//! The solver against the judge: two libraries that share the meaning of a table and little else.

mod common;

use common::{
    sheets::sheet,
    shown,
    tables::{path, table, text_of, there_and_back, Size},
    Random,
};
use host::{judge, solve, Answer, Memory, Sheet, Side};

/// A table that is quick to solve.
fn small_table(random: &mut Random, names: usize) -> Vec<u8> {
    let size = Size {
        rows: random.between(1, 9),
        names,
        looks: 3,
    };
    text_of(&match random.below(3) {
        0 => table(random, size),
        1 => path(random, names),
        _ => there_and_back(random, names),
    })
}

/// The lines on the longest chain from the top.
fn height_of(sheet: &Sheet) -> usize {
    // A line names greater ones, so theirs are known by then.
    let mut heights = vec![1; sheet.lines().len()];
    for (number, line) in sheet.lines().iter().enumerate().rev() {
        let below = Side::BOTH.into_iter().filter_map(|side| line.on(side));
        heights[number] = 1 + below.map(|to| heights[to]).max().unwrap_or(0);
    }
    heights[0]
}

/// Judges a sheet that no one refuses, and gives the truth at its top.
fn true_at_top(table: &[u8], sheet: &Sheet) -> bool {
    let judged = judge(table, &sheet.text());
    judged.expect("an accepted table and a right sheet")[0]
}

#[test]
fn a_shown_tree_is_true_at_its_top() {
    let mut random = Random::start("a_shown_tree_is_true_at_its_top", 47);
    let (mut memory, mut trees) = (Memory::largest(), 0);
    for _ in 0..2_000 {
        let names = random.between(1, 4);
        let table = small_table(&mut random, names);
        let answer = solve(&table, &mut memory);
        if let Some(tree) = memory.tree().and_then(|tree| Sheet::of(&tree)) {
            assert!(true_at_top(&table, &tree), "{}", shown(&table));
            let height = height_of(&tree) as u32;
            assert!(matches!(answer, Answer::Sat { height: least, .. } if least == height));
            trees += 1;
        }
    }
    println!("{trees} shown trees");
    assert!(trees > 300);
}

/// A sheet lower than the least height is not true at its top, nor is any where there is none.
#[test]
fn no_lower_sheet_is_true_at_its_top() {
    let mut random = Random::start("no_lower_sheet_is_true_at_its_top", 48);
    let (mut memory, mut low, mut none) = (Memory::largest(), 0, 0);
    for _ in 0..2_000 {
        let names = random.between(1, 4);
        let table = small_table(&mut random, names);
        let least = match solve(&table, &mut memory) {
            Answer::Sat { height, .. } => height as usize,
            Answer::Unsat { .. } => usize::MAX,
            Answer::Refused(_) => continue,
        };
        let lines = random.pick(&[1, 1, 2, 3, 5, 20, 200]);
        let sheet = sheet(&mut random, lines, 16);
        if height_of(&sheet) < least {
            assert!(!true_at_top(&table, &sheet), "{}", shown(&table));
            low += usize::from(least < usize::MAX);
            none += usize::from(least == usize::MAX);
        }
    }
    println!("{low} sheets too low, {none} where there is none");
    assert!(low > 20 && none > 300);
}
