//! The library against brute force: all trees up to height 3, with the least solution of the
//! rows worked out at every node. Nothing of codes or rounds is used here.

mod common;

use common::{
    shown,
    tables::{path, reordered, sharing, table, text_of, there_and_back, Size},
    Random,
};
use host::{reference::nodes::NodeList, solve, table::Row, Answer, Memory, Table, Tree};

/// The nodes on the longest chain of steps from the top.
fn height_of(sheet: &NodeList) -> usize {
    // A child stands behind its parent in the list.
    let mut levels = vec![1; sheet.names.len()];
    for (node, neighbours) in sheet.neighbours.iter().enumerate() {
        for child in neighbours[..2].iter().flatten() {
            levels[*child] = levels[node] + 1;
        }
    }
    levels.into_iter().max().unwrap_or(0)
}

/// Appends `other` and makes its top the neighbour of the top in direction 1 or 2.
fn attach(sheet: &mut NodeList, direction: usize, other: &NodeList) {
    let shift = sheet.names.len();
    sheet.names.extend(&other.names);
    let moved = |neighbours: &[Option<usize>; 4]| neighbours.map(|n| n.map(|n| n + shift));
    sheet.neighbours.extend(other.neighbours.iter().map(moved));
    sheet.link(0, direction, shift);
}

/// All trees of at most this height with names below `names`.
fn all_sheets(height: usize, names: usize) -> Vec<NodeList> {
    if height == 0 {
        return Vec::new();
    }
    let lower = all_sheets(height - 1, names);
    let none_or_one = || std::iter::once(None).chain(lower.iter().map(Some));
    let mut sheets = Vec::new();
    for name in 0..names {
        for first in none_or_one() {
            for next in none_or_one() {
                let mut sheet = NodeList::unlinked(vec![name]);
                first.inspect(|first| attach(&mut sheet, 1, first));
                next.inspect(|next| attach(&mut sheet, 2, next));
                sheets.push(sheet);
            }
        }
    }
    sheets
}

/// All trees up to height 3 for one to three names, least heights first.
struct Forest {
    by_names: Vec<Vec<NodeList>>,
}

impl Forest {
    const HEIGHT: usize = 3;
    const NAMES: usize = 3;

    fn new() -> Forest {
        let sheets = |names: usize| {
            let mut sheets = all_sheets(Forest::HEIGHT, names);
            sheets.sort_by_key(height_of);
            sheets
        };
        Forest {
            by_names: (1..=Forest::NAMES).map(sheets).collect(),
        }
    }

    /// The least height up to 3 of a tree with row 0 true at its top.
    fn least_height(&self, table: &Table) -> Option<usize> {
        let rows = table.rows();
        let sheets = &self.by_names[table.names() - 1];
        let fits = |sheet: &&NodeList| sheet.solution(rows, false)[0][0];
        sheets.iter().find(fits).map(height_of)
    }
}

/// The shown tree as a list of nodes.
fn unfolded(tree: &Tree<'_>) -> NodeList {
    let names = tree.nodes().map(|node| node.name).collect();
    let mut sheet = NodeList::unlinked(names);
    for node in tree.nodes() {
        if let Some((from, side)) = node.above {
            sheet.link(from, side.direction(), node.place);
        }
    }
    sheet
}

/// What a run of tables has met.
#[derive(Default, Debug)]
struct Met {
    low: usize,
    tall: usize,
    unsat: usize,
    refused: usize,
}

fn check(rows: &[Row], forest: &Forest, memory: &mut Memory, met: &mut Met) {
    let text = text_of(rows);
    let of = || format!("text:\n{}", shown(&text));
    let answer = solve(&text, memory);
    if let Answer::Refused(_) = answer {
        met.refused += 1;
        return;
    }
    let table = Table::read(&text).expect("an accepted text can be read");
    let found = forest.least_height(&table);
    match (answer, found) {
        (Answer::Sat { height, .. }, Some(least)) => {
            assert_eq!(height as usize, least, "least height; {}", of());
            met.low += 1;
        }
        (Answer::Sat { height, .. }, None) => {
            assert!(height as usize > Forest::HEIGHT, "too low; {}", of());
            met.tall += 1;
        }
        (_, found) => {
            assert_eq!(found, None, "unsat, but a tree fits; {}", of());
            met.unsat += 1;
        }
    }
    if let (Answer::Sat { height, .. }, Some(tree)) = (answer, memory.tree()) {
        check_shown_tree(&table, &tree, height as usize, of);
    }
}

/// The shown tree has the reported height, and row 0 is true at its top.
fn check_shown_tree(table: &Table, tree: &Tree<'_>, height: usize, of: impl Fn() -> String) {
    assert_eq!(tree.height(), height, "round of the top; {}", of());
    if tree.size() > 5_000 {
        return;
    }
    let sheet = unfolded(tree);
    assert_eq!(sheet.names.len() as u64, tree.size(), "size; {}", of());
    assert_eq!(height_of(&sheet), height, "height of the tree; {}", of());
    let levels = tree.nodes().map(|node| node.level);
    assert_eq!(levels.max(), Some(height), "levels; {}", of());
    let truth = sheet.solution(table.rows(), false);
    assert!(truth[0][0], "row 0 is false at the top; {}", of());
    // Each node's code says of each look row whether it is true there.
    for node in tree.nodes() {
        for (bit, look) in table.looks().iter().enumerate() {
            let said = node.code >> bit & 1 == 1;
            assert_eq!(said, truth[node.place][look.row], "a bit; {}", of());
        }
    }
}

#[test]
fn verdicts_and_least_heights() {
    let mut random = Random::start("verdicts_and_least_heights", 21);
    let (forest, mut memory, mut met) = (Forest::new(), Memory::largest(), Met::default());
    for number in 0..4_000 {
        let names = random.pick(&[1, 1, 2, 2, 2, 2, 2, 3]);
        let size = Size {
            rows: random.between(2, 7),
            names,
            looks: random.between(1, 4),
        };
        let rows = match number % 4 {
            0 => table(&mut random, size),
            1 => path(&mut random, names),
            2 => there_and_back(&mut random, names),
            _ => {
                let rows = sharing(&mut random, size);
                reordered(&mut random, &rows, 0)
            }
        };
        check(&rows, &forest, &mut memory, &mut met);
    }
    println!("{met:?}");
    assert!(met.low > 500 && met.tall > 20 && met.unsat > 500);
}

#[test]
fn there_are_as_many_trees_as_there_should_be() {
    // With names n and t trees one lower, n × (1 + t)² trees.
    let counts: Vec<usize> = (1..=3).map(|height| all_sheets(height, 2).len()).collect();
    assert_eq!(counts, [2, 18, 722]);
}

/// An accepted table has exactly one solution on each finite tree: what the loop test is for.
#[test]
fn accepted_tables_have_one_solution() {
    let mut random = Random::start("accepted_tables_have_one_solution", 22);
    let sheets = all_sheets(3, 1);
    let mut memory = Memory::with_places(0);
    let (mut accepted, mut refused_with_two) = (0, 0);
    for _ in 0..4_000 {
        let size = Size {
            rows: random.between(1, 6),
            names: 1,
            looks: 4,
        };
        let rows = table(&mut random, size);
        let text = text_of(&rows);
        let refusal = solve(&text, &mut memory)
            .refusal()
            .map(|refusal| refusal.number());
        let one = |sheet: &NodeList| sheet.solution(&rows, false) == sheet.solution(&rows, true);
        let all_one = sheets.iter().all(one);
        if refusal == Some(6) {
            refused_with_two += usize::from(!all_one);
        } else {
            assert!(
                all_one,
                "accepted with two solutions; text:\n{}",
                shown(&text)
            );
            accepted += 1;
        }
    }
    println!("accepted {accepted}, refused with two solutions {refused_with_two}");
    assert!(accepted > 1_000 && refused_with_two > 50);
}
