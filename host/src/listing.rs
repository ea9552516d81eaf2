//! What the program `sheetsat` prints.

use std::fmt::Write;

use crate::{solve, Answer, Memory, Tree};

/// Solves `text` and gives what `sheetsat` prints for it, had it this memory.
///
/// ```
/// use host::{listing, Memory};
///
/// let mut memory = Memory::with_places(4096);
/// assert_eq!(listing(b"go\t1\t1\nis\t1\n", &mut memory), "sat\t2\t3\n40\t1\t-\t-\n3\t0\t40\t-\n");
/// assert_eq!(listing(b"is\t16\n", &mut memory), "refused\t4\t0\n");
/// ```
pub fn listing(text: &[u8], memory: &mut Memory) -> String {
    match solve(text, memory) {
        Answer::Refused(refusal) => {
            format!("refused\t{}\t{}\n", refusal.number(), refusal.place())
        }
        Answer::Unsat { rounds } => format!("unsat\t{rounds}\n"),
        Answer::Sat { height, top } => {
            let tree = memory.tree().expect("sat shows a tree");
            format!("sat\t{height}\t{top}\n{}", lines(tree))
        }
    }
}

/// One line for each used code: code, name, first, next.
fn lines(tree: Tree<'_>) -> String {
    let mut lines = String::new();
    for code in tree.codes() {
        let (name, first, next) = (tree.name(code), tree.first(code), tree.next(code));
        writeln!(lines, "{code}\t{name}\t{}\t{}", field(first), field(next))
            .expect("a string takes any text");
    }
    lines
}

fn field(neighbour: Option<u16>) -> String {
    neighbour.map_or("-".to_string(), |code| code.to_string())
}
