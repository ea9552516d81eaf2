//! The shown tree drawn as text.

use std::fmt;

use crate::{Node, Tree};

/// A picture of the shown tree: children are indented under their parent, siblings stand in
/// order, and each node is its name with its code beside it. See [`Tree::picture`].
///
/// ```
/// use host::{solve, Memory};
///
/// let mut memory = Memory::largest();
/// solve(b"go\t1\t1\nall\t2\t3\nis\t1\ngo\t2\t4\nis\t2\n", &mut memory);
/// let tree = memory.tree().unwrap();
/// assert_eq!(tree.picture(10).to_string(), "\
/// 0  (code 5)  <- row 0 is true here
/// ├─ 1  (code 90)
/// └─ 2  (code 160)
/// ");
/// assert_eq!(tree.picture(2).to_string(), "\
/// 0  (code 5)  <- row 0 is true here
/// ├─ 1  (code 90)
/// … and 1 more
/// ");
/// ```
#[derive(Debug, Clone, Copy)]
pub struct Picture<'a> {
    pub(crate) tree: Tree<'a>,
    pub(crate) limit: usize,
}

impl fmt::Display for Picture<'_> {
    fn fmt(&self, f: &mut fmt::Formatter<'_>) -> fmt::Result {
        let mut lines = Lines::default();
        for node in self.tree.nodes().take(self.limit) {
            lines.fmt_node(&node, f)?;
        }
        fmt_rest(self.tree.size(), self.limit, f)
    }
}

fn fmt_rest(size: u64, limit: usize, f: &mut fmt::Formatter<'_>) -> fmt::Result {
    match size.saturating_sub(limit as u64) {
        0 => Ok(()),
        _ if size == u64::MAX => writeln!(f, "… and more than can be counted"),
        more => writeln!(f, "… and {more} more"),
    }
}

/// The upright lines that are open to the left of the node being drawn.
#[derive(Default)]
struct Lines {
    /// For each depth below the first: whether the entry drawn there last has a sibling to come.
    open: Vec<bool>,
}

impl Lines {
    fn fmt_node(&mut self, node: &Node, f: &mut fmt::Formatter<'_>) -> fmt::Result {
        // The top and its siblings stand at the margin, without a branch.
        if let Some(parents) = node.depth.checked_sub(1) {
            self.open.truncate(parents);
            for open in &self.open {
                f.write_str(if *open { "│  " } else { "   " })?;
            }
            self.open.push(node.next.is_some());
            let last = node.next.is_none();
            f.write_str(if last { "└─ " } else { "├─ " })?;
        } else {
            self.open.clear();
        }
        write!(f, "{}  (code {})", node.name, node.code)?;
        if node.place == 0 {
            write!(f, "  <- row 0 is true here")?;
        }
        writeln!(f)
    }
}
