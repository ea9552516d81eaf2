//! The office planner's side of the sheet solver.
//!
//! A *table* is a rule about trees, written as text with one row a line. The solver, linked from
//! `libsolver.a`, says whether some finite tree makes row 0 true at its top, and shows one of least
//! height. The judge, linked from `libjudge.a`, says at which nodes of a given tree, a *sheet*, row 0
//! is true. This crate wraps both in a safe interface:
//!
//! - [`Memory`] owns the four slices that the solver is lent, and [`solve`] fills them;
//! - [`Answer`] and [`Refusal`] are the verdict, and say themselves in words;
//! - [`Tree`] is the shown tree: an iterator over its nodes, and a [`Picture`];
//! - [`listing`] gives what the program `sheetsat` prints;
//! - [`judge`] gives the truths at a sheet's lines, and [`Sheet`] makes right sheets;
//! - [`solve_on`] and [`judge_on`] are the bare calls on borrowed slices of any lengths;
//! - [`reference`](mod@reference) is a second solver and judge in Rust, which the tests compare with
//!   the first.
//!
//! # Example
//!
//! Is there a tree whose top has a first child named 1?
//!
//! ```
//! use host::{solve, Answer, Memory};
//!
//! let mut memory = Memory::largest();
//! let answer = solve(b"go\t1\t1\nis\t1\n", &mut memory);
//! assert_eq!(answer, Answer::Sat { height: 2, top: 3 });
//!
//! let tree = memory.tree().expect("sat shows a tree");
//! let names: Vec<usize> = tree.nodes().map(|node| node.name).collect();
//! assert_eq!(names, [0, 1]);
//! println!("{}", tree.picture(100));
//! ```

mod answer;
mod boundary;
#[doc(hidden)]
pub mod families;
mod listing;
mod memory;
mod picture;
pub mod reference;
mod refusal;
mod sheet;
pub mod table;
mod tree;

pub use answer::Answer;
pub use boundary::{judge_on, solve_on, JudgedNumbers, Numbers, Slices, NONE};
pub use listing::listing;
pub use memory::{solve, Memory};
pub use picture::Picture;
pub use refusal::{InText, Refusal};
pub use sheet::{judge, judged_bytes, Line, Sheet, Side};
pub use table::Table;
pub use tree::{Node, Nodes, Tree};
