//! The shown tree: what unfolds from the top through `first` and `next`.

use crate::{Picture, Side, NONE};

/// The shown tree of a memory's last call; see [`Memory::tree`](crate::Memory::tree).
///
/// The memory holds each code once, but a code may stand at many nodes: the tree may be
/// exponentially larger than the memory. [`Tree::nodes`] unfolds it as far as it is asked to.
#[derive(Debug, Clone, Copy)]
pub struct Tree<'a> {
    pub(crate) top: u16,
    pub(crate) codes_of_a_name: usize,
    pub(crate) round: &'a [u16],
    pub(crate) first: &'a [u16],
    pub(crate) next: &'a [u16],
    pub(crate) used: &'a [u8],
}

/// One node of the shown tree.
#[derive(Debug, Clone, Copy, PartialEq, Eq)]
pub struct Node {
    /// Its number in the order of unfolding, the top being 0.
    pub place: usize,
    /// The place of the node that it hangs from, and on which side; `None` for the top.
    pub above: Option<(usize, Side)>,
    /// How many parents it has above it: siblings have the same depth.
    pub depth: usize,
    /// How many nodes the chain from the top to it has; the greatest is the tree's height.
    pub level: usize,
    /// Its code.
    pub code: u16,
    /// Its name.
    pub name: usize,
    /// The code of its first child.
    pub first: Option<u16>,
    /// The code of its next sibling.
    pub next: Option<u16>,
}

impl<'a> Tree<'a> {
    /// The code at the top.
    pub fn top(&self) -> u16 {
        self.top
    }

    /// The height: the round that entered the top.
    pub fn height(&self) -> usize {
        usize::from(self.round[usize::from(self.top)])
    }

    /// The nodes as one reads a sheet: each node, then all that is under it, then its siblings.
    ///
    /// ```
    /// use host::{solve, Memory};
    ///
    /// let mut memory = Memory::largest();
    /// solve(b"all\t1\t2\ngo\t1\t3\ngo\t2\t3\nyes\n", &mut memory);
    /// let tree = memory.tree().unwrap();
    /// let codes: Vec<u16> = tree.nodes().map(|node| node.code).collect();
    /// assert_eq!(codes, [15, 16, 32]); // the top, its first child, its next sibling
    /// let depths: Vec<usize> = tree.nodes().map(|node| node.depth).collect();
    /// assert_eq!(depths, [0, 1, 0]);
    /// ```
    pub fn nodes(&self) -> Nodes<'a> {
        Nodes {
            tree: *self,
            place: 0,
            waiting: vec![Waiting {
                above: None,
                code: self.top,
                depth: 0,
                level: 1,
            }],
        }
    }

    /// The codes met in the tree, by round and then by code: the order of the listing.
    pub fn codes(&self) -> Vec<u16> {
        let used = |code: &u16| self.used.get(usize::from(*code)) == Some(&1);
        let mut codes: Vec<u16> = (0..NONE).filter(used).collect();
        codes.sort_by_key(|code| self.round[usize::from(*code)]);
        codes
    }

    /// How many nodes the tree has; `u64::MAX` where they are that many or more.
    ///
    /// ```
    /// use host::{solve, Memory};
    ///
    /// let mut memory = Memory::largest();
    /// solve(b"go\t1\t1\ngo\t2\t2\nyes\n", &mut memory);
    /// assert_eq!(memory.tree().unwrap().size(), 3);
    /// ```
    pub fn size(&self) -> u64 {
        // A recorded neighbour is of an earlier round, so its size is known by then.
        let mut sizes = vec![0u64; self.round.len()];
        for code in self.codes() {
            let below = [self.first(code), self.next(code)];
            let sum = below.into_iter().flatten().fold(1u64, |sum, neighbour| {
                sum.saturating_add(sizes[usize::from(neighbour)])
            });
            sizes[usize::from(code)] = sum;
        }
        sizes[usize::from(self.top)]
    }

    /// The tree drawn as text, at most `limit` nodes of it.
    pub fn picture(&self, limit: usize) -> Picture<'a> {
        Picture { tree: *self, limit }
    }

    /// The name of a code.
    pub fn name(&self, code: u16) -> usize {
        usize::from(code) / self.codes_of_a_name
    }

    /// The recorded neighbour of a code in direction 1.
    pub fn first(&self, code: u16) -> Option<u16> {
        recorded(self.first, code)
    }

    /// The recorded neighbour of a code in direction 2.
    pub fn next(&self, code: u16) -> Option<u16> {
        recorded(self.next, code)
    }
}

fn recorded(slice: &[u16], code: u16) -> Option<u16> {
    let neighbour = slice[usize::from(code)];
    (neighbour != NONE).then_some(neighbour)
}

/// An iterator over the shown tree's nodes; see [`Tree::nodes`].
#[derive(Debug, Clone)]
pub struct Nodes<'a> {
    tree: Tree<'a>,
    place: usize,
    /// The nodes still to be unfolded, the nearest last: never more than the tree is high.
    waiting: Vec<Waiting>,
}

#[derive(Debug, Clone, Copy)]
struct Waiting {
    above: Option<(usize, Side)>,
    code: u16,
    depth: usize,
    level: usize,
}

impl Nodes<'_> {
    /// Lets a node's neighbour, if there is one, wait to be unfolded.
    fn wait_for(&mut self, node: &Node, neighbour: Option<u16>, side: Side) {
        let depth = match side {
            Side::First => node.depth + 1,
            Side::Next => node.depth,
        };
        self.waiting.extend(neighbour.map(|code| Waiting {
            above: Some((node.place, side)),
            code,
            depth,
            level: node.level + 1,
        }));
    }
}

impl Iterator for Nodes<'_> {
    type Item = Node;

    fn next(&mut self) -> Option<Node> {
        let Waiting {
            above,
            code,
            depth,
            level,
        } = self.waiting.pop()?;
        let node = Node {
            place: self.place,
            above,
            depth,
            level,
            code,
            name: self.tree.name(code),
            first: self.tree.first(code),
            next: self.tree.next(code),
        };
        self.place += 1;
        // What waits last is unfolded first.
        self.wait_for(&node, node.next, Side::Next);
        self.wait_for(&node, node.first, Side::First);
        Some(node)
    }
}
