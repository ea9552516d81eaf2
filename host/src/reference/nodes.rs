//! A tree as a plain list of nodes, and the truth of every row at every node.

use crate::table::Row;

use super::codes::converse;

/// A tree as a list of nodes; the top is node 0.
#[derive(Debug, Clone)]
pub struct NodeList {
    /// The name of each node.
    pub names: Vec<usize>,
    /// The neighbours of each node in directions 1 to 4, at places 0 to 3.
    pub neighbours: Vec<[Option<usize>; 4]>,
}

impl NodeList {
    /// Nodes of these names that are not linked yet.
    pub fn unlinked(names: Vec<usize>) -> NodeList {
        let neighbours = vec![[None; 4]; names.len()];
        NodeList { names, neighbours }
    }

    /// Makes `to` the neighbour of `from` in a direction, and `from` that of `to` in its converse.
    pub fn link(&mut self, from: usize, direction: usize, to: usize) {
        self.neighbours[from][direction - 1] = Some(to);
        self.neighbours[to][converse(direction) - 1] = Some(from);
    }

    /// The truth of every row at every node: from `start` everywhere, the rows are applied until
    /// nothing changes. From false that is the least solution, from true the greatest.
    pub fn solution(&self, rows: &[Row], start: bool) -> Vec<Vec<bool>> {
        let mut truth = vec![vec![start; rows.len()]; self.names.len()];
        loop {
            let mut changed = false;
            for node in 0..self.names.len() {
                for row in 0..rows.len() {
                    let now = self.holds(rows[row], node, &truth);
                    changed |= now != truth[node][row];
                    truth[node][row] = now;
                }
            }
            if !changed {
                return truth;
            }
        }
    }

    fn holds(&self, row: Row, node: usize, truth: &[Vec<bool>]) -> bool {
        let neighbour = |direction: usize| self.neighbours[node][direction - 1];
        match row {
            Row::Yes => true,
            Row::No => false,
            Row::Is(name) => self.names[node] == name,
            Row::IsNot(name) => self.names[node] != name,
            Row::Any(i, j) => truth[node][i] || truth[node][j],
            Row::All(i, j) => truth[node][i] && truth[node][j],
            Row::Go(direction, i) => neighbour(direction).is_some_and(|there| truth[there][i]),
            Row::Stop(direction) => neighbour(direction).is_none(),
        }
    }
}
