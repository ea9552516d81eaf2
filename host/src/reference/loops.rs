//! Missing references and loops: refusals 5 and 6.

use crate::table::{Row, Table};

use super::codes::converse;

/// The smallest row that names a row that isn't there.
pub fn smallest_row_with_missing_reference(table: &Table) -> Option<usize> {
    let rows = table.rows();
    let missing = |row: &Row| row.references().iter().any(|at| *at >= rows.len());
    rows.iter().position(missing)
}

/// The smallest row from which a walk of at least one step leads back to it with directions that
/// cancel. Every reference must be there.
///
/// A loop turned to begin at another of its rows is a loop again, so this is the smallest row on
/// any loop.
pub fn smallest_row_on_a_loop(table: &Table) -> Option<usize> {
    let walks = cancelling_walks(table);
    (0..walks.len()).find(|row| walks[*row][*row])
}

/// For each pair of rows whether a walk of at least one step leads from the one to the other with
/// directions that cancel: the closure of the rules for cancelling stretches.
fn cancelling_walks(table: &Table) -> Vec<Vec<bool>> {
    let rows = table.rows();
    let mut walks = vec![vec![false; rows.len()]; rows.len()];
    for (from, row) in rows.iter().enumerate() {
        // The step from `any` or `all` has no direction.
        if let Row::Any(i, j) | Row::All(i, j) = *row {
            walks[from][i] = true;
            walks[from][j] = true;
        }
    }
    loop {
        let enclosed = add_enclosed(table, &mut walks);
        let joined = add_joined(&mut walks);
        if !enclosed && !joined {
            return walks;
        }
    }
}

/// A direction, a cancelling stretch (or nothing) and the converse direction.
fn add_enclosed(table: &Table, walks: &mut [Vec<bool>]) -> bool {
    let looks = table.looks();
    let mut added = false;
    for out in &looks {
        for back in &looks {
            let stretch = out.at == back.row || walks[out.at][back.row];
            if back.direction == converse(out.direction) && stretch {
                added |= !walks[out.row][back.at];
                walks[out.row][back.at] = true;
            }
        }
    }
    added
}

/// Two cancelling stretches, one after the other.
fn add_joined(walks: &mut [Vec<bool>]) -> bool {
    let count = walks.len();
    let mut added = false;
    for middle in 0..count {
        for from in 0..count {
            for to in 0..count {
                if walks[from][middle] && walks[middle][to] && !walks[from][to] {
                    walks[from][to] = true;
                    added = true;
                }
            }
        }
    }
    added
}
