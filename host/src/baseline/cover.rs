//! The covering: every two different holes have exactly one pair with one under each side.

use super::pairs::read_pairs;
use super::tree::Ranks;
use super::{Refusal, Result};
use std::ops::Range;

/// Refusal 14: the least hole i, and for it the least j above it, that are not covered exactly once. The pairs are all separated. The cells that
/// are marked at a time take no more than 9/16 of the bytes of a work area of the given length, which the tree and the ranks leave free.
pub fn demand_cover(pairs: &[u8], ranks: &Ranks, work: usize) -> Result<()> {
    if covers(pairs, ranks, work) {
        return Ok(());
    }
    match least_uncovered(pairs, ranks) {
        Some((i, j)) => Err(Refusal {
            number: 14,
            value: (1_024 * i + j) as u64,
        }),
        None => Ok(()),
    }
}

/// Whether the pairs cover every two holes exactly once: block by block of the rows of the matrix of ranks, as many as fit.
fn covers(pairs: &[u8], ranks: &Ranks, work: usize) -> bool {
    let n = ranks.of_hole.len();
    let rows = work / 16 * 9 / n;
    let mut cells = vec![0; rows.min(n) * n];
    (0..n)
        .step_by(rows)
        .all(|start| covers_block(pairs, ranks, start..n.min(start + rows), &mut cells))
}

/// The same for some rows. The holes under one side of a pair are a run of ranks, and the two runs of a pair that is separated do not meet; so the
/// pair covers a rectangle of cells above the diagonal. Gives up at the first cell that is marked twice, so that no more cells are marked than
/// there are.
fn covers_block(pairs: &[u8], ranks: &Ranks, block: Range<usize>, cells: &mut [u8]) -> bool {
    let n = ranks.of_hole.len();
    let mut marked = 0;
    cells.fill(0);
    for (one, other) in read_pairs(pairs) {
        let (one, other) = (&ranks.runs[one], &ranks.runs[other]);
        let (rows, columns) = if one.start < other.start {
            (one, other)
        } else {
            (other, one)
        };
        for row in rows.start.max(block.start)..rows.end.min(block.end) {
            let at = (row - block.start) * n;
            if !mark(&mut cells[at + columns.start..at + columns.end]) {
                return false;
            }
            marked += columns.len();
        }
    }
    marked == block.map(|row| n - 1 - row).sum()
}

/// Marks some cells of a row; false where one of them was marked before.
fn mark(cells: &mut [u8]) -> bool {
    if let [cell] = cells {
        return std::mem::replace(cell, 1) == 0;
    }
    let mut before = 0;
    for cell in cells {
        before |= std::mem::replace(cell, 1);
    }
    before == 0
}

/// The least i, and for it the least j above it, not covered exactly once. A row costs the pairs and the holes, whatever the pairs are.
fn least_uncovered(pairs: &[u8], ranks: &Ranks) -> Option<(usize, usize)> {
    let n = ranks.of_hole.len();
    (0..n).find_map(|i| {
        let times = tally(pairs, ranks, ranks.of_hole[i]);
        (i + 1..n)
            .find(|&j| times[ranks.of_hole[j]] != 1)
            .map(|j| (i, j))
    })
}

/// How often the hole of one rank is covered with the hole of every other.
fn tally(pairs: &[u8], ranks: &Ranks, rank: usize) -> Vec<i64> {
    let mut steps = vec![0; ranks.of_hole.len() + 1];
    let mut add = |run: &Range<usize>| {
        steps[run.start] += 1;
        steps[run.end] -= 1;
    };
    for (one, other) in read_pairs(pairs) {
        let (one, other) = (&ranks.runs[one], &ranks.runs[other]);
        if one.contains(&rank) {
            add(other);
        } else if other.contains(&rank) {
            add(one);
        }
    }
    let mut times = 0;
    for step in &mut steps {
        times += *step;
        *step = times;
    }
    steps
}
