//! Questions over a taken record.

use super::pairs::read_pairs;
use super::record::{take, Layout, Taken};
use super::tree::{lowest_holes, Node};
use super::{refuse_if, Result};
use std::ops::Range;

/// The closest two holes, the lower first, and their squared distance.
#[derive(Clone, Copy, Debug, PartialEq, Eq)]
pub struct Closest {
    pub squared_distance: u64,
    pub i: u64,
    pub j: u64,
}

impl Taken<'_> {
    /// Refusal 16 where the ratio is not above a whole number.
    pub fn demand_above(&self, whole: u64) -> Result<()> {
        let ratio = self.layout.ratio;
        refuse_if(!ratio.is_above(whole), 16, 256 * ratio.a + ratio.b)
    }

    /// The closest pair of two holes or more at a ratio above 2: the closest of the one-hole pairs.
    pub fn closest(&self) -> Closest {
        let least = read_pairs(self.pairs)
            .filter_map(|(one, other)| match (self.nodes[one], self.nodes[other]) {
                (Node::Leaf(p), Node::Leaf(q)) => Some(self.order(p, q)),
                _ => None,
            })
            .min()
            .expect("two holes at a ratio above 2 have a one-hole pair");
        Closest {
            squared_distance: least >> 20,
            i: least >> 10 & 1_023,
            j: least & 1_023,
        }
    }

    /// One number for the order of two holes: least distance, then least i, then least j. Hole numbers have 10 bits, a squared distance 34.
    fn order(&self, p: u16, q: u16) -> u64 {
        let (hole, other) = (self.holes[usize::from(p)], self.holes[usize::from(q)]);
        let (i, j) = (u64::from(p.min(q)), u64::from(p.max(q)));
        hole.squared_distance(other) << 20 | i << 10 | j
    }
}

/// The closest pair of a record.
pub fn closest(record: &[u8], work: usize) -> Result<Closest> {
    let taken = take(record, work)?;
    refuse_if(taken.layout.n == 1, 15, 0)?;
    taken.demand_above(2)?;
    Ok(taken.closest())
}

/// Whether every two holes of a record are at least p apart.
pub fn pitch(record: &[u8], p: u64, work: usize) -> Result<bool> {
    let taken = take(record, work)?;
    if taken.layout.n == 1 {
        return Ok(true);
    }
    taken.demand_above(2)?;
    let closest = taken.closest();
    let p = u128::from(p);
    Ok(u128::from(closest.squared_distance) >= p * p)
}

/// The link list of a record: the lowest-numbered hole on each side of each pair, the smaller number first.
pub fn links(record: &[u8], work: usize, room: usize) -> Result<Vec<u8>> {
    let taken = take(record, work)?;
    taken.demand_above(4)?;
    let needed = 4 * taken.layout.m;
    refuse_if(room < needed, 7, needed as u64)?;
    let lowest = lowest_holes(&taken.nodes);
    let mut list = Vec::with_capacity(needed);
    for (one, other) in read_pairs(taken.pairs) {
        let (p, q) = (lowest[one], lowest[other]);
        let ([a, b], [c, d]) = (p.min(q).to_be_bytes(), p.max(q).to_be_bytes());
        list.extend_from_slice(&[a, b, c, d]);
    }
    Ok(list)
}

/// A section of a record that is taken, else the empty part at its start.
fn section(record: &[u8], work: usize, which: impl Fn(Layout) -> Range<usize>) -> Range<usize> {
    match take(record, work) {
        Ok(taken) => which(taken.layout),
        Err(_) => 0..0,
    }
}

/// The part of a record that holds its holes.
pub fn holes(record: &[u8], work: usize) -> Range<usize> {
    section(record, work, |layout| layout.holes)
}

/// The part of a record that holds its nodes.
pub fn nodes(record: &[u8], work: usize) -> Range<usize> {
    section(record, work, |layout| layout.nodes)
}

/// The part of a record that holds its pairs.
pub fn pairs(record: &[u8], work: usize) -> Range<usize> {
    section(record, work, |layout| layout.pairs)
}
