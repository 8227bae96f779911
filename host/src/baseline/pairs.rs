//! Pairs of nodes: listing those of a tree, and the rule of each pair of a record.

use super::field::{Ratio, Shape};
use super::tree::Node;
use super::{four_bytes, refuse_if, Result};

/// The pairs that bytes give, as two node numbers each.
pub fn read_pairs(bytes: &[u8]) -> impl Iterator<Item = (usize, usize)> + '_ {
    bytes.chunks_exact(4).map(|c| {
        let both = four_bytes(c, 0) as usize;
        (both >> 16, both & 0xFFFF)
    })
}

/// Refusal 13: the least pair that names a node too high or two nodes that are not separated.
pub fn demand_separated(pairs: &[u8], shapes: &[Shape], ratio: Ratio) -> Result<()> {
    let bad = read_pairs(pairs).position(|(one, other)| {
        one >= shapes.len()
            || other >= shapes.len()
            || !ratio.separates(&shapes[one], &shapes[other])
    });
    refuse_if(bad.is_some(), 13, bad.unwrap_or(0) as u64)
}

/// A list of pairs under construction.
pub struct Lister<'a> {
    pub nodes: &'a [Node],
    pub shapes: &'a [Shape],
    pub ratio: Ratio,
    /// Where the pairs are written, four bytes each.
    pub out: &'a mut Vec<u8>,
}

impl Lister<'_> {
    /// Lists the pairs of the whole tree: for each node that is not a leaf, in number order.
    pub fn list(&mut self) {
        for k in 0..self.nodes.len() {
            if let Node::Split(first, second) = self.nodes[k] {
                self.compare(first, second);
            }
        }
    }

    /// Lists two nodes that are separated; else splits the one with the longer side, B on a tie.
    fn compare(&mut self, a: u16, b: u16) {
        let (one, other) = (&self.shapes[usize::from(a)], &self.shapes[usize::from(b)]);
        if self.ratio.separates(one, other) {
            let ([p, q], [r, s]) = (a.to_be_bytes(), b.to_be_bytes());
            self.out.extend_from_slice(&[p, q, r, s]);
        } else if one.side > other.side {
            if let Node::Split(first, second) = self.nodes[usize::from(a)] {
                self.compare(first, b);
                self.compare(second, b);
            }
        } else if let Node::Split(first, second) = self.nodes[usize::from(b)] {
            self.compare(a, first);
            self.compare(a, second);
        }
    }
}
