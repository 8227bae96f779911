//! Records: building one, cutting one into its sections, and checking one from anyone.

use super::cover::demand_cover;
use super::field::{demand_distinct, read_holes, Hole, Ratio, Rectangle, Shape, MOST};
use super::pairs::{demand_separated, Lister};
use super::tree::{boxes, read_nodes, Node, Ranks, SplitTree};
use super::{demand_work, four_bytes, refuse_if, two_bytes, Result};
use std::ops::Range;

/// Builds the record of a coordinate list; takes the lengths of the work area and the output as numbers.
pub fn build(list: &[u8], a: u64, b: u64, work: usize, room: usize) -> Result<Vec<u8>> {
    demand_work(work)?;
    refuse_if(list.len() % 4 != 0, 1, list.len() as u64)?;
    demand_count(list.len() / 4)?;
    let ratio = Ratio::new(a, b)?;
    let holes = read_holes(list);
    demand_distinct(&holes)?;
    let record = write(list, &holes, ratio);
    refuse_if(room < record.len(), 7, record.len() as u64)?;
    Ok(record)
}

/// Refusals 2 and 3.
fn demand_count(n: usize) -> Result<()> {
    refuse_if(n == 0, 2, 0)?;
    refuse_if(n > MOST, 3, n as u64)
}

/// The record of a field whose holes are distinct.
fn write(list: &[u8], holes: &[Hole], ratio: Ratio) -> Vec<u8> {
    let tree = SplitTree::new(holes);
    let shapes: Vec<Shape> = tree.boxes.iter().map(|r| r.shape()).collect();
    let before = 6 + 12 * holes.len();
    let mut record = Vec::with_capacity(2 * before);
    record.extend([ratio.a as u8, ratio.b as u8]);
    record.extend((holes.len() as u16).to_be_bytes());
    record.extend(list);
    record.extend((tree.nodes.len() as u16).to_be_bytes());
    tree.nodes
        .iter()
        .for_each(|node| record.extend(node.bytes()));
    record.extend([0; 4]);
    Lister {
        nodes: &tree.nodes,
        shapes: &shapes,
        ratio,
        out: &mut record,
    }
    .list();
    let m = (record.len() - before) / 4;
    record[before - 4..before].copy_from_slice(&(m as u32).to_be_bytes());
    record
}

/// Where the sections of a record stand, and the numbers before them.
#[derive(Clone, Debug)]
pub struct Layout {
    pub ratio: Ratio,
    pub n: usize,
    pub m: usize,
    pub holes: Range<usize>,
    pub nodes: Range<usize>,
    pub pairs: Range<usize>,
}

impl Layout {
    /// Cuts a record into its sections, or gives refusal 8, 4, 2, 3, 9 or 10.
    fn of(record: &[u8]) -> Result<Layout> {
        demand_length(record, 4)?;
        let ratio = Ratio::new(record[0].into(), record[1].into())?;
        let n = usize::from(two_bytes(record, 2));
        demand_count(n)?;
        demand_length(record, 6 + 4 * n)?;
        let nodes = usize::from(two_bytes(record, 4 + 4 * n));
        refuse_if(nodes != 2 * n - 1, 9, nodes as u64)?;
        demand_length(record, 6 + 12 * n)?;
        let m = four_bytes(record, 2 + 12 * n) as usize;
        refuse_if(m > n * (n - 1) / 2, 9, m as u64)?;
        let end = 6 + 12 * n + 4 * m;
        demand_length(record, end)?;
        refuse_if(record.len() > end, 10, record.len() as u64)?;
        Ok(Layout {
            ratio,
            n,
            m,
            holes: 4..4 + 4 * n,
            nodes: 6 + 4 * n..2 + 12 * n,
            pairs: 6 + 12 * n..end,
        })
    }
}

/// Refusal 8.
fn demand_length(record: &[u8], length: usize) -> Result<()> {
    refuse_if(record.len() < length, 8, length as u64)
}

/// A record that is taken, and what was read from it.
pub struct Taken<'a> {
    pub layout: Layout,
    pub holes: Vec<Hole>,
    pub nodes: Vec<Node>,
    /// The bytes of the pairs.
    pub pairs: &'a [u8],
}

/// Takes a record, or gives the checker's refusal.
pub fn take(record: &[u8], work: usize) -> Result<Taken<'_>> {
    demand_work(work)?;
    let layout = Layout::of(record)?;
    let holes = read_holes(&record[layout.holes.clone()]);
    demand_distinct(&holes)?;
    let nodes = read_nodes(&record[layout.nodes.clone()], layout.n)?;
    let pairs = &record[layout.pairs.clone()];
    let shapes: Vec<Shape> = boxes(&nodes, &holes)
        .into_iter()
        .map(Rectangle::shape)
        .collect();
    demand_separated(pairs, &shapes, layout.ratio)?;
    demand_cover(pairs, &Ranks::new(&nodes, layout.n), work)?;
    Ok(Taken {
        layout,
        holes,
        nodes,
        pairs,
    })
}

/// Checks a record: n and m of one that is taken.
pub fn check(record: &[u8], work: usize) -> Result<(u64, u64)> {
    let Layout { n, m, .. } = take(record, work)?.layout;
    Ok((n as u64, m as u64))
}
