//! Trees over holes: cutting a field into its own, and reading one from anyone.

use super::field::{Hole, Rectangle};
use super::{refuse_if, two_bytes, Result};
use std::ops::Range;

/// What stands in place of a leaf's first child.
const LEAF: u16 = 65_535;

/// A node of a tree: the leaf of a hole, or the numbers of its two parts.
#[derive(Clone, Copy, Debug, PartialEq, Eq)]
pub enum Node {
    Leaf(u16),
    Split(u16, u16),
}

impl Node {
    /// The node's four bytes in a record.
    pub fn bytes(self) -> [u8; 4] {
        let (first, second) = match self {
            Node::Leaf(hole) => (LEAF, hole),
            Node::Split(first, second) => (first, second),
        };
        let ([a, b], [c, d]) = (first.to_be_bytes(), second.to_be_bytes());
        [a, b, c, d]
    }

    /// The node that four bytes give.
    fn of_bytes(bytes: &[u8]) -> Node {
        match (two_bytes(bytes, 0), two_bytes(bytes, 2)) {
            (LEAF, hole) => Node::Leaf(hole),
            (first, second) => Node::Split(first, second),
        }
    }
}

/// The tree of a field under construction: its nodes, and their boxes beside them.
pub struct SplitTree<'a> {
    holes: &'a [Hole],
    spare: Vec<u16>,
    pub nodes: Vec<Node>,
    pub boxes: Vec<Rectangle>,
}

impl<'a> SplitTree<'a> {
    /// The tree that document 01 gives a field.
    pub fn new(holes: &'a [Hole]) -> SplitTree<'a> {
        let count = 2 * holes.len() - 1;
        let mut tree = SplitTree {
            holes,
            spare: Vec::with_capacity(holes.len()),
            nodes: Vec::with_capacity(count),
            boxes: Vec::with_capacity(count),
        };
        let mut all: Vec<u16> = (0..holes.len() as u16).collect();
        tree.grow(&mut all);
        tree
    }

    /// Adds the node of some holes, then all of its first part, then all of its second; gives the node's number.
    fn grow(&mut self, part: &mut [u16]) -> u16 {
        let number = self.nodes.len();
        let rectangle = self.rectangle(part);
        self.nodes.push(Node::Leaf(part[0]));
        self.boxes.push(rectangle);
        if part.len() > 1 {
            let middle = self.cut(part, rectangle);
            let (first, second) = part.split_at_mut(middle);
            let first = self.grow(first);
            let second = self.grow(second);
            self.nodes[number] = Node::Split(first, second);
        }
        number as u16
    }

    fn rectangle(&self, part: &[u16]) -> Rectangle {
        let first = Rectangle::of_hole(self.holes[usize::from(part[0])]);
        part[1..].iter().fold(first, |rectangle, &hole| {
            rectangle.join(Rectangle::of_hole(self.holes[usize::from(hole)]))
        })
    }

    /// Puts the holes of the first part before those of the second, each in the order they had; gives how many the first has.
    fn cut(&mut self, part: &mut [u16], rectangle: Rectangle) -> usize {
        let Rectangle {
            left,
            right,
            bottom,
            top,
        } = rectangle;
        let holes = self.holes;
        if rectangle.width() >= rectangle.height() {
            self.divide(part, left, right, |hole| holes[usize::from(hole)].x)
        } else {
            self.divide(part, bottom, top, |hole| holes[usize::from(hole)].y)
        }
    }

    /// Stable partition: first the holes whose coordinate c satisfies 2c <= l + r.
    fn divide(&mut self, part: &mut [u16], l: u16, r: u16, c: impl Fn(u16) -> u16) -> usize {
        let sum = u32::from(l) + u32::from(r);
        let mut first = 0;
        self.spare.clear();
        for i in 0..part.len() {
            let hole = part[i];
            if 2 * u32::from(c(hole)) <= sum {
                part[first] = hole;
                first += 1;
            } else {
                self.spare.push(hole);
            }
        }
        part[first..].copy_from_slice(&self.spare);
        first
    }
}

/// The nodes of a record over n holes, or refusal 11 or 12.
pub fn read_nodes(bytes: &[u8], n: usize) -> Result<Vec<Node>> {
    let nodes: Vec<Node> = bytes.chunks_exact(4).map(Node::of_bytes).collect();
    let mut hole_named = vec![false; n];
    let mut node_named = vec![false; nodes.len()];
    for (k, &node) in nodes.iter().enumerate() {
        let fine = match node {
            Node::Leaf(hole) => name(&mut hole_named, hole),
            Node::Split(first, second) => {
                usize::from(first.min(second)) > k
                    && name(&mut node_named, first)
                    && name(&mut node_named, second)
            }
        };
        refuse_if(!fine, 11, k as u64)?;
    }
    let loose = (1..nodes.len()).find(|&k| !node_named[k]);
    refuse_if(loose.is_some(), 12, loose.unwrap_or(0) as u64)?;
    Ok(nodes)
}

/// Notes that a number is named; false where there is no such number or it was named before.
fn name(named: &mut [bool], number: u16) -> bool {
    match named.get_mut(usize::from(number)) {
        Some(seen) => !std::mem::replace(seen, true),
        None => false,
    }
}

/// One value for each node, the leaves' first: parts have higher numbers than their node, so from the last node down.
fn bottom_up<T: Copy>(
    nodes: &[Node],
    leaf: impl Fn(usize) -> T,
    join: impl Fn(T, T) -> T,
) -> Vec<T> {
    let mut values = vec![leaf(0); nodes.len()];
    for k in (0..nodes.len()).rev() {
        values[k] = match nodes[k] {
            Node::Leaf(hole) => leaf(hole.into()),
            Node::Split(first, second) => {
                join(values[usize::from(first)], values[usize::from(second)])
            }
        };
    }
    values
}

/// The box of every node of a tree that meets the rules.
pub fn boxes(nodes: &[Node], holes: &[Hole]) -> Vec<Rectangle> {
    bottom_up(
        nodes,
        |hole| Rectangle::of_hole(holes[hole]),
        Rectangle::join,
    )
}

/// The lowest-numbered hole under every node.
pub fn lowest_holes(nodes: &[Node]) -> Vec<u16> {
    bottom_up(nodes, |hole| hole as u16, u16::min)
}

/// The holes in an order in which those under any node stand together.
pub struct Ranks {
    /// The ranks of the holes under each node.
    pub runs: Vec<Range<usize>>,
    /// The rank of each hole.
    pub of_hole: Vec<usize>,
}

impl Ranks {
    pub fn new(nodes: &[Node], n: usize) -> Ranks {
        let counts = bottom_up(nodes, |_| 1, |first: usize, second| first + second);
        let mut runs = vec![0..n; nodes.len()];
        let mut of_hole = vec![0; n];
        for (k, &node) in nodes.iter().enumerate() {
            let Range { start, end } = runs[k];
            match node {
                Node::Leaf(hole) => of_hole[usize::from(hole)] = start,
                Node::Split(first, second) => {
                    let middle = start + counts[usize::from(first)];
                    runs[usize::from(first)] = start..middle;
                    runs[usize::from(second)] = middle..end;
                }
            }
        }
        Ranks { runs, of_hole }
    }
}
