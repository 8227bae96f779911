//! Records as others might make them: any tree in any rising numbering, its pairs in any order, either node first; and damage to records.

use crate::baseline::field::{read_holes, Ratio, Rectangle, Shape};
use crate::baseline::pairs::Lister;
use crate::baseline::tree::{boxes, Node};
use crate::Noise;

/// How a foreign tree is cut.
#[derive(Clone, Copy, Debug, PartialEq, Eq)]
pub enum Cut {
    /// Anywhere.
    Random,
    /// One hole at a time: as deep as a tree can be.
    Caterpillar,
    /// Sorted along x and halved: a tree whose boxes hardly overlap.
    Halves,
}

pub const CUTS: [Cut; 3] = [Cut::Random, Cut::Caterpillar, Cut::Halves];

/// The parts of a record before they are bytes. Counts are those of the lists unless damage says otherwise.
#[derive(Clone, Debug)]
pub struct Draft {
    pub a: u8,
    pub b: u8,
    pub holes: Vec<[u8; 4]>,
    pub nodes: Vec<[u16; 2]>,
    pub pairs: Vec<[u16; 2]>,
}

impl Draft {
    /// A record that meets the rules over a coordinate list, its tree cut in some way, its numbering, pair order and sides random.
    pub fn new(list: &[u8], a: u8, b: u8, cut: Cut, noise: &mut Noise) -> Draft {
        let nodes = tree(list, cut, noise);
        let mut pairs = pairs_of(list, &nodes, a, b);
        noise.shuffle(&mut pairs);
        for pair in &mut pairs {
            if noise.once_in(2) {
                pair.reverse();
            }
        }
        Draft {
            a,
            b,
            holes: list
                .chunks_exact(4)
                .map(|c| [c[0], c[1], c[2], c[3]])
                .collect(),
            nodes: nodes.iter().map(|node| words(node.bytes())).collect(),
            pairs,
        }
    }

    /// The parts of a record that is taken.
    pub fn of_record(record: &[u8]) -> Draft {
        let n = usize::from(u16::from_be_bytes([record[2], record[3]]));
        let fours = |from: usize, to: usize| {
            record[from..to]
                .chunks_exact(4)
                .map(|c| [c[0], c[1], c[2], c[3]])
        };
        Draft {
            a: record[0],
            b: record[1],
            holes: fours(4, 4 + 4 * n).collect(),
            nodes: fours(6 + 4 * n, 2 + 12 * n).map(words).collect(),
            pairs: fours(6 + 12 * n, record.len()).map(words).collect(),
        }
    }

    /// The record's bytes.
    pub fn bytes(&self) -> Vec<u8> {
        let mut record = vec![self.a, self.b];
        record.extend((self.holes.len() as u16).to_be_bytes());
        record.extend(self.holes.concat());
        record.extend((self.nodes.len() as u16).to_be_bytes());
        for word in self.nodes.iter().flatten() {
            record.extend(word.to_be_bytes());
        }
        record.extend((self.pairs.len() as u32).to_be_bytes());
        for word in self.pairs.iter().flatten() {
            record.extend(word.to_be_bytes());
        }
        record
    }

    /// Breaks one thing, and says which kind of thing. The record may still meet the rules.
    pub fn damage(&mut self, noise: &mut Noise) -> &'static str {
        let (n, m, count) = (self.holes.len(), self.pairs.len(), self.nodes.len());
        let (p, k) = (noise.index(m.max(1)), noise.index(count));
        match noise.below(16) {
            0 if m > 0 => {
                let pair = noise.pick(&self.pairs);
                self.pairs.insert(p, pair);
                "a pair doubled"
            }
            1 if m > 0 => {
                self.pairs.remove(p);
                "a pair dropped"
            }
            2 | 3 if m > 0 => {
                self.pairs[p] = noise.pick(&self.pairs);
                "a pair in place of another"
            }
            4 if m > 0 => {
                self.pairs[p][noise.index(2)] = noise.index(count + 1) as u16;
                "a pair with another node"
            }
            5 if m > 0 => {
                self.pairs[p] = [noise.index(count) as u16, noise.index(count) as u16];
                "a pair of any nodes"
            }
            6 => {
                self.nodes[k][noise.index(2)] = noise.index(count + 1) as u16;
                "a node with another child"
            }
            7 => {
                self.nodes.swap(k, noise.index(count));
                "two nodes swapped"
            }
            8 => {
                self.nodes[k] = noise.pick(&self.nodes);
                "a node in place of another"
            }
            9 => {
                self.nodes[k] = [65_535, noise.index(n + 1) as u16];
                "a leaf in place of a node"
            }
            10 => {
                self.holes[noise.index(n)] = noise.pick(&self.holes);
                "a hole in place of another"
            }
            11 => {
                let other = noise.index(n);
                self.holes.swap(noise.index(n), other);
                "two holes swapped"
            }
            12 => {
                self.holes[noise.index(n)][noise.index(4)] = noise.next() as u8;
                "a hole moved"
            }
            13 => {
                self.a = noise.below(67) as u8;
                "another a"
            }
            14 => {
                self.b = noise.below(10) as u8;
                "another b"
            }
            _ => {
                self.nodes[k].reverse();
                "a node's children swapped"
            }
        }
    }
}

fn words(bytes: [u8; 4]) -> [u16; 2] {
    let [a, b, c, d] = bytes;
    [u16::from_be_bytes([a, b]), u16::from_be_bytes([c, d])]
}

/// The pairs of any tree by document 01's comparing and splitting.
fn pairs_of(list: &[u8], nodes: &[Node], a: u8, b: u8) -> Vec<[u16; 2]> {
    let shapes: Vec<Shape> = boxes(nodes, &read_holes(list))
        .into_iter()
        .map(Rectangle::shape)
        .collect();
    let mut out = Vec::new();
    Lister {
        nodes,
        shapes: &shapes,
        ratio: Ratio::new(a.into(), b.into()).expect("a ratio in range"),
        out: &mut out,
    }
    .list();
    out.chunks_exact(4)
        .map(|c| words([c[0], c[1], c[2], c[3]]))
        .collect()
}

/// A tree over the holes of a list. Nodes are numbered as they are drawn from those whose parent has a number, in any order.
fn tree(list: &[u8], cut: Cut, noise: &mut Noise) -> Vec<Node> {
    let n = list.len() / 4;
    let mut all: Vec<u16> = (0..n as u16).collect();
    match cut {
        Cut::Halves => all.sort_by_key(|&hole| &list[4 * usize::from(hole)..][..4]),
        _ => noise.shuffle(&mut all),
    }
    let lifo = noise.once_in(2);
    let mut nodes = vec![Node::Leaf(0); 2 * n - 1];
    let mut waiting: Vec<(usize, Vec<u16>)> = vec![(usize::MAX, all)];
    for number in 0..2 * n - 1 {
        let drawn = if lifo && !noise.once_in(4) {
            waiting.len() - 1
        } else {
            noise.index(waiting.len())
        };
        let (parent, mut part) = waiting.swap_remove(drawn);
        if parent != usize::MAX {
            name_child(&mut nodes[parent], number as u16, noise);
        }
        nodes[number] = Node::Leaf(part[0]);
        if part.len() > 1 {
            nodes[number] = Node::Split(u16::MAX, u16::MAX);
            let second = part.split_off(place_of_cut(part.len(), cut, noise));
            waiting.push((number, part));
            waiting.push((number, second));
        }
    }
    nodes
}

/// How many of some holes, two or more, go to the first part.
fn place_of_cut(count: usize, cut: Cut, noise: &mut Noise) -> usize {
    match cut {
        Cut::Random => 1 + noise.index(count - 1),
        Cut::Caterpillar => 1,
        Cut::Halves => count / 2,
    }
}

/// Names a child on a side of its parent that is still free.
fn name_child(parent: &mut Node, child: u16, noise: &mut Noise) {
    if let Node::Split(first, second) = parent {
        let free_first = *first == u16::MAX;
        let free_second = *second == u16::MAX;
        if free_first && (!free_second || noise.once_in(2)) {
            *first = child;
        } else {
            *second = child;
        }
    }
}
