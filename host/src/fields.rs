//! Fields of many shapes, as coordinate lists.

use crate::Noise;
use std::collections::HashSet;

/// How the holes of a field lie.
#[derive(Clone, Copy, Debug, PartialEq, Eq)]
pub enum Layout {
    /// Anywhere on the sheet.
    Uniform,
    /// In a few tight groups.
    Clustered,
    /// On a square grid, one unit apart.
    Grid,
    /// On one straight line.
    Line,
    /// At powers of two along both edges: a deep tree.
    Powers,
    /// A grid whose rows lean out in turn: 1,024 holes at 64/1 have one-hole pairs only, so their record is the longest there is.
    Leaning,
}

pub const LAYOUTS: [Layout; 6] = [
    Layout::Uniform,
    Layout::Clustered,
    Layout::Grid,
    Layout::Line,
    Layout::Powers,
    Layout::Leaning,
];

impl Layout {
    /// The layout of a name, as the bench takes it.
    pub fn named(name: &str) -> Option<Layout> {
        LAYOUTS.into_iter().find(|layout| layout.name() == name)
    }

    pub fn name(self) -> &'static str {
        match self {
            Layout::Uniform => "uniform",
            Layout::Clustered => "clustered",
            Layout::Grid => "grid",
            Layout::Line => "line",
            Layout::Powers => "powers",
            Layout::Leaning => "leaning",
        }
    }
}

/// The bytes of one hole.
fn hole(x: u64, y: u64) -> [u8; 4] {
    let ([a, b], [c, d]) = ((x as u16).to_be_bytes(), (y as u16).to_be_bytes());
    [a, b, c, d]
}

/// A coordinate list of n distinct holes, in any order.
pub fn field(layout: Layout, n: usize, noise: &mut Noise) -> Vec<u8> {
    let mut holes = match layout {
        Layout::Grid => grid(n, noise),
        Layout::Leaning => leaning(n),
        _ => scattered(layout, n, noise),
    };
    noise.shuffle(&mut holes);
    holes.concat()
}

/// The side of a square that holds n holes.
fn side_for(n: usize) -> u64 {
    (1..).find(|side| side * side >= n as u64).unwrap_or(1)
}

fn grid(n: usize, noise: &mut Noise) -> Vec<[u8; 4]> {
    let side = side_for(n);
    let (left, bottom) = (noise.below(65_536 - side), noise.below(65_536 - side));
    (0..n as u64)
        .map(|k| hole(left + k % side, bottom + k / side))
        .collect()
}

fn leaning(n: usize) -> Vec<[u8; 4]> {
    let side = side_for(n);
    (0..n as u64)
        .map(|k| (k % side, k / side))
        .map(|(i, j)| hole(10 * i + 4 * (j % 2), 10 * j + 4 * (j % 2)))
        .collect()
}

/// Holes as a layout throws them, a place that is taken thrown again.
fn scattered(layout: Layout, n: usize, noise: &mut Noise) -> Vec<[u8; 4]> {
    let centres: Vec<[u64; 2]> = (0..1 + n / 64)
        .map(|_| [noise.below(64_536), noise.below(64_536)])
        .collect();
    let row = noise.below(65_536);
    let mut taken = HashSet::new();
    let mut holes = Vec::with_capacity(n);
    while holes.len() < n {
        let next = match layout {
            Layout::Clustered => {
                let [x, y] = noise.pick(&centres);
                hole(x + noise.below(1_000), y + noise.below(1_000))
            }
            Layout::Line => hole(noise.below(65_536), row),
            Layout::Powers if holes.len() < 33 => {
                let power = (1 << noise.below(17)) - 1;
                match noise.below(2) {
                    0 => hole(power, 0),
                    _ => hole(0, power),
                }
            }
            _ => hole(noise.below(65_536), noise.below(65_536)),
        };
        if taken.insert(next) {
            holes.push(next);
        }
    }
    holes
}

/// A coordinate list of n distinct holes on a small square, so that many are at equal distances.
pub fn crowded(n: usize, noise: &mut Noise) -> Vec<u8> {
    let side = (2..).find(|s| s * s >= 2 * n as u64).unwrap_or(2);
    let mut places: Vec<[u8; 4]> = (0..side * side).map(|k| hole(k % side, k / side)).collect();
    noise.shuffle(&mut places);
    places.truncate(n);
    places.concat()
}
