//! Document 01's record rules and questions, each straight from its sentence, without thought for time.

/// A record's numbers, as far as its bytes go.
struct Words<'a>(&'a [u8]);

impl Words<'_> {
    fn two(&self, at: usize) -> Option<usize> {
        Some(256 * usize::from(*self.0.get(at)?) + usize::from(*self.0.get(at + 1)?))
    }

    fn four(&self, at: usize) -> Option<usize> {
        Some(65_536 * self.two(at)? + self.two(at + 2)?)
    }

    /// So many entries of two numbers from a place on.
    fn entries(&self, at: usize, count: usize) -> Option<Vec<(usize, usize)>> {
        (0..count)
            .map(|k| Some((self.two(at + 4 * k)?, self.two(at + 4 * k + 2)?)))
            .collect()
    }
}

/// The sections of a record whose lengths and counts are right.
pub struct Sheet {
    pub a: i128,
    pub b: i128,
    pub holes: Vec<(usize, usize)>,
    pub nodes: Vec<(usize, usize)>,
    pub pairs: Vec<(usize, usize)>,
}

impl Sheet {
    /// Reads a record; None where a count, a length or the ratio is wrong.
    pub fn read(record: &[u8]) -> Option<Sheet> {
        let words = Words(record);
        let (a, b) = (*record.first()?, *record.get(1)?);
        let n = words.two(2)?;
        let right = (1..=64).contains(&a) && (1..=8).contains(&b) && (1..=1_024).contains(&n);
        let count = words.two(4 + 4 * n)?;
        if !right || count != 2 * n - 1 {
            return None;
        }
        let m = words.four(2 + 12 * n)?;
        if record.len() != 6 + 12 * n + 4 * m {
            return None;
        }
        Some(Sheet {
            a: a.into(),
            b: b.into(),
            holes: words.entries(4, n)?,
            nodes: words.entries(6 + 4 * n, count)?,
            pairs: words.entries(6 + 12 * n, m)?,
        })
    }

    /// Whether the record meets the rules.
    pub fn meets_rules(&self) -> bool {
        self.are_holes_distinct()
            && (0..self.nodes.len()).all(|k| self.is_node_fine(k))
            && self.pairs.iter().all(|&pair| self.is_pair_fine(pair))
            && self.least_uncovered().is_none()
    }

    fn are_holes_distinct(&self) -> bool {
        let holes = &self.holes;
        (0..holes.len()).all(|i| !holes[..i].contains(&holes[i]))
    }

    fn is_node_fine(&self, k: usize) -> bool {
        let lower = &self.nodes[..k];
        match self.nodes[k] {
            (65_535, hole) => hole < self.holes.len() && !lower.contains(&(65_535, hole)),
            (first, second) => {
                let fine = |child: usize| {
                    child > k
                        && child < self.nodes.len()
                        && !lower
                            .iter()
                            .any(|&(p, q)| p != 65_535 && (p == child || q == child))
                };
                first != second && fine(first) && fine(second)
            }
        }
    }

    /// The holes under a node.
    pub fn under(&self, node: usize) -> Vec<usize> {
        let (mut holes, mut waiting) = (Vec::new(), vec![node]);
        while let Some(k) = waiting.pop() {
            match self.nodes[k] {
                (65_535, hole) => holes.push(hole),
                (first, second) => waiting.extend([first, second]),
            }
        }
        holes
    }

    fn is_pair_fine(&self, (one, other): (usize, usize)) -> bool {
        let count = self.nodes.len();
        one < count && other < count && self.is_separated(&self.under(one), &self.under(other))
    }

    /// C and G of the box of some holes.
    fn centre_and_diagonal(&self, holes: &[usize]) -> ([i128; 2], i128) {
        let ends = |axis: fn(&(usize, usize)) -> usize| {
            let values = || holes.iter().map(|&hole| axis(&self.holes[hole]) as i128);
            (values().min().unwrap(), values().max().unwrap())
        };
        let ((l, r), (bottom, top)) = (ends(|hole| hole.0), ends(|hole| hole.1));
        let diagonal = (r - l) * (r - l) + (top - bottom) * (top - bottom);
        ([l + r, bottom + top], diagonal)
    }

    fn is_separated(&self, one: &[usize], other: &[usize]) -> bool {
        let (c, g) = self.centre_and_diagonal(one);
        let (d, h) = self.centre_and_diagonal(other);
        let apart = (c[0] - d[0]) * (c[0] - d[0]) + (c[1] - d[1]) * (c[1] - d[1]);
        let weight = 2 * self.b + self.a;
        apart != 0 && self.b * self.b * apart >= weight * weight * g.max(h)
    }

    /// The least i, then the least j above it, that are not covered exactly once.
    pub fn least_uncovered(&self) -> Option<(usize, usize)> {
        let n = self.holes.len();
        let mut times = vec![vec![0; n]; n];
        for &(one, other) in &self.pairs {
            let others = self.under(other);
            for p in self.under(one) {
                for &q in &others {
                    times[p.min(q)][p.max(q)] += 1;
                }
            }
        }
        (0..n)
            .flat_map(|i| (i + 1..n).map(move |j| (i, j)))
            .find(|&(i, j)| times[i][j] != 1)
    }

    /// The closest two holes of all: least distance, then least i, then least j.
    pub fn closest(&self) -> Option<(u64, usize, usize)> {
        let n = self.holes.len();
        (0..n)
            .flat_map(|i| (i + 1..n).map(move |j| (i, j)))
            .map(|(i, j)| (self.distance(i, j), i, j))
            .min()
    }

    fn distance(&self, i: usize, j: usize) -> u64 {
        let ((x, y), (z, w)) = (self.holes[i], self.holes[j]);
        (x.abs_diff(z).pow(2) + y.abs_diff(w).pow(2)) as u64
    }

    /// The link list, as numbers.
    pub fn links(&self) -> Vec<(usize, usize)> {
        let lowest = |node: usize| self.under(node).into_iter().min().unwrap();
        self.pairs
            .iter()
            .map(|&(one, other)| {
                let (p, q) = (lowest(one), lowest(other));
                (p.min(q), p.max(q))
            })
            .collect()
    }
}
