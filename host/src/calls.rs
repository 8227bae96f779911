//! Any call of the interface as a value, run through the library or through the baseline.

use crate::baseline::{self, Refusal};
use crate::{Answer, Part};
use std::ops::Range;

/// A call and its numbers.
#[derive(Clone, Copy, Debug, PartialEq, Eq)]
pub enum Call {
    Build { a: u64, b: u64 },
    Check,
    Closest,
    Pitch { p: u64 },
    Links,
    Holes,
    Nodes,
    Pairs,
}

/// Every call over a record, the pitch test with one p.
pub fn over_records(p: u64) -> [Call; 7] {
    [
        Call::Check,
        Call::Closest,
        Call::Pitch { p },
        Call::Links,
        Call::Holes,
        Call::Nodes,
        Call::Pairs,
    ]
}

impl Call {
    /// Whether the call has an output.
    pub fn writes(self) -> bool {
        matches!(self, Call::Build { .. } | Call::Links)
    }
}

/// What a call gives back.
#[derive(Clone, Copy, Debug, PartialEq, Eq)]
pub enum Reply {
    Answer(Answer),
    Part(Part),
}

/// Runs a call through the library.
pub fn library(call: Call, input: &[u8], work: &mut [u8], out: &mut [u8]) -> Reply {
    match call {
        Call::Check => Reply::Answer(crate::check(input, work)),
        Call::Holes => Reply::Part(crate::holes(input, work)),
        Call::Nodes => Reply::Part(crate::nodes(input, work)),
        Call::Pairs => Reply::Part(crate::pairs(input, work)),
        Call::Build { a, b } => Reply::Answer(crate::build(input, a, b, work, out)),
        Call::Closest => Reply::Answer(crate::closest(input, work)),
        Call::Pitch { p } => Reply::Answer(crate::pitch(input, p, work)),
        Call::Links => Reply::Answer(crate::links(input, work, out)),
    }
}

/// Runs a call through the baseline: what it gives back, and the whole output that it leaves.
pub fn baseline(call: Call, input: &[u8], work: usize, room: usize) -> (Reply, Vec<u8>) {
    let room = if call.writes() { room } else { 0 };
    let mut out = Vec::new();
    let reply = match call {
        Call::Build { a, b } => wrote(baseline::build(input, a, b, work, room), &mut out),
        Call::Links => wrote(baseline::links(input, work, room), &mut out),
        Call::Check => answer(baseline::check(input, work).map(|(n, m)| [n, m, 0])),
        Call::Closest => {
            answer(baseline::closest(input, work).map(|c| [c.i, c.j, c.squared_distance]))
        }
        Call::Pitch { p } => {
            answer(baseline::pitch(input, p, work).map(|yes| [u64::from(yes), 0, 0]))
        }
        Call::Holes => part(baseline::holes(input, work)),
        Call::Nodes => part(baseline::nodes(input, work)),
        Call::Pairs => part(baseline::pairs(input, work)),
    };
    out.resize(room, 0);
    (reply, out)
}

/// The answer of a call that writes, whose bytes go to the start of its output.
fn wrote(result: Result<Vec<u8>, Refusal>, out: &mut Vec<u8>) -> Reply {
    answer(result.map(|bytes| {
        *out = bytes;
        [out.len() as u64, 0, 0]
    }))
}

fn answer(result: Result<[u64; 3], Refusal>) -> Reply {
    Reply::Answer(match result {
        Ok([first, second, third]) => Answer {
            number: 0,
            first,
            second,
            third,
        },
        Err(refusal) => Answer {
            number: refusal.number,
            first: refusal.value,
            ..Answer::default()
        },
    })
}

fn part(range: Range<usize>) -> Reply {
    Reply::Part(Part {
        start: range.start as u64,
        length: range.len() as u64,
    })
}
