//! What the tests share: a call run through the library and the baseline at once, and document 01's rules in their most naive form.

#![allow(dead_code)]

pub mod naive;

use host::calls::{baseline, library, Call, Reply};
use host::Noise;
use std::collections::BTreeMap;

/// Bytes on either side of a lent buffer, which no call may touch.
const GUARD: usize = 64;

/// A lent buffer between two guards.
struct Lent {
    bytes: Vec<u8>,
    guards: [Vec<u8>; 2],
}

impl Lent {
    /// A buffer that holds some bytes.
    fn new(held: &[u8], noise: &mut Noise) -> Lent {
        let guards = [noise.garbage(GUARD), noise.garbage(GUARD)];
        let bytes = [&guards[0], held, &guards[1]].concat();
        Lent { bytes, guards }
    }

    fn lend(&mut self) -> &mut [u8] {
        let end = self.bytes.len() - GUARD;
        &mut self.bytes[GUARD..end]
    }

    fn is_guarded(&self) -> bool {
        self.bytes.starts_with(&self.guards[0]) && self.bytes.ends_with(&self.guards[1])
    }
}

/// Runs calls through the library and the baseline and compares all that they give and leave.
pub struct Rig {
    pub noise: Noise,
    /// The input of an earlier call, for leftovers.
    leftover: Vec<u8>,
    /// How often each number was answered; 0 is done.
    pub numbers: BTreeMap<u64, usize>,
    /// How many calls went through the library.
    pub calls: usize,
}

impl Rig {
    pub fn new(seed: u64) -> Rig {
        Rig {
            noise: Noise(seed),
            leftover: vec![255],
            numbers: BTreeMap::new(),
            calls: 0,
        }
    }

    /// Compares one call: its answer, the whole output, the wiped work area, the guards and the untouched input; with garbage in the buffers,
    /// and with an earlier input in them. Gives what the baseline gives.
    pub fn compare(&mut self, call: Call, input: &[u8], work: usize, room: usize) -> Reply {
        let (reply, output) = self.over_garbage(call, input, work, room);
        let leftovers = (self.leftovers(work), self.leftovers(output.len()));
        self.run(call, input, leftovers, reply, &output);
        if !input.is_empty() && self.noise.once_in(8) {
            self.leftover = input.to_vec();
        }
        reply
    }

    /// Compares one call with garbage in the buffers only.
    pub fn compare_once(&mut self, call: Call, input: &[u8], work: usize, room: usize) -> Reply {
        self.over_garbage(call, input, work, room).0
    }

    fn over_garbage(
        &mut self,
        call: Call,
        input: &[u8],
        work: usize,
        room: usize,
    ) -> (Reply, Vec<u8>) {
        let (reply, output) = baseline(call, input, work, room);
        if let Reply::Answer(answer) = reply {
            *self.numbers.entry(answer.number).or_default() += 1;
        }
        let garbage = (self.noise.garbage(work), self.noise.garbage(output.len()));
        self.run(call, input, garbage, reply, &output);
        (reply, output)
    }

    /// One call through the library with the given bytes in its work area and output.
    fn run(
        &mut self,
        call: Call,
        input: &[u8],
        held: (Vec<u8>, Vec<u8>),
        reply: Reply,
        output: &[u8],
    ) {
        let mut work = Lent::new(&held.0, &mut self.noise);
        let mut out = Lent::new(&held.1, &mut self.noise);
        let before = input.to_vec();
        let found = library(call, input, work.lend(), out.lend());
        self.calls += 1;
        assert_eq!(found, reply, "{}", said(call, input, &held));
        let wiped = work.lend().iter().all(|&byte| byte == 0);
        assert!(wiped, "the work area: {}", said(call, input, &held));
        assert!(out.lend() == output, "output: {}", said(call, input, &held));
        assert!(before == input, "the input: {}", said(call, input, &held));
        let guarded = work.is_guarded() && out.is_guarded();
        assert!(guarded, "guards: {}", said(call, input, &held));
    }

    /// A buffer as other work might leave it: filled with an earlier input over and over, from some place on, or with one byte.
    fn leftovers(&mut self, length: usize) -> Vec<u8> {
        match self.noise.below(8) {
            0 => vec![0; length],
            1 => vec![255; length],
            _ => {
                let from = self.noise.index(self.leftover.len());
                let times = 1 + (from + length) / self.leftover.len();
                self.leftover.repeat(times)[from..from + length].to_vec()
            }
        }
    }
}

/// A call in words, for a failed comparison.
fn said(call: Call, input: &[u8], held: &(Vec<u8>, Vec<u8>)) -> String {
    let hex: String = input
        .iter()
        .take(2_000)
        .map(|byte| format!("{byte:02x}"))
        .collect();
    let (work, room) = (held.0.len(), held.1.len());
    format!("{call:?} work {work} room {room} input {hex}")
}
