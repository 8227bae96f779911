//! What is not proved: the library as Rust sees it, each call of include/antlophis.h behind a safe function; and the baseline, the makers of
//! fields and records, and the runner of calls that the tests and the bench share.

pub mod baseline;
mod build_calls;
pub mod calls;
pub mod clock;
pub mod fields;
pub mod foreign;
mod questions_calls;
pub mod sha256;

pub use build_calls::build;
pub use questions_calls::{closest, links, pitch};

/// What a call answers: number 0 is done, any other is a refusal with its value first.
#[repr(C)]
#[derive(Clone, Copy, Debug, Default, PartialEq, Eq)]
pub struct Answer {
    pub number: u64,
    pub first: u64,
    pub second: u64,
    pub third: u64,
}

/// A part of the caller's record.
#[repr(C)]
#[derive(Clone, Copy, Debug, Default, PartialEq, Eq)]
pub struct Part {
    pub start: u64,
    pub length: u64,
}

extern "C" {
    fn antlophis_check(
        record: *const u8,
        record_len: usize,
        work: *mut u8,
        work_len: usize,
    ) -> Answer;
    fn antlophis_holes(
        record: *const u8,
        record_len: usize,
        work: *mut u8,
        work_len: usize,
    ) -> Part;
    fn antlophis_nodes(
        record: *const u8,
        record_len: usize,
        work: *mut u8,
        work_len: usize,
    ) -> Part;
    fn antlophis_pairs(
        record: *const u8,
        record_len: usize,
        work: *mut u8,
        work_len: usize,
    ) -> Part;
}

/// Where a slice to be read starts; NULL for an empty one, as C may pass it.
fn start(bytes: &[u8]) -> *const u8 {
    match bytes {
        [] => std::ptr::null(),
        _ => bytes.as_ptr(),
    }
}

/// Where a slice to be written starts; NULL for an empty one, as C may pass it.
fn start_mut(bytes: &mut [u8]) -> *mut u8 {
    match bytes {
        [] => std::ptr::null_mut(),
        _ => bytes.as_mut_ptr(),
    }
}

/// Checks a record: n and m of one that is taken.
pub fn check(record: &[u8], work: &mut [u8]) -> Answer {
    unsafe { antlophis_check(start(record), record.len(), start_mut(work), work.len()) }
}

/// The part of a record that holds its holes.
pub fn holes(record: &[u8], work: &mut [u8]) -> Part {
    unsafe { antlophis_holes(start(record), record.len(), start_mut(work), work.len()) }
}

/// The part of a record that holds its nodes.
pub fn nodes(record: &[u8], work: &mut [u8]) -> Part {
    unsafe { antlophis_nodes(start(record), record.len(), start_mut(work), work.len()) }
}

/// The part of a record that holds its pairs.
pub fn pairs(record: &[u8], work: &mut [u8]) -> Part {
    unsafe { antlophis_pairs(start(record), record.len(), start_mut(work), work.len()) }
}

/// Numbers that look random and are the same in every run.
pub struct Noise(pub u64);

impl Noise {
    pub fn next(&mut self) -> u64 {
        self.0 ^= self.0 << 13;
        self.0 ^= self.0 >> 7;
        self.0 ^= self.0 << 17;
        self.0
    }

    /// A number below n.
    pub fn below(&mut self, n: u64) -> u64 {
        (self.next() >> 11) % n
    }

    /// A number below n, as a place in a list.
    pub fn index(&mut self, n: usize) -> usize {
        self.below(n as u64) as usize
    }

    /// One of some things.
    pub fn pick<T: Copy>(&mut self, things: &[T]) -> T {
        things[self.index(things.len())]
    }

    /// Yes once in n.
    pub fn once_in(&mut self, n: u64) -> bool {
        self.below(n) == 0
    }

    /// Puts some things into any order.
    pub fn shuffle<T>(&mut self, things: &mut [T]) {
        for last in (1..things.len()).rev() {
            things.swap(last, self.index(last + 1));
        }
    }

    /// A buffer of n bytes that holds anything but zeros.
    pub fn garbage(&mut self, n: usize) -> Vec<u8> {
        let mut bytes = vec![0; n];
        for chunk in bytes.chunks_mut(8) {
            chunk.copy_from_slice(&self.next().to_le_bytes()[..chunk.len()]);
        }
        bytes.iter_mut().for_each(|byte| *byte = (*byte).max(1));
        bytes
    }
}
