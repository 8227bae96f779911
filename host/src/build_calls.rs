//! The builder of the library.

use crate::{start, start_mut, Answer};

extern "C" {
    fn antlophis_build(
        holes: *const u8,
        holes_len: usize,
        a: u64,
        b: u64,
        work: *mut u8,
        work_len: usize,
        out: *mut u8,
        out_len: usize,
    ) -> Answer;
}

/// Builds the record of a coordinate list: the bytes written.
pub fn build(list: &[u8], a: u64, b: u64, work: &mut [u8], out: &mut [u8]) -> Answer {
    unsafe {
        antlophis_build(
            start(list),
            list.len(),
            a,
            b,
            start_mut(work),
            work.len(),
            start_mut(out),
            out.len(),
        )
    }
}
