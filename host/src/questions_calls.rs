//! The questions of the library.

use crate::{start, start_mut, Answer};

extern "C" {
    fn antlophis_closest(
        record: *const u8,
        record_len: usize,
        work: *mut u8,
        work_len: usize,
    ) -> Answer;
    fn antlophis_pitch(
        record: *const u8,
        record_len: usize,
        p: u64,
        work: *mut u8,
        work_len: usize,
    ) -> Answer;
    fn antlophis_links(
        record: *const u8,
        record_len: usize,
        work: *mut u8,
        work_len: usize,
        out: *mut u8,
        out_len: usize,
    ) -> Answer;
}

/// The closest pair of a record: its holes and their squared distance.
pub fn closest(record: &[u8], work: &mut [u8]) -> Answer {
    unsafe { antlophis_closest(start(record), record.len(), start_mut(work), work.len()) }
}

/// Whether every two holes of a record are at least p apart: 1 is yes, 0 no.
pub fn pitch(record: &[u8], p: u64, work: &mut [u8]) -> Answer {
    unsafe { antlophis_pitch(start(record), record.len(), p, start_mut(work), work.len()) }
}

/// The link list of a record: the bytes written.
pub fn links(record: &[u8], work: &mut [u8], out: &mut [u8]) -> Answer {
    unsafe {
        antlophis_links(
            start(record),
            record.len(),
            start_mut(work),
            work.len(),
            start_mut(out),
            out.len(),
        )
    }
}
