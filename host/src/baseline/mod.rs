//! Document 01 once more, as plain Rust that is not proved and allocates as it likes: what the library is compared with, for its answers and for
//! its speed. It is written from the document alone.

pub mod cover;
pub mod field;
pub mod pairs;
pub mod program;
pub mod questions;
pub mod record;
pub mod tree;

pub use program::program;
pub use questions::{closest, holes, links, nodes, pairs, pitch};
pub use record::{build, check};

/// The bytes of a work area that is long enough.
pub const WORK: usize = 65_536;

/// A refusal: its number in document 01's table, and its value.
#[derive(Clone, Copy, Debug, PartialEq, Eq)]
pub struct Refusal {
    pub number: u64,
    pub value: u64,
}

pub type Result<T> = std::result::Result<T, Refusal>;

/// Gives the refusal where its condition holds.
fn refuse_if(condition: bool, number: u64, value: u64) -> Result<()> {
    if condition {
        Err(Refusal { number, value })
    } else {
        Ok(())
    }
}

/// Refusal 5, which comes before all others of a call with a work area.
fn demand_work(length: usize) -> Result<()> {
    refuse_if(length < WORK, 5, WORK as u64)
}

/// The two-byte number at a place, high byte first.
fn two_bytes(bytes: &[u8], at: usize) -> u16 {
    u16::from_be_bytes([bytes[at], bytes[at + 1]])
}

/// The four-byte number at a place, high byte first.
fn four_bytes(bytes: &[u8], at: usize) -> u32 {
    u32::from_be_bytes([bytes[at], bytes[at + 1], bytes[at + 2], bytes[at + 3]])
}
