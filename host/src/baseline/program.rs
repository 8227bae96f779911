//! What the small program prints.

use super::questions::Closest;
use super::record::{take, Taken};
use super::{refuse_if, Result, WORK};

/// The most bytes that the program reads.
const LONGEST: usize = 65_536;

/// The text that the program prints for an input.
pub fn program(input: &[u8]) -> Vec<u8> {
    match read(input) {
        Ok(taken) => verdict(&taken),
        Err(refusal) => format!("refused {} {}\n", refusal.number, refusal.value),
    }
    .into_bytes()
}

fn read(input: &[u8]) -> Result<Taken<'_>> {
    refuse_if(input.len() > LONGEST, 17, LONGEST as u64)?;
    take(input, WORK)
}

fn verdict(taken: &Taken) -> String {
    let (n, m) = (taken.layout.n, taken.layout.m);
    let closest = if n == 1 {
        "none".to_string()
    } else if !taken.layout.ratio.is_above(2) {
        "low".to_string()
    } else {
        let Closest {
            squared_distance,
            i,
            j,
        } = taken.closest();
        format!("{i} {j} {squared_distance}")
    };
    format!("points {n}\npairs {m}\nclosest {closest}\n")
}
