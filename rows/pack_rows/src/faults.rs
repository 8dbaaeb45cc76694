//! What cuts and changes of bytes break.

use listpack::{Memory, PackFault, check};
use std::alloc::Global;

/// The faults of the shorter beginnings of some bytes, by rising length: each, and how many follow on each other.
pub fn cuts(alloc: Global, bytes: &[u8]) -> Result<Vec<(Option<PackFault>, usize)>, Memory> {
    let mut found: Vec<(Option<PackFault>, usize)> = Vec::new(alloc);
    for len in 0..bytes.len() {
        let fault = check(&bytes[..len]).err();
        match found.last_mut() {
            Some(run) if run.0 == fault => run.1 = run.1.saturating_add(1),
            _ => found.push((fault, 1))?,
        }
    }
    Ok(found)
}

// The fault of some bytes with another one at a place.
fn changed(alloc: Global, bytes: &[u8], at: usize, value: u8) -> Result<Option<PackFault>, Memory> {
    let mut copy = bytes.to_vec(alloc)?;
    if let Some(byte) = copy.get_mut(at) {
        *byte = value;
    }
    Ok(check(&copy).err())
}

/// The faults of some bytes by the value at a place, from 0 to 255: the last of those that follow on each other with one fault.
pub fn changes(
    alloc: Global,
    bytes: &[u8],
    at: usize,
) -> Result<Vec<(u8, Option<PackFault>)>, Memory> {
    let mut found: Vec<(u8, Option<PackFault>)> = Vec::new(alloc);
    for value in 0..=255u8 {
        let fault = changed(alloc, bytes, at, value)?;
        match found.last_mut() {
            Some(run) if run.1 == fault => run.0 = value,
            _ => found.push((value, fault))?,
        }
    }
    Ok(found)
}
