//! Scans of a dictionary that changes.

use crate::held::{Held, value_at};
use crate::plain::Plain;
use rand_core::Rng;
use rand_pcg::Pcg32;
use rehash_dict::{Dict, Memory};
use rev_cursor::BucketScan;
use std::alloc::Global;

// The values that a move gives are met. The answer is the next cursor.
fn meet(
    dict: &Dict<u64>,
    cursor: u64,
    met: &mut Plain,
    found: &mut Vec<usize>,
) -> Result<u64, Memory> {
    found.clear();
    let next = dict.scan_at(cursor, found)?;
    for at in found.iter() {
        if let Some(value) = value_at(dict, *at) {
            met.put(value, Some(value));
        }
    }
    Ok(next)
}

// Three edits of keys from 40 on.
fn stir(held: &mut Held, rng: &mut Pcg32, grows: bool) -> Result<(), Memory> {
    for _ in 0..3 {
        let n = 40 + u64::from(rng.next_u32() % 800);
        if grows {
            held.put(&n.to_le_bytes(), n)?;
        } else {
            held.remove(&n.to_le_bytes());
            held.shrink()?;
        }
    }
    Ok(())
}

// Whether a scan of a dictionary that changes between its moves ends, and meets the first 40 numbers.
fn scans(alloc: Global, held: &mut Held, rng: &mut Pcg32, grows: bool) -> Result<bool, Memory> {
    let mut met = Plain::new();
    let mut found = Vec::new(alloc);
    let mut cursor = 0;
    for _ in 0..4000 {
        cursor = meet(&held.dict, cursor, &mut met, &mut found)?;
        if cursor == 0 {
            return Ok(met.count(40) == 40);
        }
        stir(held, rng, grows)?;
    }
    Ok(false)
}

// A dictionary of the first 40 numbers.
fn of_first(alloc: Global) -> Result<Held, Memory> {
    let mut held = Held::new(alloc);
    for n in 0..40u64 {
        held.put(&n.to_le_bytes(), n)?;
    }
    Ok(held)
}

/// Whether so many scans meet all that stands throughout.
pub fn meets(alloc: Global, rounds: u64) -> Result<bool, Memory> {
    let mut rng = Pcg32::new(7, 54);
    let mut held = of_first(alloc)?;
    for round in 0..rounds {
        if !scans(alloc, &mut held, &mut rng, round / 4 % 2 == 0)? {
            return Ok(false);
        }
    }
    Ok(true)
}
