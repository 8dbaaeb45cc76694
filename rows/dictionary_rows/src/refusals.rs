//! Calls that may be refused memory: each leaves all then, and goes through when it is asked again.

use crate::held::Held;
use crate::keyed::steps;
use rehash_dict::{Dict, Memory};
use scan_cursor::page;
use std::alloc::Global;

// Whether a key is put at once, or when it is asked again of a dictionary that was left as it was.
fn puts(held: &mut Held, n: u64) -> Result<bool, Memory> {
    let key = n.to_le_bytes();
    if held.put(&key, n).is_err() {
        let left = held.get(&key).is_none() && held.dict.len() as u64 == n;
        let old = held.put(&key, n)?;
        return Ok(left && old.is_none());
    }
    Ok(held.dict.len() as u64 == n.saturating_add(1))
}

// Whether so many keys are put.
fn puts_all(held: &mut Held, count: u64) -> Result<bool, Memory> {
    for n in 0..count {
        if !puts(held, n)? {
            return Ok(false);
        }
    }
    Ok(true)
}

// How many elements a large page gives.
fn met(alloc: Global, dict: &Dict<u64>) -> Result<usize, Memory> {
    match page(alloc, dict, 0, 1000) {
        Ok(given) => Ok(given.items.len()),
        Err(_) => {
            let given = page(alloc, dict, 0, 1000)?;
            Ok(given.items.len())
        }
    }
}

// Whether each of these keys is taken out.
fn removes(held: &mut Held, from: u64, to: u64) -> bool {
    for n in from..to {
        if held.remove(&n.to_le_bytes()) != Some(n) {
            return false;
        }
    }
    true
}

// Whether a rehash to fewer buckets begins.
fn shrinks(held: &mut Held) -> Result<bool, Memory> {
    match held.shrink() {
        Ok(began) => Ok(began),
        Err(_) => held.shrink(),
    }
}

/// Whether a dictionary of so many keys stands after any refusal, goes through a page, and shrinks behind all keys but two.
pub fn spares(alloc: Global, count: u64) -> Result<bool, Memory> {
    let mut held = Held::new(alloc);
    if !puts_all(&mut held, count)? || met(alloc, &held.dict)? as u64 != count {
        return Ok(false);
    }
    steps(&mut held, 64);
    if !removes(&mut held, 2, count) || !shrinks(&mut held)? {
        return Ok(false);
    }
    Ok(held.dict.len() == 2)
}
