//! Edits of a dictionary beside a plain table.

use crate::held::Held;
use crate::plain::Plain;
use rand_core::Rng;
use rand_pcg::Pcg32;
use rehash_dict::Memory;
use std::alloc::Global;

// Some edit of the dictionary and of the plain table, and whether they answer the same.
fn edit(held: &mut Held, plain: &mut Plain, n: u64, choice: u32) -> Result<bool, Memory> {
    let key = n.to_le_bytes();
    match choice {
        0..4 => {
            let value = n ^ u64::from(choice);
            let old = held.put(&key, value)?;
            Ok(old == plain.put(n, Some(value)))
        }
        4..8 => Ok(held.remove(&key) == plain.put(n, None)),
        8 => {
            held.rehash_step();
            let there = held.rename(&key)?;
            Ok(there == plain.get(n).is_some())
        }
        _ => {
            held.shrink()?;
            Ok(true)
        }
    }
}

// Whether both have the same value of the key, and as many elements.
fn same(held: &Held, plain: &Plain, n: u64) -> bool {
    let count = plain.count(1024);
    held.dict.len() == count
        && held.dict.is_empty() == (count == 0)
        && held.get(&n.to_le_bytes()) == plain.get(n)
}

/// Whether so many edits answer as a plain table does.
pub fn agree(alloc: Global, rounds: u64) -> Result<bool, Memory> {
    let mut rng = Pcg32::new(7, 54);
    let mut held = Held::new(alloc);
    let mut plain = Plain::new();
    for round in 0..rounds {
        let n = u64::from(rng.next_u32()) % (1 + round / 10) % 1024;
        let choice = rng.next_u32() % 10;
        if !edit(&mut held, &mut plain, n, choice)? || !same(&held, &plain, n) {
            return Ok(false);
        }
    }
    Ok(true)
}
