//! Longer runs: edits beside a plain table, and passes that pack all nodes.

use super::held::{Held, used, value_of};
use crate::keys::{KEYS, Table, id, key_of};
use blocks::BlockStore;
use rand_core::Rng;
use rand_pcg::Pcg32;
use rax_packed::Memory;
use std::alloc::Global;

// Whether every answer about a key is that of the table.
fn same(held: &Held, table: &Table, rank: usize) -> bool {
    let key = key_of(rank);
    held.find(&key) == table.find(rank).map(value_of)
        && held.after(&key) == table.after(rank)
        && held.before(&key) == table.before(rank)
}

// Puts a value at a key of both, or takes the key out of both, and tells whether both had the same there.
fn edit(held: &mut Held, table: &mut Table, rank: usize, put: Option<u32>) -> Result<bool, Memory> {
    let key = key_of(rank);
    let stood = table.put(rank, put).map(value_of);
    match put {
        Some(value) => Ok(held.insert(&key, value_of(value))? == stood),
        None => Ok(held.remove(&key) == stood),
    }
}

// The nodes of all keys together.
fn nodes_of_all(held: &Held) -> usize {
    let mut sum: usize = 0;
    for rank in 0..KEYS {
        sum = sum.wrapping_add(held.nodes(&key_of(rank)));
    }
    sum
}

// Goes on with a copy, and tells whether each block is a node of one key.
fn copies(held: &mut Held) -> Result<bool, Memory> {
    held.copy()?;
    Ok(nodes_of_all(held) == used(&held.store))
}

// The rank of a key that is drawn.
fn drawn(rng: &mut Pcg32) -> usize {
    rng.next_u32() as usize % KEYS
}

/// Whether so many edits answer as a plain table does. The map grows, shrinks and grows again.
pub fn agree(alloc: Global, rounds: u32) -> Result<bool, Memory> {
    let mut rng = Pcg32::new(11, 54);
    let mut held = Held::new(alloc);
    let mut table = Table::new();
    for round in 0..rounds {
        let rank = drawn(&mut rng);
        let puts = rng.next_u32() % 8 < 2 + round / 1000 % 2 * 4;
        let put = if puts { Some(round) } else { None };
        if !edit(&mut held, &mut table, rank, put)?
            || !same(&held, &table, rank)
            || !same(&held, &table, drawn(&mut rng))
        {
            return Ok(false);
        }
        if round % 97 == 0 && !copies(&mut held)? {
            return Ok(false);
        }
    }
    Ok(true)
}

// How many keys the table of a pass has.
const MANY: usize = 6000;

// Whether each class has as few slabs as its blocks need.
fn is_packed(held: &Held) -> bool {
    for class in 0..36 {
        let in_use = held.store.use_of(class);
        let per_slab = u64::from(65_536 / in_use.size.max(1)).max(1);
        if in_use.slabs != in_use.used.div_ceil(per_slab) {
            return false;
        }
    }
    true
}

// Moves the nodes of all keys that stand, and answers how many moved.
fn relocate_all(held: &mut Held, stands: &[bool]) -> u32 {
    let mut moved: u32 = 0;
    held.begin_pass();
    for (ms, there) in (0..6000u32).zip(stands) {
        if *there {
            moved = moved.wrapping_add(held.relocate(&id(ms)));
        }
    }
    held.end_pass();
    moved
}

// Whether every key answers as the table says, and every node has one of the keys that stand.
fn holds_table(held: &Held, stands: &[bool]) -> bool {
    let mut nodes: usize = 0;
    for (ms, there) in (0..6000u32).zip(stands) {
        let key = id(ms);
        let wanted = if *there { Some(value_of(ms)) } else { None };
        if held.find(&key) != wanted {
            return false;
        }
        nodes = nodes.wrapping_add(held.nodes(&key));
    }
    nodes == used(&held.store)
}

// Puts most keys in, or takes most out.
fn stir(held: &mut Held, stands: &mut [bool], rng: &mut Pcg32, puts: bool) -> Result<(), Memory> {
    for (ms, there) in (0..6000u32).zip(stands) {
        if rng.next_u32() % 4 == 0 {
            continue;
        }
        let key = id(ms);
        if puts {
            held.insert(&key, value_of(ms))?;
        } else {
            held.remove(&key);
        }
        *there = puts;
    }
    Ok(())
}

// A pass, and whether it leaves as few slabs as can be and all keys, and another finds nothing to move. Many nodes are to move
// where that is asked for.
fn passes(held: &mut Held, stands: &[bool], many: bool) -> bool {
    let moved = relocate_all(held, stands);
    let enough = !many || moved > 500;
    enough && is_packed(held) && holds_table(held, stands) && relocate_all(held, stands) == 0
}

/// Whether passes pack all nodes after each of so many rounds. 6,000 keys take three slabs for their leaves alone. Two rounds of
/// three put most keys in, and the third takes most out.
pub fn packs(alloc: Global, rounds: u32) -> Result<bool, Memory> {
    let mut rng = Pcg32::new(7, 9);
    let mut held = Held::new(alloc);
    let mut stands = [false; MANY];
    for round in 0..rounds {
        stir(&mut held, &mut stands, &mut rng, round % 3 < 2)?;
        if round % 2 == 1 {
            held.copy()?;
        }
        if !passes(&mut held, &stands, round == 2) {
            return Ok(false);
        }
    }
    Ok(used(&held.release()) == 0)
}
