//! What each line answers.

use super::held::{Held, used, value_of};
use super::runs::{agree, packs};
use crate::keys::{Key, id, named};
use crate::words::{at, nth};
use blocks::BlockRef;
use rax_packed::Memory;
use row_words::{done, shown, told, unknown};
use std::alloc::Global;
use std::mem;

// The number below 2^32 that the word at an index is.
fn small(words: &[&str], index: usize) -> u32 {
    u32::try_from(nth(words, index)).unwrap_or(0)
}

// A value's number, and `-` for none.
fn value_shown(alloc: Global, value: Option<BlockRef>) -> Result<String, Memory> {
    match value {
        Some(at) => shown(alloc, Some(u64::from(at.slot))),
        None => shown(alloc, None),
    }
}

// A part of a node's bytes.
fn part(bytes: &[u8], from: usize, to: usize) -> &[u8] {
    if from <= to && to <= bytes.len() {
        &bytes[from..to]
    } else {
        &[]
    }
}

// Puts the ids of the milliseconds from the third word on into a map.
fn put_ids(held: &mut Held, words: &[&str]) -> Result<(), Memory> {
    for index in 2..words.len() {
        let ms = small(words, index);
        held.insert(&id(ms), value_of(ms))?;
    }
    Ok(())
}

// Gives all nodes back, and answers how many blocks are left. An empty map stands afterwards.
fn release(held: &mut Held, alloc: Global) -> usize {
    used(&mem::replace(held, Held::new(alloc)).release())
}

// A key, and `None` for none.
fn key_shown(alloc: Global, found: Option<Key>) -> Result<String, Memory> {
    format!(in alloc; "{found:?}")
}

// A line on a key.
fn on_key(held: &mut Held, alloc: Global, name: &str, key: &Key) -> Result<String, Memory> {
    match name {
        "find" => value_shown(alloc, held.find(key)),
        "remove" => value_shown(alloc, held.remove(key)),
        "after" => key_shown(alloc, held.after(key)),
        "before" => key_shown(alloc, held.before(key)),
        "nodes" => shown(alloc, Some(held.nodes(key) as u64)),
        "relocate" => shown(alloc, Some(u64::from(held.relocate(key)))),
        "top" => shown(alloc, Some(held.top(key).len() as u64)),
        _ => unknown(alloc),
    }
}

// Puts a value at a key.
fn insert(held: &mut Held, alloc: Global, key: &Key, value: u32) -> Result<String, Memory> {
    let old = held.insert(key, value_of(value))?;
    value_shown(alloc, old)
}

// The bytes of the first node of a key that stand between the numbers of two words.
fn top_shown(held: &Held, alloc: Global, key: &Key, words: &[&str]) -> Result<String, Memory> {
    let bytes = part(
        held.top(key),
        nth(words, 5) as usize,
        nth(words, 6) as usize,
    );
    format!(in alloc; "{bytes:?}")
}

// A line on a key and numbers.
fn with_numbers(held: &mut Held, alloc: Global, words: &[&str]) -> Result<String, Memory> {
    let key = named(at(words, 2), at(words, 3));
    match at(words, 4) {
        "insert" => insert(held, alloc, &key, small(words, 5)),
        "set" => told(alloc, held.set(&key, value_of(small(words, 5)))),
        "top" => top_shown(held, alloc, &key, words),
        _ => unknown(alloc),
    }
}

// A longer run, and whether it answers as it should.
fn run(alloc: Global, name: &str, rounds: u32) -> Result<bool, Memory> {
    match name {
        "agree" => agree(alloc, rounds),
        _ => packs(alloc, rounds),
    }
}

// A line that only does something.
fn acts(held: &mut Held, words: &[&str]) -> Result<(), Memory> {
    match at(words, 1) {
        "copy" => held.copy(),
        _ => put_ids(held, words),
    }
}

/// What a line of these words answers.
pub fn answer(held: &mut Held, alloc: Global, words: &[&str]) -> Result<String, Memory> {
    match at(words, 1) {
        "ids" | "copy" => {
            acts(held, words)?;
            done(alloc)
        }
        "agree" | "packs" => {
            let same = run(alloc, at(words, 1), small(words, 2))?;
            told(alloc, same)
        }
        "used" => shown(alloc, Some(used(&held.store) as u64)),
        "release" => shown(alloc, Some(release(held, alloc) as u64)),
        "at" => with_numbers(held, alloc, words),
        name => on_key(held, alloc, name, &named(at(words, 2), at(words, 3))),
    }
}
