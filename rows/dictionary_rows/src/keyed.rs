//! Lines of a dictionary of keys.

use crate::agreeing::agree;
use crate::held::Held;
use crate::refusals::spares;
use crate::scanning::meets;
use crate::words::{at, nth};
use rehash_dict::Memory;
use row_words::{bytes_of, done, shown, told};
use std::alloc::Global;

// The keys `k0`, `k1` and on, and how many of them were new.
fn put_names(alloc: Global, held: &mut Held, count: u64) -> Result<u64, Memory> {
    let mut new = 0u64;
    for n in 0..count {
        let name = format!(in alloc; "k{n}")?;
        if held.put(name.as_bytes(), n)?.is_none() {
            new = new.saturating_add(1);
        }
    }
    Ok(new)
}

/// How many of so many rehash steps found a rehash going on.
pub fn steps(held: &mut Held, count: u64) -> u64 {
    let mut made = 0u64;
    for _ in 0..count {
        if held.rehash_step() {
            made = made.saturating_add(1);
        }
    }
    made
}

// A longer run with a count, and whether all went as it should.
fn run(alloc: Global, name: &str, count: u64) -> Result<bool, Memory> {
    match name {
        "agree" => agree(alloc, count),
        "meets" => meets(alloc, count),
        "spares" => spares(alloc, count),
        _ => Ok(false),
    }
}

// A line with a count.
fn counted(held: &mut Held, alloc: Global, name: &str, words: &[&str]) -> Result<String, Memory> {
    let count = nth(words, 2);
    match name {
        "names" => {
            let new = put_names(alloc, held, count)?;
            shown(alloc, Some(new))
        }
        "steps" => steps_told(held, alloc, count, words),
        _ => {
            let all = run(alloc, name, count)?;
            told(alloc, all)
        }
    }
}

// A line with the number of rehash steps, behind which the most may stand that find a rehash going on.
fn steps_told(
    held: &mut Held,
    alloc: Global,
    count: u64,
    words: &[&str],
) -> Result<String, Memory> {
    let made = steps(held, count);
    if words.len() > 3 {
        told(alloc, made <= nth(words, 3))
    } else {
        shown(alloc, Some(made))
    }
}

// A line on one key, or with a count.
fn on_key(held: &mut Held, alloc: Global, words: &[&str], key: &[u8]) -> Result<String, Memory> {
    match at(words, 1) {
        "get" => shown(alloc, held.get(key)),
        "put" => {
            let old = held.put(key, nth(words, 3))?;
            shown(alloc, old)
        }
        "remove" => shown(alloc, held.remove(key)),
        "rename" => {
            let there = held.rename(key)?;
            told(alloc, there)
        }
        name => counted(held, alloc, name, words),
    }
}

/// What a line of these words answers.
pub fn answer(held: &mut Held, alloc: Global, words: &[&str]) -> Result<String, Memory> {
    match at(words, 1) {
        "new" => {
            *held = Held::new(alloc);
            done(alloc)
        }
        "len" => shown(alloc, Some(held.dict.len() as u64)),
        _ => {
            let key = bytes_of(alloc, at(words, 2))?;
            on_key(held, alloc, words, key.as_slice())
        }
    }
}
