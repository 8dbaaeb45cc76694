//! Lines of deadlines.

use crate::cycles::{agree, clear_range, expire, fill, rounds};
use crate::timed::Timed;
use crate::words::{at, nth};
use blocks::BlockRef;
use expiry::{Gone, Memory};
use row_words::{bytes_of, done, shown, told, unknown};
use std::alloc::Global;

/// Deadlines, and the keys that the last cycle found gone.
#[derive(Drop)]
pub struct Found {
    timed: Timed,
    gone: Gone,
}

impl Found {
    pub fn new(alloc: Global) -> Found {
        Found {
            timed: Timed::new(alloc),
            gone: Gone::new(),
        }
    }
}

// Gives a key a deadline, and answers whether the block handed in names it, or the one that stood.
fn set(timed: &mut Timed, alloc: Global, key: &[u8], deadline: u64) -> Result<String, Memory> {
    let before = timed.block_of(key);
    let block = timed.set(key, deadline)?;
    let named = timed.block_of(key);
    if before.is_none() && named == Some(block) {
        return String::from_str(alloc, "named");
    }
    if before.is_some() && named == before {
        return String::from_str(alloc, "kept");
    }
    unknown(alloc)
}

// How many are found where no key is, how many a cycle finds at most where one key is, and whether that one is there afterwards.
fn lives(alloc: Global, deadline: u64, moment: u64) -> Result<String, Memory> {
    let mut timed = Timed::new(alloc);
    let mut gone = Gone::new();
    timed.cycle(moment, &mut gone);
    let none = gone.len();
    timed.set(b"key", deadline)?;
    let (_, most) = expire(&mut timed, moment, 4, &mut gone);
    let there = timed.get(b"key").is_some();
    format!(in alloc; "{none} {most} {there}")
}

// The first of the keys that were found.
fn first(gone: &Gone) -> Option<BlockRef> {
    if 0 < gone.len() {
        Some(gone.at(0))
    } else {
        None
    }
}

// Whether a further cycle finds the same key first.
fn again(found: &mut Found, moment: u64) -> bool {
    let before = first(&found.gone);
    found.timed.cycle(moment, &mut found.gone);
    before.is_some() && first(&found.gone) == before
}

// Makes so many rehash steps, and answers whether no rehash goes on then.
fn ends(timed: &mut Timed, count: u64) -> bool {
    for _ in 0..count {
        timed.rehash_step();
    }
    !timed.rehash_step()
}

// How many keys each of two rounds finds, where so many are gone.
fn rounds_shown(alloc: Global, count: u64) -> Result<String, Memory> {
    match rounds(alloc, count)? {
        Some((first, second)) => format!(in alloc; "[Some({first}), Some({second})]"),
        None => unknown(alloc),
    }
}

// A line with one number.
fn counted(found: &mut Found, alloc: Global, name: &str, count: u64) -> Result<String, Memory> {
    match name {
        "cycle" => {
            found.timed.cycle(count, &mut found.gone);
            shown(alloc, Some(found.gone.len() as u64))
        }
        "again" => told(alloc, again(found, count)),
        "ends" => told(alloc, ends(&mut found.timed, count)),
        "rounds" => rounds_shown(alloc, count),
        "agree" => {
            let agrees = agree(alloc, count)?;
            told(alloc, agrees)
        }
        _ => unknown(alloc),
    }
}

// A line with two numbers or three.
fn paired(found: &mut Found, alloc: Global, name: &str, words: &[&str]) -> Result<String, Memory> {
    let (one, two) = (nth(words, 2), nth(words, 3));
    match name {
        "lives" => lives(alloc, one, two),
        "clears" => shown(alloc, Some(clear_range(&mut found.timed, one, two))),
        "expire" => {
            let (dropped, _) = expire(&mut found.timed, one, two, &mut found.gone);
            shown(alloc, Some(dropped as u64))
        }
        "fill" => {
            fill(&mut found.timed, one, two, nth(words, 4))?;
            done(alloc)
        }
        _ => counted(found, alloc, name, one),
    }
}

// A line on one key, or with numbers.
fn on_key(found: &mut Found, alloc: Global, words: &[&str], key: &[u8]) -> Result<String, Memory> {
    match at(words, 1) {
        "get" => shown(alloc, found.timed.get(key)),
        "set" => set(&mut found.timed, alloc, key, nth(words, 3)),
        "clear" => told(alloc, found.timed.clear(key)),
        "rename" => {
            let had = found.timed.rename(key)?;
            told(alloc, had)
        }
        name => paired(found, alloc, name, words),
    }
}

/// What a line of these words answers.
pub fn answer(found: &mut Found, alloc: Global, words: &[&str]) -> Result<String, Memory> {
    match at(words, 1) {
        "new" => {
            *found = Found::new(alloc);
            done(alloc)
        }
        "len" => shown(alloc, Some(found.timed.len() as u64)),
        "found" => shown(alloc, Some(found.gone.len() as u64)),
        "step" => told(alloc, found.timed.rehash_step()),
        "shrink" => {
            let began = found.timed.shrink()?;
            told(alloc, began)
        }
        _ => {
            let key = bytes_of(alloc, at(words, 2))?;
            on_key(found, alloc, words, key.as_slice())
        }
    }
}
