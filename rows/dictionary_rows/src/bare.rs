//! Lines of a dictionary whose elements have the hashes that the lines give. Their item numbers are 0 and on.

use crate::words::{at, nth};
use blocks::{BlockRef, PlainStore, put_block};
use rehash_dict::{Dict, Memory};
use rev_cursor::BucketScan;
use row_words::{done, number, shown, told, unknown};
use scan_cursor::{ScanPage, page};
use std::alloc::Global;

/// A dictionary of bare hashes.
#[derive(Drop)]
pub struct Bare {
    dict: Dict<u64>,
}

impl Bare {
    pub fn new(alloc: Global) -> Bare {
        Bare {
            dict: Dict::new(alloc, 7),
        }
    }
}

// Puts an element of a hash in, whose value is the hash.
fn insert(dict: &mut Dict<u64>, hash: u64, key: BlockRef) -> Result<(), Memory> {
    match dict.insert_hashed(hash, key, hash) {
        Ok(_) => Ok(()),
        Err((_, error)) => Err(error),
    }
}

// A dictionary of elements with the hashes that stand behind the first two words.
fn of_hashes(alloc: Global, words: &[&str]) -> Result<Dict<u64>, Memory> {
    let mut store = PlainStore::new(alloc);
    let key = put_block(&mut store, b"key")?;
    let mut dict = Dict::new(alloc, 7);
    for index in 2..words.len() {
        insert(&mut dict, number(words[index]), key)?;
    }
    Ok(dict)
}

// How many of so many rehash steps found a rehash going on.
fn steps(dict: &mut Dict<u64>, count: u64) -> u64 {
    let mut made = 0u64;
    for _ in 0..count {
        if dict.rehash_step() {
            made = made.saturating_add(1);
        }
    }
    made
}

// The second item of a move.
fn second(dict: &Dict<u64>, cursor: u64) -> Option<usize> {
    match dict.scan_first(cursor) {
        Some(first) => dict.scan_after(cursor, first),
        None => None,
    }
}

// A move's items and the next cursor; behind them what the calls answer that give them one by one.
fn moved(alloc: Global, dict: &Dict<u64>, cursor: u64) -> Result<String, Memory> {
    let mut found = Vec::new(alloc);
    let next = dict.scan_at(cursor, &mut found)?;
    let end = dict.scan_end(cursor);
    let first = dict.scan_first(cursor);
    let second = second(dict, cursor);
    format!(in alloc; "{found:?} {next}, {end} {first:?} {second:?}")
}

// The items of a page that has some, as text, or how many these are, and the next cursor.
fn page_shown(alloc: Global, given: ScanPage, whole: bool) -> Result<String, Memory> {
    let (items, next) = (given.items, given.next);
    if whole {
        format!(in alloc; "{items:?} {next}")
    } else {
        let many = items.len();
        format!(in alloc; "{many} {next}")
    }
}

// A page of so many items from a cursor on.
fn paged(
    alloc: Global,
    dict: &Dict<u64>,
    cursor: u64,
    count: u64,
    whole: bool,
) -> Result<String, Memory> {
    if count == 0 {
        return unknown(alloc);
    }
    let given = page(alloc, dict, cursor, count)?;
    page_shown(alloc, given, whole)
}

// Makes so many rehash steps, and answers whether no rehash goes on then.
fn ends(dict: &mut Dict<u64>, count: u64) -> bool {
    steps(dict, count);
    !dict.rehash_step()
}

/// What a line of these words answers.
pub fn answer(bare: &mut Bare, alloc: Global, words: &[&str]) -> Result<String, Memory> {
    let (one, two) = (nth(words, 2), nth(words, 3));
    match at(words, 1) {
        "hashes" => {
            bare.dict = of_hashes(alloc, words)?;
            done(alloc)
        }
        "steps" => shown(alloc, Some(steps(&mut bare.dict, one))),
        "ends" => told(alloc, ends(&mut bare.dict, one)),
        "move" => moved(alloc, &bare.dict, one),
        "page" => paged(alloc, &bare.dict, one, two, true),
        "page_len" => paged(alloc, &bare.dict, one, two, false),
        "len" => shown(alloc, Some(bare.dict.len() as u64)),
        "top" => shown(alloc, Some(bare.dict.top() as u64)),
        _ => unknown(alloc),
    }
}
