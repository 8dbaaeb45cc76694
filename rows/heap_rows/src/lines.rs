//! What each line answers.

use crate::calls::{Calls, bytes, end, runs, shifted, stretched, uses};
use crate::entries::{Entries, move_all};
use crate::regions::{self, Regions};
use crate::twin::agree;
use crate::words::{at, nth};
use blocks::{BlockStore, Memory};
use class_heap::ClassHeap;
use row_words::{bytes_of, done, shown, told, unknown};
use std::alloc::Global;

/// What the lines work on.
#[derive(Drop)]
pub struct State {
    calls: Calls,
    entries: Entries,
    regions: Regions,
}

impl State {
    pub fn new(alloc: Global) -> Result<State, Memory> {
        Ok(State {
            calls: Calls::new(alloc),
            entries: Entries::new(alloc),
            regions: Regions::new(alloc)?,
        })
    }
}

// A number of a slab, and `-` for none.
fn slab_shown(alloc: Global, slab: Option<usize>) -> Result<String, Memory> {
    match slab {
        Some(slab) => shown(alloc, Some(slab as u64)),
        None => shown(alloc, None),
    }
}

// The runs of equal bytes of a block, and `-` for one that isn't live.
fn runs_shown(alloc: Global, bytes: Option<&[u8]>) -> Result<String, Memory> {
    match bytes {
        Some(bytes) => {
            let found = runs(bytes, alloc)?;
            format!(in alloc; "{found:?}")
        }
        None => shown(alloc, None),
    }
}

// The slabs and the blocks of each class that has some.
fn uses_shown(alloc: Global, heap: &ClassHeap) -> Result<String, Memory> {
    let found = uses(heap, alloc)?;
    format!(in alloc; "{found:?}")
}

// A line on the block of a number.
fn on_block(calls: &mut Calls, alloc: Global, words: &[&str]) -> Result<String, Memory> {
    let block = calls.at(nth(words, 2) as usize);
    match at(words, 1) {
        "live" => told(alloc, calls.heap.is_live(block)),
        "slot" => shown(alloc, Some(u64::from(block.slot))),
        "bytes" => runs_shown(alloc, bytes(&calls.heap, block)),
        "end" => told(alloc, end(&mut calls.heap, block)),
        _ => unknown(alloc),
    }
}

// A line that changes the block of a number in its place.
fn in_place(calls: &mut Calls, alloc: Global, words: &[&str]) -> Result<String, Memory> {
    let number = nth(words, 1) as usize;
    let block = calls.at(number);
    match at(words, 0) {
        "stretch" => told(
            alloc,
            stretched(&mut calls.heap, block, nth(words, 2) as usize),
        ),
        "shift" => {
            let (from, to) = (nth(words, 2) as usize, nth(words, 3) as usize);
            let count = nth(words, 4) as usize;
            told(alloc, shifted(&mut calls.heap, block, from, to, count))
        }
        _ => {
            let piece = bytes_of(alloc, at(words, 2))?;
            told(alloc, calls.write(number, piece.as_slice()))
        }
    }
}

// Places a block of the bytes that a word stands for.
fn put(calls: &mut Calls, alloc: Global, word: &str) -> Result<Option<usize>, Memory> {
    let filled = bytes_of(alloc, word)?;
    let slab = calls.put(filled.as_slice())?;
    Ok(Some(slab))
}

// Places blocks, and answers the last one's number of a slab.
fn place(calls: &mut Calls, alloc: Global, words: &[&str]) -> Result<Option<usize>, Memory> {
    match at(words, 0) {
        "place" => calls.place(nth(words, 1) as usize),
        "places" => calls.place_many(nth(words, 1), nth(words, 2) as usize),
        _ => put(calls, alloc, at(words, 1)),
    }
}

// A line that places or lengthens blocks.
fn placing(calls: &mut Calls, alloc: Global, words: &[&str]) -> Result<String, Memory> {
    match at(words, 0) {
        "grow" => {
            let (block, from) = (nth(words, 1) as usize, nth(words, 2) as usize);
            let steps = calls.grow(block, from, nth(words, 3) as usize)?;
            shown(alloc, Some(steps))
        }
        _ => {
            let slab = place(calls, alloc, words)?;
            slab_shown(alloc, slab)
        }
    }
}

// A line on keys and values that tells how many.
fn many(entries: &mut Entries, heap: &mut ClassHeap, words: &[&str]) -> u64 {
    match at(words, 1) {
        "thin" => entries.thin(heap),
        "holding" => entries.holding(heap),
        _ => match at(words, 2) {
            "keys" => move_all(&mut entries.keys, heap),
            _ => move_all(&mut entries.values, heap),
        },
    }
}

// A line on keys and values.
fn on_entries(state: &mut State, alloc: Global, words: &[&str]) -> Result<String, Memory> {
    let heap = &mut state.calls.heap;
    match at(words, 1) {
        "fill" => {
            let count = u8::try_from(nth(words, 2)).unwrap_or(0);
            state.entries.fill(heap, count)?;
            done(alloc)
        }
        _ => shown(alloc, Some(many(&mut state.entries, heap, words))),
    }
}

// Begins with an empty heap.
fn renew(state: &mut State, alloc: Global) {
    state.calls = Calls::new(alloc);
    state.entries = Entries::new(alloc);
}

// A line that only does something.
fn act(state: &mut State, alloc: Global, name: &str) {
    match name {
        "new" => renew(state, alloc),
        "begin" => state.calls.heap.begin_pass(),
        _ => state.calls.heap.end_pass(),
    }
}

// Whether a twin answers the same in so many rounds.
fn agrees(alloc: Global, rounds: u64) -> Result<String, Memory> {
    let same = agree(alloc, rounds)?;
    told(alloc, same)
}

// What a line of these words answers that is not on a part of the state.
fn plain(state: &mut State, alloc: Global, words: &[&str]) -> Result<String, Memory> {
    match at(words, 0) {
        "new" | "begin" | "end" => {
            act(state, alloc, at(words, 0));
            done(alloc)
        }
        "uses" => uses_shown(alloc, &state.calls.heap),
        "calm" => told(alloc, state.calls.heap.is_calm()),
        "stretch" | "shift" | "write" => in_place(&mut state.calls, alloc, words),
        _ => placing(&mut state.calls, alloc, words),
    }
}

/// What a line answers.
pub fn answer(state: &mut State, alloc: Global, line: &str) -> Result<String, Memory> {
    let words: Vec<&str> = line.split(' ').collect(alloc)?;
    let words = words.as_slice();
    match at(words, 0) {
        "region" => regions::answer(&mut state.regions, alloc, words),
        "entries" => on_entries(state, alloc, words),
        "block" => on_block(&mut state.calls, alloc, words),
        "agree" => agrees(alloc, nth(words, 1)),
        _ => plain(state, alloc, words),
    }
}
