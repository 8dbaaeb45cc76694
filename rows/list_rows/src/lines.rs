//! What each line answers.

use crate::held::Held;
use crate::texts::{fill, holds, push, take_whole};
use crate::twin::{edits, removals};
use quicklist::{End, Memory, quick_laws};
use row_words::{bytes_of, done, number, shown, told, unknown};
use std::alloc::Global;
use std::mem;

// An index.
fn index(word: &str) -> usize {
    number(word) as usize
}

// An end of a list.
fn end_of(word: &str) -> End {
    match word {
        "Tail" => End::Tail,
        _ => End::Head,
    }
}

// Begins with an empty list; the one before is given back.
fn begin(held: &mut Held, alloc: Global) {
    mem::replace(held, Held::new(alloc)).release();
    quick_laws();
}

// A line on the element at an index.
fn at_index(
    held: &mut Held,
    alloc: Global,
    name: &str,
    at: usize,
    text: &[u8],
) -> Result<String, Memory> {
    match name {
        "insert" => {
            held.insert(at, text)?;
            done(alloc)
        }
        "set" => {
            held.set(at, text)?;
            done(alloc)
        }
        "at" => told(alloc, held.is_at(at, text)),
        "between" => told(alloc, held.is_between(at, text)),
        _ => unknown(alloc),
    }
}

// A line on several texts.
fn on_texts(held: &mut Held, alloc: Global, name: &str, words: &[&str]) -> Result<String, Memory> {
    match name {
        "push" => {
            push(held, alloc, words)?;
            done(alloc)
        }
        "whole" => {
            let taken = take_whole(held, alloc, words)?;
            told(alloc, taken)
        }
        "holds" => {
            let same = holds(held, alloc, words)?;
            told(alloc, same)
        }
        _ => unknown(alloc),
    }
}

// A line with a number.
fn counted(held: &mut Held, alloc: Global, name: &str, count: u64) -> Result<String, Memory> {
    match name {
        "remove" => {
            held.remove(count as usize)?;
            done(alloc)
        }
        "relocate" => {
            let moved = held.relocate(u128::from(count));
            format!(in alloc; "{moved:?}")
        }
        "edits" => {
            let same = edits(alloc, count)?;
            told(alloc, same)
        }
        "removals" => {
            let same = removals(alloc, count)?;
            told(alloc, same)
        }
        _ => unknown(alloc),
    }
}

// A line of one word.
fn plain(held: &mut Held, alloc: Global, name: &str) -> Result<String, Memory> {
    match name {
        "new" => {
            begin(held, alloc);
            done(alloc)
        }
        "len" => shown(alloc, Some(held.len() as u64)),
        "empty" => told(alloc, held.quick.is_empty()),
        "nodes" => shown(alloc, Some(held.quick.nodes() as u64)),
        "recount" => {
            held.store.allow_all();
            done(alloc)
        }
        "placed" => shown(alloc, Some(held.placed() as u64)),
        "form" => {
            let form = held.quick.form();
            format!(in alloc; "{form:?}")
        }
        _ => unknown(alloc),
    }
}

// Whether a copy of the list has these first elements. A new list stands afterwards.
fn copies(held: &mut Held, alloc: Global, first: &str, second: &str) -> Result<bool, Memory> {
    let first = bytes_of(alloc, first)?;
    let second = bytes_of(alloc, second)?;
    mem::replace(held, Held::new(alloc)).copies(first.as_slice(), second.as_slice())
}

/// What a line answers.
pub fn answer(held: &mut Held, alloc: Global, line: &str) -> Result<String, Memory> {
    let words: Vec<&str> = line.split(' ').collect(alloc)?;
    match words.as_slice() {
        [name, words @ ..] if matches!(*name, "push" | "holds" | "whole") => {
            on_texts(held, alloc, name, words)
        }
        ["take", word, end, wanted] => {
            let text = bytes_of(alloc, word)?;
            let many = held.remove_equal(text.as_slice(), end_of(end), index(wanted))?;
            shown(alloc, Some(many as u64))
        }
        ["fill", count, word] => {
            let text = bytes_of(alloc, word)?;
            fill(held, number(count), text.as_slice())?;
            done(alloc)
        }
        ["copies", first, second] => {
            let same = copies(held, alloc, first, second)?;
            told(alloc, same)
        }
        ["remove", from, to] => {
            held.remove_range(index(from), index(to))?;
            done(alloc)
        }
        [name, at, word] => {
            let text = bytes_of(alloc, word)?;
            at_index(held, alloc, name, index(at), text.as_slice())
        }
        [name, count] => counted(held, alloc, name, number(count)),
        [name] => plain(held, alloc, name),
        _ => unknown(alloc),
    }
}
