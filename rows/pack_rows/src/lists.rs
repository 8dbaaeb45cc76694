//! Lines on a listpack that is edited.

use crate::held::Held;
use listpack::{Memory, entry_size};
use row_words::{bytes_of, done, number, shown, unknown};
use std::alloc::Global;

// An index.
fn index(word: &str) -> usize {
    number(word) as usize
}

// The last bytes, at most so many of them.
fn ending(bytes: &[u8], count: usize) -> &[u8] {
    let from = bytes.len().saturating_sub(count);
    &bytes[from..]
}

// The size of an element's entry, in bytes.
fn size(element: &[u8]) -> usize {
    if element.len() < 65_537 {
        entry_size(element)
    } else {
        0
    }
}

// A line on an element.
fn with_element(
    held: &mut Held,
    alloc: Global,
    words: &[&str],
    element: &[u8],
) -> Result<String, Memory> {
    match words {
        ["append"] => {
            held.append(element)?;
            done(alloc)
        }
        ["size"] => shown(alloc, Some(size(element) as u64)),
        ["insert", at] => {
            held.insert(index(at), element)?;
            done(alloc)
        }
        ["replace", at] => {
            held.replace(index(at), element)?;
            done(alloc)
        }
        _ => unknown(alloc),
    }
}

/// What a line of these words answers.
pub fn answer(held: &mut Held, alloc: Global, words: &[&str]) -> Result<String, Memory> {
    match words {
        ["new"] => {
            *held = Held::new(alloc)?;
            done(alloc)
        }
        ["bytes"] => {
            let bytes = held.bytes();
            format!(in alloc; "{bytes:?}")
        }
        ["len"] => shown(alloc, Some(held.len() as u64)),
        ["total"] => shown(alloc, Some(held.bytes().len() as u64)),
        ["ending", count] => {
            let bytes = ending(held.bytes(), index(count));
            format!(in alloc; "{bytes:?}")
        }
        ["remove", at] => {
            held.remove(index(at));
            done(alloc)
        }
        ["remove", from, to] => {
            held.remove_range(index(from), index(to));
            done(alloc)
        }
        ["with", word, words @ ..] => {
            let element = bytes_of(alloc, word)?;
            with_element(held, alloc, words, element.as_slice())
        }
        _ => unknown(alloc),
    }
}
