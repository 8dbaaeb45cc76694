//! Lines that name several texts.

use crate::held::Held;
use listpack::{append, empty, fits};
use quicklist::Memory;
use row_words::bytes_of;
use std::alloc::Global;

/// Puts each of these texts behind all others.
pub fn push(held: &mut Held, alloc: Global, words: &[&str]) -> Result<(), Memory> {
    for word in words {
        let text = bytes_of(alloc, word)?;
        held.insert(held.len(), text.as_slice())?;
    }
    Ok(())
}

/// Whether the list takes a listpack of these texts whole.
pub fn take_whole(held: &mut Held, alloc: Global, words: &[&str]) -> Result<bool, Memory> {
    let mut pack = empty(alloc)?;
    for word in words {
        let text = bytes_of(alloc, word)?;
        if fits(&pack, text.as_slice()) {
            append(&mut pack, text.as_slice())?;
        }
    }
    held.take_pack(&pack)
}

/// Puts a text behind all others so many times.
pub fn fill(held: &mut Held, count: u64, text: &[u8]) -> Result<(), Memory> {
    for _ in 0..count {
        held.insert(held.len(), text)?;
    }
    Ok(())
}

/// Whether these texts are the elements.
pub fn holds(held: &Held, alloc: Global, words: &[&str]) -> Result<bool, Memory> {
    for (index, word) in words.iter().enumerate() {
        let text = bytes_of(alloc, word)?;
        if !held.is_at(index, text.as_slice()) {
            return Ok(false);
        }
    }
    Ok(held.len() == words.len())
}
