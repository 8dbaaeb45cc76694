//! Listpacks of words, and what is read from them as a node.

use super::writing::KEY;
use listpack::{Element, empty, fits};
use std::alloc::Global;
use stream_node::{Entry, Memory, NodeFault, check};

/// A field and its value.
pub type Texts = (Vec<u8>, Vec<u8>);

// Puts an element behind all others, where there is room for it.
fn put(pack: &mut Vec<u8>, text: &[u8]) -> Result<(), Memory> {
    if listpack::check(pack).is_err() || !fits(pack, text) {
        return Ok(());
    }
    listpack::append(pack, text)
}

/// A listpack of these words.
pub fn pack_of(alloc: Global, words: &[&str]) -> Result<Vec<u8>, Memory> {
    let mut pack = empty(alloc)?;
    for word in words {
        put(&mut pack, word.as_bytes())?;
    }
    Ok(pack)
}

/// The first rule of a stream node that a listpack breaks.
pub fn fault_of(pack: &[u8]) -> Option<NodeFault> {
    match listpack::check(pack) {
        Ok(listed) => check(KEY, &listed).err(),
        Err(_) => None,
    }
}

// The text of an element.
fn text_of(alloc: Global, element: &Element) -> Result<Vec<u8>, Memory> {
    match element {
        Element::Text(part) => Vec::from_slice(alloc, part),
        Element::Number(n) => {
            let text = format!(in alloc; "{n}")?;
            Vec::from_slice(alloc, text.as_bytes())
        }
    }
}

/// The fields and values of an entry.
pub fn pairs_of(alloc: Global, entry: &Entry) -> Result<Vec<Texts>, Memory> {
    let mut found = Vec::new(alloc);
    for (field, value) in entry.pairs() {
        found.push((text_of(alloc, &field)?, text_of(alloc, &value)?))?;
    }
    Ok(found)
}

/// The first field of an entry and its value, taken by their index.
pub fn first_of(alloc: Global, entry: &Entry) -> Result<Option<Texts>, Memory> {
    if entry.is_empty() || entry.len() == 0 {
        return Ok(None);
    }
    let field = text_of(alloc, &entry.field(0))?;
    let value = text_of(alloc, &entry.value(0))?;
    Ok(Some((field, value)))
}
