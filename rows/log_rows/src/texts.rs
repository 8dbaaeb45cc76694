//! Entries as text.

use blocks::Moved;
use std::alloc::Global;
use stream_object::{Again, Id, Memory, Owned, Pairs};

// Puts bytes behind a text.
fn put_bytes(text: &mut String, bytes: &[u8]) -> Result<(), Memory> {
    for byte in bytes {
        text.push(char::from(*byte))?;
    }
    Ok(())
}

// Puts an id behind a text.
fn put_id(text: &mut String, alloc: Global, id: Id) -> Result<(), Memory> {
    let Id { ms, seq } = id;
    let told = format!(in alloc; "{ms}-{seq}")?;
    text.push_str(&told)?;
    Ok(())
}

// Puts fields and values behind a text.
fn put_pairs(text: &mut String, pairs: &Pairs) -> Result<(), Memory> {
    for index in 0..pairs.len() {
        text.push(' ')?;
        put_bytes(text, pairs.field(index))?;
        text.push(' ')?;
        put_bytes(text, pairs.value(index))?;
    }
    Ok(())
}

/// An id.
pub fn id_text(alloc: Global, id: Id) -> Result<String, Memory> {
    let mut text = String::new(alloc);
    put_id(&mut text, alloc, id)?;
    Ok(text)
}

/// How many blocks were passed, and the id to go on from.
pub fn moved_text(alloc: Global, moved: Moved) -> Result<String, Memory> {
    let Moved { next, used } = moved;
    match next {
        Some(mark) => {
            let Id { ms, seq } = Id::of_number(mark);
            format!(in alloc; "{used} {ms}-{seq}")
        }
        None => format!(in alloc; "{used}"),
    }
}

/// Entries, one behind the other.
pub fn entries_text(alloc: Global, entries: &[Owned]) -> Result<String, Memory> {
    let mut text = String::from_str(alloc, "[")?;
    for entry in entries {
        put_id(&mut text, alloc, entry.id)?;
        put_pairs(&mut text, &entry.pairs)?;
        text.push(';')?;
    }
    text.push(']')?;
    Ok(text)
}

/// Ids that are handed out again, with their entries where they have them.
pub fn again_text(alloc: Global, found: &[Again]) -> Result<String, Memory> {
    let mut text = String::from_str(alloc, "[")?;
    for again in found {
        put_id(&mut text, alloc, again.id)?;
        match &again.pairs {
            Some(entry) => put_pairs(&mut text, &entry.pairs)?,
            None => text.push_str(" gone")?,
        }
        text.push(';')?;
    }
    text.push(']')?;
    Ok(text)
}
