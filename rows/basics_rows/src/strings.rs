//! Lines on a string. Expected answers and encodings are those of the Redis command reference (APPEND, INCRBY, SETRANGE, OBJECT
//! ENCODING).

use crate::strings_held::Held;
use crate::texts::{listed, signed_shown};
use blocks::{Memory, Moved};
use row_words::{bytes_of, done, number, shown, told, unknown};
use std::alloc::Global;
use std::mem;
use string_object::text_laws;

// How many blocks were passed, where none is left.
fn passed(alloc: Global, moved: Moved) -> Result<String, Memory> {
    match moved.next {
        None => shown(alloc, Some(u64::from(moved.used))),
        Some(_) => unknown(alloc),
    }
}

// The bytes of the string.
fn bytes_shown(held: &Held, alloc: Global) -> Result<String, Memory> {
    let mut room = [0; 20];
    listed(alloc, held.bytes(&mut room))
}

// Whether the string has these bytes.
fn has(held: &Held, alloc: Global, words: &[&str]) -> Result<bool, Memory> {
    let mut wanted = Vec::new(alloc);
    for word in words {
        let piece = bytes_of(alloc, word)?;
        wanted.extend_from_slice(&piece)?;
    }
    let mut room = [0; 20];
    Ok(held.bytes(&mut room) == wanted.as_slice())
}

// Gives back the string's block, and begins with a new one.
fn release(held: &mut Held, alloc: Global) -> Result<String, Memory> {
    let new = Held::new(alloc)?;
    mem::replace(held, new).release();
    done(alloc)
}

// A line that changes the string.
fn change(held: &mut Held, alloc: Global, call: &str, words: &[&str]) -> Result<String, Memory> {
    match (call, words) {
        ("make", [word]) => {
            let bytes = bytes_of(alloc, word)?;
            *held = Held::of(alloc, &bytes)?;
            done(alloc)
        }
        ("append", [word]) => {
            let bytes = bytes_of(alloc, word)?;
            let len = held.append(&bytes)?;
            shown(alloc, Some(len))
        }
        ("set_range", [at, word]) => {
            let bytes = bytes_of(alloc, word)?;
            let len = held.set_range(number(at), &bytes)?;
            shown(alloc, Some(len))
        }
        ("set_number", [n]) => {
            held.set_number(n.parse::<i64>().unwrap_or(0));
            done(alloc)
        }
        ("relocate", [from]) => passed(alloc, held.relocate(u128::from(number(from)))),
        ("release", _) => release(held, alloc),
        _ => unknown(alloc),
    }
}

/// What a line of these words answers.
pub fn answer(
    held: &mut Held,
    alloc: Global,
    call: &str,
    words: &[&str],
) -> Result<String, Memory> {
    match call {
        "number" => signed_shown(alloc, held.number()),
        "name" => String::from_str(alloc, held.name().text()),
        "bytes" => bytes_shown(held, alloc),
        "has" => {
            let same = has(held, alloc, words)?;
            told(alloc, same)
        }
        "blocks" => shown(alloc, Some(u64::from(held.block_count()))),
        "laws" => {
            text_laws();
            done(alloc)
        }
        _ => change(held, alloc, call, words),
    }
}
