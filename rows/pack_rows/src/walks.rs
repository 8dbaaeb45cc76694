//! Lines on bytes that stand in the line.

use crate::faults::{changes, cuts};
use listpack::{Memory, Pack, PackFault, check};
use row_words::{number, shown, unknown};
use std::alloc::Global;

// The bytes of several numbers.
fn read(alloc: Global, words: &[&str]) -> Result<Vec<u8>, Memory> {
    let mut bytes = Vec::new(alloc);
    for word in words {
        bytes.push(u8::try_from(number(word)).unwrap_or(0))?;
    }
    Ok(bytes)
}

// The first element with its offset, and the offset behind it.
fn first(alloc: Global, pack: &Pack) -> Result<String, Memory> {
    match pack.first() {
        Some(at) => {
            let (element, next) = (pack.get(at), pack.next(at));
            format!(in alloc; "{at} {element:?} {next:?}")
        }
        None => unknown(alloc),
    }
}

// The last element with its offset, and the offset before it.
fn last(alloc: Global, pack: &Pack) -> Result<String, Memory> {
    match pack.last() {
        Some(at) => {
            let (element, before) = (pack.get(at), pack.prev(at));
            format!(in alloc; "{at} {element:?} {before:?}")
        }
        None => unknown(alloc),
    }
}

// How many elements, whether there is none, and the bytes.
fn whole(alloc: Global, pack: &Pack) -> Result<String, Memory> {
    let (len, is_empty, bytes) = (pack.len(), pack.is_empty(), pack.bytes());
    format!(in alloc; "{len} {is_empty} {bytes:?}")
}

// A line on a listpack.
fn on_pack(alloc: Global, call: &str, pack: &Pack) -> Result<String, Memory> {
    match call {
        "first" => first(alloc, pack),
        "last" => last(alloc, pack),
        "whole" => whole(alloc, pack),
        "len" => shown(alloc, Some(pack.len() as u64)),
        _ => unknown(alloc),
    }
}

// A line on bytes that are a listpack.
fn on_checked(alloc: Global, call: &str, bytes: &[u8]) -> Result<String, Memory> {
    match check(bytes) {
        Ok(pack) => on_pack(alloc, call, &pack),
        Err(_) => unknown(alloc),
    }
}

// The offset of the element at an index of bytes that are a listpack.
fn sought(bytes: &[u8], index: usize) -> Option<u64> {
    match check(bytes) {
        Ok(pack) => pack.seek(index).map(|at| at as u64),
        Err(_) => None,
    }
}

/// What a line of these words answers.
pub fn answer(alloc: Global, words: &[&str]) -> Result<String, Memory> {
    match words {
        ["end"] => shown(alloc, Some(u64::from(PackFault::End.number()))),
        ["cuts", words @ ..] => {
            let bytes = read(alloc, words)?;
            let found = cuts(alloc, &bytes)?;
            format!(in alloc; "{found:?}")
        }
        ["changes", at, words @ ..] => {
            let bytes = read(alloc, words)?;
            let found = changes(alloc, &bytes, number(at) as usize)?;
            format!(in alloc; "{found:?}")
        }
        ["seek", index, words @ ..] => {
            let bytes = read(alloc, words)?;
            shown(alloc, sought(&bytes, number(index) as usize))
        }
        [call, words @ ..] => {
            let bytes = read(alloc, words)?;
            on_checked(alloc, call, &bytes)
        }
        _ => unknown(alloc),
    }
}
