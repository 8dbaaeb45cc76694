//! Lines on blocks of a plain store. Expected bytes are those that were placed and written, worked out by hand; the sizes of the classes
//! are those that the heap is to have.

use crate::kept::Kept;
use crate::texts::listed;
use blocks::Memory;
use row_words::{done, number, told, unknown};
use std::alloc::Global;

// A number of bytes, or of a class.
fn size(word: &str) -> usize {
    number(word) as usize
}

// What a class uses: the size of its blocks, its slabs, and the blocks in them.
fn use_shown(kept: &Kept, alloc: Global, class: usize) -> Result<String, Memory> {
    if class >= 36 {
        return unknown(alloc);
    }
    let found = kept.use_of(class);
    let (size, slabs, used) = (found.size, found.slabs, found.used);
    format!(in alloc; "{size} {slabs} {used}")
}

// What a line with words behind its call does.
fn change(kept: &mut Kept, call: &str, words: &[&str]) -> Result<bool, Memory> {
    match (call, words) {
        ("place", [len]) => kept.place(size(len))?,
        ("put", [text]) => kept.put(text.as_bytes())?,
        ("write", [from, text]) => kept.write(size(from), text.as_bytes()),
        ("lengthen", [len]) => kept.lengthen(size(len))?,
        ("anew", [len]) => kept.anew(size(len))?,
        ("written", [len, from, text]) => {
            return kept.written(size(len), size(from), text.as_bytes());
        }
        _ => return Ok(false),
    }
    Ok(true)
}

// What a line without words does.
fn plain(kept: &mut Kept, call: &str) -> bool {
    match call {
        "swap" => kept.swap(),
        "end" => kept.end(),
        "begin_pass" => kept.begin_pass(),
        "end_pass" => kept.end_pass(),
        "laws" => kept.laws(),
        "apart" => return kept.is_apart(),
        "wants" => return kept.wants_move(),
        "moved" => return kept.moved(),
        "stays" => return kept.stays(),
        _ => return false,
    }
    true
}

/// What a line of these words answers.
pub fn answer(
    kept: &mut Kept,
    alloc: Global,
    call: &str,
    words: &[&str],
) -> Result<String, Memory> {
    match (call, words) {
        ("new", _) => {
            *kept = Kept::new(alloc)?;
            done(alloc)
        }
        ("bytes", _) => listed(alloc, kept.bytes()),
        ("use", [class]) => use_shown(kept, alloc, size(class)),
        (_, [""]) => told(alloc, plain(kept, call)),
        _ => {
            let answer = change(kept, call, words)?;
            told(alloc, answer)
        }
    }
}
