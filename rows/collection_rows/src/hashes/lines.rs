//! What each line of hashes answers.

use super::held::{Held, limits};
use super::refusals::placings;
use super::slabs::{self, Twin};
use super::twin::agrees_under_edits;
use crate::words::{at, bytes_at, counted, form_named, nth, paged, passed, risen, small};
use hash_object::{Memory, fields_laws};
use row_words::{done, shown, told, unknown};
use std::alloc::Global;
use std::mem;

/// What the lines of hashes work on.
#[derive(Drop)]
pub struct Hashes {
    held: Held,
    twin: Twin,
}

impl Hashes {
    pub fn new(alloc: Global) -> Hashes {
        Hashes {
            held: Held::new(alloc, limits(512, 64)),
            twin: Twin::new(alloc),
        }
    }
}

// Begins with an empty hash by these limits; the one before is given back.
fn begin(held: &mut Held, alloc: Global, words: &[&str]) {
    let limits = limits(small(words, 2), small(words, 3));
    mem::replace(held, Held::new(alloc, limits)).release();
    fields_laws();
}

// The forms of so many fields and of one more, and how many these are.
fn rises_behind(held: &mut Held, alloc: Global, count: u32) -> Result<String, Memory> {
    let before = held.fill_behind(alloc, 0, count)?;
    let after = held.fill_behind(alloc, count, count.saturating_add(1))?;
    risen(alloc, [before, after], held.hash.len())
}

// The form behind a field that is new.
fn rises(held: &mut Held, alloc: Global, field: &[u8], value: &[u8]) -> Result<String, Memory> {
    match held.rise(field, value)? {
        Some(form) => form_named(alloc, form),
        None => unknown(alloc),
    }
}

// A line on one field, and what it tells.
fn edits(held: &mut Held, name: &str, field: &[u8], value: &[u8]) -> Result<bool, Memory> {
    match name {
        "set" => held.set(field, value),
        "remove" => held.remove(field),
        "leave" => held.leave(field),
        _ => Ok(held.has(field, value)),
    }
}

// A line on a field, or on a field and a value.
fn on_field(held: &mut Held, alloc: Global, words: &[&str]) -> Result<String, Memory> {
    let field = bytes_at(alloc, words, 2)?;
    let value = bytes_at(alloc, words, 3)?;
    match at(words, 1) {
        "rise" => rises(held, alloc, field.as_slice(), value.as_slice()),
        name => {
            let is = edits(held, name, field.as_slice(), value.as_slice())?;
            told(alloc, is)
        }
    }
}

// A line of a number.
fn numbered(held: &mut Held, alloc: Global, words: &[&str]) -> Result<String, Memory> {
    match at(words, 1) {
        "numbers" => {
            held.set_numbers(small(words, 2))?;
            done(alloc)
        }
        "entry" => told(alloc, held.hash.is_entry(nth(words, 2) as usize)),
        "behind" => rises_behind(held, alloc, small(words, 2)),
        "pass" => passed(alloc, held.relocate(u128::from(nth(words, 2)))),
        _ => on_field(held, alloc, words),
    }
}

// A line on how many there are.
fn plain(held: &mut Held, alloc: Global, words: &[&str]) -> Result<String, Memory> {
    match at(words, 1) {
        "len" => shown(alloc, Some(held.hash.len() as u64)),
        "top" => shown(alloc, Some(held.hash.top() as u64)),
        "walk" => shown(alloc, Some(held.walked() as u64)),
        "numbered" => shown(alloc, Some(held.numbered() as u64)),
        "units" => shown(alloc, Some(u64::from(held.hash.units()))),
        _ => numbered(held, alloc, words),
    }
}

// Whether a field has an item number.
fn is_at(held: &Held, alloc: Global, words: &[&str]) -> Result<String, Memory> {
    let field = bytes_at(alloc, words, 3)?;
    told(alloc, held.is_at(nth(words, 2) as usize, field.as_slice()))
}

// A line on the whole hash or a place.
fn placed(held: &mut Held, alloc: Global, words: &[&str]) -> Result<String, Memory> {
    match at(words, 1) {
        "form" => form_named(alloc, held.hash.form()),
        "copied" => {
            let same = held.is_copied()?;
            told(alloc, same)
        }
        "at" => is_at(held, alloc, words),
        "page" => paged(alloc, &held.hash, words, true),
        "met" => paged(alloc, &held.hash, words, false),
        _ => plain(held, alloc, words),
    }
}

// Whether a hash by the limits that the words say agrees with a plain list.
fn agrees(alloc: Global, words: &[&str]) -> bool {
    agrees_under_edits(alloc, limits(small(words, 2), small(words, 3)))
}

// How many placings a call takes.
fn placed_in(alloc: Global, words: &[&str]) -> Result<String, Memory> {
    let field = bytes_at(alloc, words, 4)?;
    let value = bytes_at(alloc, words, 5)?;
    let pair = (field.as_slice(), value.as_slice());
    let many = placings(alloc, small(words, 2), at(words, 3), pair)?;
    counted(alloc, many)
}

/// What a line of these words answers.
pub fn answer(hashes: &mut Hashes, alloc: Global, words: &[&str]) -> Result<String, Memory> {
    match at(words, 1) {
        "new" => {
            begin(&mut hashes.held, alloc, words);
            done(alloc)
        }
        "slab" => slabs::answer(&mut hashes.twin, alloc, at(words, 2)),
        "edits" => told(alloc, agrees(alloc, words)),
        "placings" => placed_in(alloc, words),
        _ => placed(&mut hashes.held, alloc, words),
    }
}
