//! What each line of sets answers.

use super::held::{Held, limits};
use super::refusals::placings;
use super::slabs::{self, Both};
use super::twin::agrees_under_edits;
use crate::words::{at, bytes_at, counted, form_named, nth, paged, passed, risen, small};
use row_words::{done, shown, told, unknown};
use set_object::{Memory, members_laws};
use std::alloc::Global;
use std::mem;

/// What the lines of sets work on.
#[derive(Drop)]
pub struct Sets {
    held: Held,
    both: Both,
}

impl Sets {
    pub fn new(alloc: Global) -> Sets {
        Sets {
            held: Held::new(alloc, limits(512, 128, 64)),
            both: Both::new(alloc),
        }
    }
}

// Begins with an empty set by these limits; the one before is given back.
fn begin(held: &mut Held, alloc: Global, words: &[&str]) {
    let limits = limits(small(words, 2), small(words, 3), small(words, 4));
    mem::replace(held, Held::new(alloc, limits)).release();
    members_laws();
}

// The forms of so many members, numbers behind a prefix, and of one more, and how many these are.
fn rises_behind(
    held: &mut Held,
    alloc: Global,
    prefix: &str,
    count: u32,
) -> Result<String, Memory> {
    let before = held.fill_behind(alloc, prefix, 0, count)?;
    let after = held.fill_behind(alloc, prefix, count, count.saturating_add(1))?;
    risen(alloc, [before, after], held.set.len())
}

// The prefix that a word is.
fn prefix_of(word: &str) -> &str {
    if word == "''" { "" } else { word }
}

// What a call from a mark on passes, which is also what the call says that only looks.
fn passes(held: &mut Held, alloc: Global, from: u128) -> Result<String, Memory> {
    let moved = held.relocate(from);
    if held.passed(from) != Some(moved) {
        return unknown(alloc);
    }
    passed(alloc, moved)
}

// The form behind a member that is new.
fn rises(held: &mut Held, alloc: Global, member: &[u8]) -> Result<String, Memory> {
    match held.rise(member)? {
        Some(form) => form_named(alloc, form),
        None => unknown(alloc),
    }
}

// A line that edits one member, and whether that changed anything.
fn edits(held: &mut Held, name: &str, member: &[u8]) -> Result<bool, Memory> {
    match name {
        "add" => held.add(member),
        "remove" => held.remove(member),
        "leave" => held.leave(member),
        _ => Ok(held.has(member)),
    }
}

// A line on one member.
fn on_member(held: &mut Held, alloc: Global, words: &[&str]) -> Result<String, Memory> {
    let member = bytes_at(alloc, words, 2)?;
    match at(words, 1) {
        "rise" => rises(held, alloc, member.as_slice()),
        name => {
            let is = edits(held, name, member.as_slice())?;
            told(alloc, is)
        }
    }
}

// A line of two numbers.
fn paired(held: &mut Held, alloc: Global, words: &[&str]) -> Result<String, Memory> {
    match at(words, 1) {
        "numbers" => {
            held.add_numbers(small(words, 2), small(words, 3))?;
            done(alloc)
        }
        "count" => {
            let many = held.count_numbers(small(words, 2), small(words, 3));
            shown(alloc, Some(many as u64))
        }
        "page" => paged(alloc, &held.set, words, true),
        "met" => paged(alloc, &held.set, words, false),
        _ => on_member(held, alloc, words),
    }
}

// A line of one word.
fn plain(held: &mut Held, alloc: Global, words: &[&str]) -> Result<String, Memory> {
    match at(words, 1) {
        "len" => shown(alloc, Some(held.set.len() as u64)),
        "top" => shown(alloc, Some(held.set.top() as u64)),
        "walk" => shown(alloc, Some(held.walked() as u64)),
        "form" => form_named(alloc, held.set.form()),
        "copy" => {
            held.copied()?;
            done(alloc)
        }
        _ => paired(held, alloc, words),
    }
}

// Whether a member has an item number.
fn is_at(held: &Held, alloc: Global, words: &[&str]) -> Result<String, Memory> {
    let member = bytes_at(alloc, words, 3)?;
    told(alloc, held.is_at(nth(words, 2) as usize, member.as_slice()))
}

// A line on a place.
fn placed(held: &mut Held, alloc: Global, words: &[&str]) -> Result<String, Memory> {
    match at(words, 1) {
        "behind" => rises_behind(held, alloc, prefix_of(at(words, 2)), small(words, 3)),
        "entry" => told(alloc, held.set.is_entry(nth(words, 2) as usize)),
        "at" => is_at(held, alloc, words),
        "pass" => passes(held, alloc, u128::from(nth(words, 2))),
        _ => plain(held, alloc, words),
    }
}

// Whether a set by the limits that the words say agrees with a plain one.
fn agrees(alloc: Global, words: &[&str]) -> bool {
    let limits = limits(small(words, 2), small(words, 3), small(words, 4));
    agrees_under_edits(alloc, limits, nth(words, 5) as usize)
}

// How many placings a call takes.
fn placed_in(alloc: Global, words: &[&str]) -> Result<String, Memory> {
    let member = bytes_at(alloc, words, 4)?;
    let many = placings(alloc, small(words, 2), at(words, 3), member.as_slice())?;
    counted(alloc, many)
}

/// What a line of these words answers.
pub fn answer(sets: &mut Sets, alloc: Global, words: &[&str]) -> Result<String, Memory> {
    match at(words, 1) {
        "new" => {
            begin(&mut sets.held, alloc, words);
            done(alloc)
        }
        "slab" => slabs::answer(&mut sets.both, alloc, at(words, 2)),
        "edits" => told(alloc, agrees(alloc, words)),
        "placings" => placed_in(alloc, words),
        _ => placed(&mut sets.held, alloc, words),
    }
}
