//! What each line of sorted sets answers.

use super::held::{Held, limits};
use super::refusals::placings;
use super::slabs::{self, Twin};
use super::twin::agrees_under_edits;
use crate::words::{at, bytes_at, counted, form_named, nth, paged, passed, risen, signed, small};
use row_words::{done, shown, told, unknown};
use std::alloc::Global;
use std::mem;
use zset_object::{Memory, scored_laws};

/// What the lines of sorted sets work on.
#[derive(Drop)]
pub struct SortedSets {
    held: Held,
    twin: Twin,
}

impl SortedSets {
    pub fn new(alloc: Global) -> SortedSets {
        SortedSets {
            held: Held::new(alloc, limits(128, 64)),
            twin: Twin::new(alloc),
        }
    }
}

// Begins with an empty sorted set by these limits; the one before is given back.
fn begin(held: &mut Held, alloc: Global, words: &[&str]) {
    let limits = limits(small(words, 2), small(words, 3));
    mem::replace(held, Held::new(alloc, limits)).release();
    scored_laws();
}

// The forms of so many members and of one more, and how many these are.
fn rises_behind(held: &mut Held, alloc: Global, count: u32) -> Result<String, Memory> {
    let before = held.fill_behind(alloc, 0, count)?;
    let after = held.fill_behind(alloc, count, count.saturating_add(1))?;
    risen(alloc, [before, after], held.set.len())
}

// The form behind a member that is new.
fn rises(held: &mut Held, alloc: Global, member: &[u8], score: i64) -> Result<String, Memory> {
    match held.rise(member, score)? {
        Some(form) => form_named(alloc, form),
        None => unknown(alloc),
    }
}

// A line on a member, or on a member and a score.
fn on_member(held: &mut Held, alloc: Global, words: &[&str]) -> Result<String, Memory> {
    let member = bytes_at(alloc, words, 2)?;
    match at(words, 1) {
        "rise" => rises(held, alloc, member.as_slice(), signed(words, 3)),
        "set" => {
            let is_new = held.set(member.as_slice(), signed(words, 3))?;
            told(alloc, is_new)
        }
        "remove" => {
            let was = held.remove(member.as_slice())?;
            told(alloc, was)
        }
        _ => unknown(alloc),
    }
}

// A line of a number.
fn numbered(held: &mut Held, alloc: Global, words: &[&str]) -> Result<String, Memory> {
    match at(words, 1) {
        "numbers" => {
            held.set_numbers(small(words, 2))?;
            done(alloc)
        }
        "entry" => told(alloc, held.set.is_entry(nth(words, 2) as usize)),
        "behind" => rises_behind(held, alloc, small(words, 2)),
        "pass" => passed(alloc, held.relocate(u128::from(nth(words, 2)))),
        _ => on_member(held, alloc, words),
    }
}

// A line on how many there are.
fn plain(held: &mut Held, alloc: Global, words: &[&str]) -> Result<String, Memory> {
    match at(words, 1) {
        "len" => shown(alloc, Some(held.set.len() as u64)),
        "top" => shown(alloc, Some(held.set.top() as u64)),
        "walk" => shown(alloc, Some(held.walked() as u64)),
        "numbered" => shown(alloc, Some(held.numbered() as u64)),
        "units" => shown(alloc, Some(u64::from(held.set.units()))),
        _ => numbered(held, alloc, words),
    }
}

// Whether a member stands at a rank, or has an item number.
fn stands(held: &Held, alloc: Global, words: &[&str]) -> Result<String, Memory> {
    let member = bytes_at(alloc, words, 3)?;
    let place = nth(words, 2) as usize;
    match at(words, 1) {
        "at" => told(alloc, held.is_at(place, member.as_slice())),
        _ => told(
            alloc,
            held.ranks(place, member.as_slice(), signed(words, 4)),
        ),
    }
}

// A line on the whole sorted set or a place.
fn placed(held: &mut Held, alloc: Global, words: &[&str]) -> Result<String, Memory> {
    match at(words, 1) {
        "form" => form_named(alloc, held.set.form()),
        "at" | "ranks" => stands(held, alloc, words),
        "page" => paged(alloc, &held.set, words, true),
        "met" => paged(alloc, &held.set, words, false),
        _ => plain(held, alloc, words),
    }
}

// Whether a sorted set by the limits that the words say agrees with a plain list.
fn agrees(alloc: Global, words: &[&str]) -> bool {
    agrees_under_edits(alloc, limits(small(words, 2), small(words, 3)))
}

// How many placings a call takes.
fn placed_in(alloc: Global, words: &[&str]) -> Result<String, Memory> {
    let member = bytes_at(alloc, words, 4)?;
    let pair = (member.as_slice(), signed(words, 5));
    let many = placings(alloc, small(words, 2), at(words, 3), pair)?;
    counted(alloc, many)
}

/// What a line of these words answers.
pub fn answer(sorted: &mut SortedSets, alloc: Global, words: &[&str]) -> Result<String, Memory> {
    match at(words, 1) {
        "new" => {
            begin(&mut sorted.held, alloc, words);
            done(alloc)
        }
        "slab" => slabs::answer(&mut sorted.twin, alloc, at(words, 2)),
        "edits" => told(alloc, agrees(alloc, words)),
        "placings" => placed_in(alloc, words),
        _ => placed(&mut sorted.held, alloc, words),
    }
}
