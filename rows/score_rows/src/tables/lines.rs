//! What each line of tables answers.

use super::held::Held;
use super::refusals::spares;
use super::twin::edits;
use crate::words::{at, counted, nth, signed};
use row_words::{bytes_of, done, shown, told};
use score_table::{Memory, score_table_laws};
use std::alloc::Global;
use std::mem;

// Begins with an empty table; the one before is given back.
fn begin(held: &mut Held, alloc: Global) {
    mem::replace(held, Held::new(alloc)).release();
    score_table_laws();
}

// A line that tells something of a member, by a score or a place.
fn on_pair(held: &mut Held, name: &str, words: &[&str], member: &[u8]) -> Result<bool, Memory> {
    match name {
        "take" => held.take(signed(words, 2), member),
        "set" => held.set(signed(words, 2), member),
        "ranks" => Ok(held.ranks(nth(words, 2) as usize, signed(words, 3), member)),
        "item" => Ok(held.is_item(nth(words, 2) as usize, signed(words, 3), member)),
        _ => Ok(held.lacks(member)),
    }
}

// A rank, and `-` for none.
fn rank_shown(alloc: Global, rank: Option<usize>) -> Result<String, Memory> {
    match rank {
        Some(rank) => shown(alloc, Some(rank as u64)),
        None => shown(alloc, None),
    }
}

// A line on the member that the last word is.
fn on_member(held: &mut Held, alloc: Global, words: &[&str]) -> Result<String, Memory> {
    let member = bytes_of(alloc, at(words, words.len().saturating_sub(1)))?;
    match at(words, 1) {
        "out" => counted(alloc, held.take_out(member.as_slice())),
        "rank" => rank_shown(alloc, held.rank(member.as_slice())),
        name => {
            let is = on_pair(held, name, words, member.as_slice())?;
            told(alloc, is)
        }
    }
}

// A line with a number.
fn numbered(held: &mut Held, alloc: Global, words: &[&str]) -> Result<String, Memory> {
    match at(words, 1) {
        "ends" => told(alloc, held.ends_at(nth(words, 2) as usize)),
        "entry" => told(alloc, held.table.is_entry(nth(words, 2) as usize)),
        "below" => shown(alloc, Some(held.table.below(signed(words, 2)) as u64)),
        "settle" => {
            held.settle_item(nth(words, 2) as usize);
            done(alloc)
        }
        "edits" => told(alloc, edits(alloc, nth(words, 2))),
        _ => on_member(held, alloc, words),
    }
}

// A line on how many there are.
fn plain(held: &mut Held, alloc: Global, words: &[&str]) -> Result<String, Memory> {
    match at(words, 1) {
        "top" => shown(alloc, Some(held.table.top() as u64)),
        "len" => shown(alloc, Some(held.table.table().len() as u64)),
        "walk" => shown(alloc, Some(held.walked() as u64)),
        "lose_ones" => shown(alloc, Some(held.lose_ones() as u64)),
        _ => numbered(held, alloc, words),
    }
}

// Whether a longer run goes as it should.
fn run(held: &mut Held, alloc: Global, name: &str) -> Result<bool, Memory> {
    match name {
        "spares" => spares(alloc),
        "takes_thousand" => held.takes_thousand(),
        _ => Ok(held.ranks_thousand()),
    }
}

/// What a line of these words answers.
pub fn answer(held: &mut Held, alloc: Global, words: &[&str]) -> Result<String, Memory> {
    match at(words, 1) {
        "new" => {
            begin(held, alloc);
            done(alloc)
        }
        "copy" => {
            held.copied(alloc)?;
            done(alloc)
        }
        "spares" | "takes_thousand" | "ranks_thousand" => {
            let all = run(held, alloc, at(words, 1))?;
            told(alloc, all)
        }
        _ => plain(held, alloc, words),
    }
}
