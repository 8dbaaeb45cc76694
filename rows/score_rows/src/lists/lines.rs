//! What each line of lists answers.

use super::held::Held;
use super::runs::{agree, middle, renames, spares, walks};
use crate::words::{at, counted, nth, signed};
use row_words::{done, shown, told, unknown};
use score_list::Memory;
use std::alloc::Global;

// The rank, score and whether the block is the member's at a cursor, and whether there is a next one.
fn cursor_at(held: &Held, alloc: Global, rank: usize) -> Result<String, Memory> {
    match held.scores.cursor(rank) {
        None => String::from_str(alloc, "-"),
        Some(at) => {
            let (score, block) = at.get();
            let (rank, is_member, goes_on) = (at.rank(), block == held.member, at.next().is_some());
            format!(in alloc; "{rank} {score} {is_member} {goes_on}")
        }
    }
}

// A list that is filled into its middle takes the place of the one before.
fn fill(held: &mut Held, alloc: Global, half: u64) -> Result<String, Memory> {
    match middle(alloc, half)? {
        Some(filled) => {
            *held = filled;
            done(alloc)
        }
        None => unknown(alloc),
    }
}

// A run of its own, and whether all goes as it should.
fn run(alloc: Global, name: &str, count: u64) -> Result<bool, Memory> {
    match name {
        "walks" => walks(alloc, count),
        "agree" => agree(alloc, count),
        "spares" => spares(alloc),
        "renames" => renames(alloc),
        _ => Ok(false),
    }
}

// A line that changes the list, or a run of its own.
fn edits(held: &mut Held, alloc: Global, words: &[&str]) -> Result<String, Memory> {
    match at(words, 1) {
        "new" => {
            *held = Held::new(alloc)?;
            done(alloc)
        }
        "insert" => {
            let new = held.insert(signed(words, 2))?;
            told(alloc, new)
        }
        "middle" => fill(held, alloc, nth(words, 2)),
        name => {
            let all = run(alloc, name, nth(words, 2))?;
            told(alloc, all)
        }
    }
}

/// What a line of these words answers.
pub fn answer(held: &mut Held, alloc: Global, words: &[&str]) -> Result<String, Memory> {
    match at(words, 1) {
        "len" => shown(alloc, Some(held.scores.len() as u64)),
        "cursor" => cursor_at(held, alloc, nth(words, 2) as usize),
        "at" => counted(alloc, held.score_at(nth(words, 2) as usize)),
        "first" => {
            let first = held.scores.first_in_range(signed(words, 2));
            shown(alloc, Some(first as u64))
        }
        _ => edits(held, alloc, words),
    }
}
