//! Lines on places, cursors and pages. Expected cursors and places are those of counting with reversed bits, worked out by hand.

use rev_cursor::{BucketScan, Memory, covering_law, next, one_table_law, place};
use row_words::{done, number, shown, unknown};
use scan_cursor::page;
use std::alloc::Global;

// What is scanned, of two items at each cursor. Its items have no places.
#[derive(Drop)]
struct Pairs {
    moves: u64,
}

impl BucketScan for Pairs {
    ghost use Rattle.std.specs.Prelude.{◌∷◌, [], ◌-◌};

    ghost can_stand = { λ _ _. ⊥ };

    ghost move_at = { λ _ _. 7 ∷ 8 ∷ [] };

    ghost after = { λ pairs cursor. cursor - 1 };

    fn scan_at(&self, cursor: u64, found: &mut Vec<usize>) -> Result<u64, Memory> {
        let _moves = self.moves;
        found.reserve(2)?;
        found.push(7)?;
        found.push(8)?;
        Ok(cursor.saturating_sub(1))
    }
}

// A page of pairs: the next cursor, and the items.
fn paged(alloc: Global, cursor: u64, count: u64) -> Result<String, Memory> {
    if count == 0 {
        return unknown(alloc);
    }
    let found = page(alloc, &Pairs { moves: 2 }, cursor, count)?;
    let (next, items) = (found.next, found.items);
    format!(in alloc; "{next} {items:?}")
}

// The next cursor in a table of two to the power of so many buckets.
fn next_shown(alloc: Global, cursor: u64, bits: u32) -> Result<String, Memory> {
    if bits >= 64 {
        return unknown(alloc);
    }
    shown(alloc, Some(next(cursor, bits)))
}

// The laws of walks.
fn laws(alloc: Global, bits: u32) -> Result<String, Memory> {
    if bits < 64 {
        one_table_law(bits);
    }
    covering_law();
    done(alloc)
}

// A small number.
fn small(word: &str) -> u32 {
    u32::try_from(number(word)).unwrap_or(0)
}

/// What a line of these words answers.
pub fn answer(alloc: Global, call: &str, words: &[&str]) -> Result<String, Memory> {
    match (call, words) {
        ("next", [cursor, bits]) => next_shown(alloc, number(cursor), small(bits)),
        ("place", [hash]) => shown(alloc, Some(place(number(hash)))),
        ("laws", [bits]) => laws(alloc, small(bits)),
        ("page", [cursor, count]) => paged(alloc, number(cursor), number(count)),
        _ => unknown(alloc),
    }
}
