//! Longer runs of deadlines: cycles that go round, and edits beside a plain table.

use crate::plain::Plain;
use crate::timed::Timed;
use expiry::{Gone, Memory};
use rand_core::Rng;
use rand_pcg::Pcg32;
use rev_cursor::BucketScan;
use std::alloc::Global;

/// So many keys, the numbers from `from` on, get one deadline.
pub fn fill(timed: &mut Timed, from: u64, count: u64, deadline: u64) -> Result<(), Memory> {
    for n in from..from.saturating_add(count) {
        timed.set(&n.to_le_bytes(), deadline)?;
    }
    Ok(())
}

/// Takes the deadlines of the numbers from `from` to below `to` away, and answers how many had one.
pub fn clear_range(timed: &mut Timed, from: u64, to: u64) -> u64 {
    let mut had = 0u64;
    for n in from..to {
        if timed.clear(&n.to_le_bytes()) {
            had = had.saturating_add(1);
        }
    }
    had
}

/// How many keys so many cycles found gone in all, and how many one of them did at most.
pub fn expire(timed: &mut Timed, moment: u64, cycles: u64, found: &mut Gone) -> (usize, usize) {
    let mut dropped = 0usize;
    let mut most = 0;
    for _ in 0..cycles {
        let many = timed.expire(moment, found);
        dropped = dropped.saturating_add(many);
        most = many.max(most);
    }
    (dropped, most)
}

// Whether the key found at an index is that of an element.
fn is_found(timed: &Timed, found: &Gone, index: usize, at: usize) -> bool {
    let table = timed.deadlines.table();
    table.is_entry(at) && index < found.len() && found.at(index) == table.entry(at).0
}

// Whether the keys found are those of these elements.
fn are_found(timed: &Timed, found: &Gone, items: &[usize]) -> bool {
    for index in 0..items.len() {
        if !is_found(timed, found, index, items[index]) {
            return false;
        }
    }
    found.len() == items.len()
}

// Makes a cycle at which all are gone. The answer is the cursor behind the move, and how many it gave; none where the cycle didn't
// find just these.
fn finds_move(
    alloc: Global,
    timed: &mut Timed,
    cursor: u64,
) -> Result<Option<(u64, usize)>, Memory> {
    let mut items = Vec::new(alloc);
    let next = timed.deadlines.table().scan_at(cursor, &mut items)?;
    let mut found = Gone::new();
    timed.cycle(6, &mut found);
    if are_found(timed, &found, items.as_slice()) {
        Ok(Some((next, found.len())))
    } else {
        Ok(None)
    }
}

// How many keys the cycles of one round find; none where one differs from its move, or where the round doesn't end.
fn round(alloc: Global, timed: &mut Timed) -> Result<Option<usize>, Memory> {
    let mut met = 0usize;
    let mut cursor = 0;
    for _ in 0..256 {
        match finds_move(alloc, timed, cursor)? {
            Some((next, many)) => {
                met = met.saturating_add(many);
                cursor = next;
            }
            None => return Ok(None),
        }
        if cursor == 0 {
            return Ok(Some(met));
        }
    }
    Ok(None)
}

/// How many keys each of two rounds finds, where so many are gone.
pub fn rounds(alloc: Global, count: u64) -> Result<Option<(usize, usize)>, Memory> {
    let mut timed = Timed::new(alloc);
    fill(&mut timed, 0, count, 5)?;
    match round(alloc, &mut timed)? {
        Some(first) => match round(alloc, &mut timed)? {
            Some(second) => Ok(Some((first, second))),
            None => Ok(None),
        },
        None => Ok(None),
    }
}

// Some call beside a plain table, and whether both answer the same.
fn edit(timed: &mut Timed, plain: &mut Plain, n: u64, choice: u32) -> Result<bool, Memory> {
    let key = n.to_le_bytes();
    match choice {
        0..5 => {
            let deadline = n % 13 + u64::from(choice);
            timed.set(&key, deadline)?;
            plain.put(n, Some(deadline));
            Ok(true)
        }
        5..8 => Ok(timed.clear(&key) == plain.put(n, None).is_some()),
        8 => {
            let named = timed.rename(&key)?;
            Ok(named == plain.get(n).is_some())
        }
        9 => {
            timed.rehash_step();
            Ok(true)
        }
        _ => {
            timed.shrink()?;
            Ok(true)
        }
    }
}

// Whether the deadlines of the plain table stand, and no others.
fn same(timed: &Timed, plain: &Plain) -> bool {
    for n in 0..1024u64 {
        if timed.get(&n.to_le_bytes()) != plain.get(n) {
            return false;
        }
    }
    timed.len() == plain.count(1024)
}

// Whether just those are left that are not gone at a moment.
fn drops(timed: &mut Timed, plain: &mut Plain, moment: u64) -> bool {
    let mut found = Gone::new();
    expire(timed, moment, 2048, &mut found);
    plain.keep_from(moment);
    same(timed, plain)
}

/// Whether so many edits answer as a plain table does.
pub fn agree(alloc: Global, count: u64) -> Result<bool, Memory> {
    let mut rng = Pcg32::new(7, 54);
    let mut timed = Timed::new(alloc);
    let mut plain = Plain::new();
    for round in 0..count {
        let n = u64::from(rng.next_u32()) % (1 + round / 10) % 1024;
        let choice = rng.next_u32() % 11;
        if !edit(&mut timed, &mut plain, n, choice)?
            || timed.get(&n.to_le_bytes()) != plain.get(n)
            || timed.len() != plain.count(1024)
        {
            return Ok(false);
        }
        if round % 300 == 299 {
            let moment = u64::from(rng.next_u32() % 18);
            if !drops(&mut timed, &mut plain, moment) {
                return Ok(false);
            }
        }
    }
    Ok(true)
}
