//! Scans of keys that come, go and move between the calls. What a scan has to report are the keys that stay from its first
//! call to its last.

use crate::asking::{ask, begun};
use blocks::PlainStore;
use int_text::read_u64;
use plain_model::{Memory, Part, Reply};
use redis_core::Engine;
use std::alloc::Global;

// How many keys stay.
const STAY: u64 = 40;

/// What happens between the calls of two scans.
#[derive(Drop)]
pub struct Between<'a> {
    /// So many keys stand before the first call, with these words behind them.
    pub first: u64,
    pub behind_first: &'a str,
    /// After each call so many requests of this sort follow, each of another key, up to so many keys.
    pub before: &'a str,
    pub behind: &'a str,
    pub each: u64,
    pub most: u64,
    /// And then this one.
    pub last: &'a str,
    /// So many milliseconds pass.
    pub passes: u64,
}

// A scan, with its cursor as text.
#[derive(Drop)]
struct Scan {
    cursor: String,
    is_ended: bool,
    // which of the keys that stay were reported
    met: Vec<bool>,
}

// A scan that has made no call.
fn no_call(alloc: Global) -> Result<Scan, Memory> {
    Ok(Scan {
        cursor: String::from_str(alloc, "0")?,
        is_ended: false,
        met: vec![in alloc; false; STAY as usize]?,
    })
}

// Marks a key that stays.
fn mark(met: &mut Vec<bool>, name: &[u8]) {
    let [b's', digits @ ..] = name else {
        return;
    };
    let Some(number) = read_u64(digits) else {
        return;
    };
    if let Some(slot) = met.get_mut(number as usize) {
        *slot = true;
    }
}

// Marks the keys of a page, and answers its cursor; none where the reply is no page.
fn mark_page(alloc: Global, met: &mut Vec<bool>, reply: &Reply) -> Result<Option<String>, Memory> {
    let [_, next, _, names @ ..] = reply.parts() else {
        return Ok(None);
    };
    for name in names {
        if let Part::Bulk(name) = name {
            mark(met, name.as_slice());
        }
    }
    match next {
        Part::Bulk(next) => {
            let cursor = str::from_utf8(next.as_slice()).unwrap_or("?");
            Ok(Some(String::from_str(alloc, cursor)?))
        }
        _ => Ok(None),
    }
}

// Makes one call of a scan that isn't ended.
fn go_on(
    alloc: Global,
    engine: &mut Engine<PlainStore>,
    scan: &mut Scan,
    count: u64,
    moment: u64,
) -> Result<(), Memory> {
    if scan.is_ended {
        return Ok(());
    }
    let words = format!(in alloc; "SCAN {} COUNT {count}\n", scan.cursor)?;
    if let Some((reply, _)) = ask(alloc, engine, words.as_bytes(), moment)? {
        if let Some(next) = mark_page(alloc, &mut scan.met, &reply)? {
            scan.is_ended = next.as_str() == "0";
            scan.cursor = next;
        }
    }
    Ok(())
}

// Requests of so many keys from a number on: `BEFORE NUMBER BEHIND`.
fn ask_each(
    alloc: Global,
    engine: &mut Engine<PlainStore>,
    before: &str,
    behind: &str,
    from: u64,
    to: u64,
    moment: u64,
) -> Result<(), Memory> {
    for number in from..to {
        let words = format!(in alloc; "{before}{number}{behind}\n")?;
        let _ = ask(alloc, engine, words.as_bytes(), moment)?;
    }
    Ok(())
}

// An engine with the keys that stay, and those that stand before the first call.
fn filled(alloc: Global, between: &Between<'_>) -> Result<Engine<PlainStore>, Memory> {
    let mut engine = begun(alloc)?;
    ask_each(alloc, &mut engine, "SET s", " v", 0, STAY, 0)?;
    let behind = between.behind_first;
    ask_each(alloc, &mut engine, "SET g", behind, 0, between.first, 0)?;
    Ok(engine)
}

// What follows after the calls of a number.
fn go_between(
    alloc: Global,
    engine: &mut Engine<PlainStore>,
    between: &Between<'_>,
    call: u64,
    moment: u64,
) -> Result<(), Memory> {
    let from = call.wrapping_mul(between.each).min(between.most);
    let to = from.wrapping_add(between.each).min(between.most);
    let (before, behind) = (between.before, between.behind);
    ask_each(alloc, engine, before, behind, from, to, moment)?;
    let last = format!(in alloc; "{}\n", between.last)?;
    let _ = ask(alloc, engine, last.as_bytes(), moment)?;
    Ok(())
}

// Whether a scan ended and reported all keys that stay.
fn is_complete(scan: &Scan) -> bool {
    scan.is_ended && scan.met.iter().all(|met| *met)
}

/// Whether two scans, of which the second begins later and makes longer steps, report all that stays.
pub fn scans_report_what_stayed(alloc: Global, between: &Between<'_>) -> Result<bool, Memory> {
    let mut engine = filled(alloc, between)?;
    let mut long = no_call(alloc)?;
    let mut short = no_call(alloc)?;
    for call in 0..1000u64 {
        let moment = call.wrapping_mul(between.passes);
        go_on(alloc, &mut engine, &mut long, 5, moment)?;
        if call >= 3 {
            go_on(alloc, &mut engine, &mut short, 50, moment)?;
        }
        go_between(alloc, &mut engine, between, call, moment)?;
    }
    Ok(is_complete(&long) && is_complete(&short))
}
