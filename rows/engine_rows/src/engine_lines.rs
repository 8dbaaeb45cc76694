//! Lines of an engine.

use crate::asking::{ask, asked, begun, loaded, planned};
use crate::scanning::{Between, scans_report_what_stayed};
use blocks::PlainStore;
use bstr::ByteSlice;
use outside::Plan;
use plain_model::{Memory, Part, Reply};
use redis_core::Engine;
use row_text::{number, numbers, spelled};
use std::alloc::Global;

/// An engine, and the moment in milliseconds at which requests come.
#[derive(Drop)]
pub struct Asked {
    engine: Engine<PlainStore>,
    moment: u64,
}

impl Asked {
    pub fn new(alloc: Global) -> Result<Asked, Memory> {
        Ok(Asked {
            engine: begun(alloc)?,
            moment: 0,
        })
    }
}

// So many steps, as many as fit.
fn steps(word: &str) -> u32 {
    u32::try_from(number(word)).unwrap_or(u32::MAX)
}

// The engine with the keys of a file: `LIMIT MOMENT BYTES`.
fn load(state: &mut Asked, alloc: Global, rest: &str) -> Result<String, Memory> {
    let mut words = rest.splitn(3, ' ');
    match (words.next(), words.next(), words.next()) {
        (Some(limit), Some(moment), Some(bytes)) => {
            let bytes = spelled(alloc, bytes)?;
            let (engine, text) = loaded(alloc, bytes.as_slice(), number(limit), number(moment))?;
            state.engine = engine;
            Ok(text)
        }
        _ => String::from_str(alloc, "?"),
    }
}

// A plan: `REHASH DEFRAG EXPIRE`.
fn plan_of(rest: &str) -> Plan {
    let mut words = rest.split(' ');
    Plan {
        rehash: steps(words.next().unwrap_or("")),
        defrag: steps(words.next().unwrap_or("")),
        expire: steps(words.next().unwrap_or("")),
    }
}

// Whether so many rehash steps at most are made of a plan of 1,000, and no others.
fn rehashes_up_to(state: &mut Asked, most: u32) -> bool {
    let plan = Plan {
        rehash: 1_000,
        defrag: 0,
        expire: 0,
    };
    let done = state.engine.background(plan, state.moment);
    done.rehash <= most && done.defrag == 0 && done.expired == 0
}

// Whether a reply is a number from 0 to another.
fn is_up_to(reply: &Reply, most: u64) -> bool {
    match reply.parts() {
        [part] => match part {
            Part::Number(number) => match u64::try_from(*number) {
                Ok(number) => number <= most,
                Err(_) => false,
            },
            _ => false,
        },
        _ => false,
    }
}

// Whether the reply to a request is a number that is no greater than some: `MOST REQUEST`.
fn up_to(state: &mut Asked, alloc: Global, rest: &str) -> Result<bool, Memory> {
    let (most, request) = rest.split_once(' ').unwrap_or((rest, ""));
    let request = spelled(alloc, request)?;
    match ask(alloc, &mut state.engine, request.as_slice(), state.moment)? {
        Some((reply, _)) => Ok(is_up_to(&reply, number(most))),
        None => Ok(false),
    }
}

// How many of the requests are answered that have each of so many numbers for `#`.
fn each(state: &mut Asked, alloc: Global, count: u64, request: &[u8]) -> Result<u64, Memory> {
    let mut told = 0u64;
    for number in 0..count {
        let shown = format!(in alloc; "{number}")?;
        let request = request.replace(alloc, b"#", shown.as_bytes())?;
        if ask(alloc, &mut state.engine, request.as_slice(), state.moment)?.is_some() {
            told = told.saturating_add(1);
        }
    }
    Ok(told)
}

// The same of a line: `COUNT REQUEST`.
fn each_line(state: &mut Asked, alloc: Global, rest: &str) -> Result<String, Memory> {
    let (count, request) = rest.split_once(' ').unwrap_or((rest, ""));
    let request = spelled(alloc, request)?;
    let told = each(state, alloc, number(count), request.as_slice())?;
    format!(in alloc; "{told}")
}

// What happens between the calls of two scans: `FIRST EACH MOST PASSES|BEHIND_FIRST|BEFORE|BEHIND|LAST`.
fn between<'a>(counts: &[u64], texts: &[&'a str]) -> Option<Between<'a>> {
    match (counts, texts) {
        ([first, each, most, passes], [behind_first, before, behind, last]) => Some(Between {
            first: *first,
            behind_first,
            before,
            behind,
            each: *each,
            most: *most,
            last,
            passes: *passes,
        }),
        _ => None,
    }
}

// Whether scans report what stayed.
fn scan(alloc: Global, rest: &str) -> Result<bool, Memory> {
    let (counts, rest) = rest.split_once('|').unwrap_or((rest, ""));
    let counts = numbers(alloc, counts)?;
    let texts: Vec<&str> = rest.split('|').collect(alloc)?;
    match between(counts.as_slice(), texts.as_slice()) {
        Some(between) => scans_report_what_stayed(alloc, &between),
        None => Ok(false),
    }
}

// The reply to a request.
fn reply(state: &mut Asked, alloc: Global, rest: &str) -> Result<String, Memory> {
    let request = spelled(alloc, rest)?;
    asked(alloc, &mut state.engine, request.as_slice(), state.moment)
}

// Whether what a line asks is so; none for any other line.
fn is_so(state: &mut Asked, alloc: Global, name: &str, rest: &str) -> Result<Option<bool>, Memory> {
    match name {
        "rehashes_up_to" => Ok(Some(rehashes_up_to(state, steps(rest)))),
        "up_to" => Ok(Some(up_to(state, alloc, rest)?)),
        "scans" => Ok(Some(scan(alloc, rest)?)),
        "is_spent" => Ok(Some(state.engine.is_spent())),
        _ => Ok(None),
    }
}

/// What a line of an engine answers; none for any other line.
pub fn answer(
    state: &mut Asked,
    alloc: Global,
    name: &str,
    rest: &str,
) -> Result<Option<String>, Memory> {
    if let Some(holds) = is_so(state, alloc, name, rest)? {
        return Ok(Some(format!(in alloc; "{holds}")?));
    }
    let text = match name {
        "ask" => reply(state, alloc, rest)?,
        "load" => load(state, alloc, rest)?,
        "plan" => planned(alloc, &mut state.engine, plan_of(rest), state.moment)?,
        "each" => each_line(state, alloc, rest)?,
        "at" => {
            state.moment = number(rest);
            String::new(alloc)
        }
        "engine" => {
            *state = Asked::new(alloc)?;
            String::new(alloc)
        }
        _ => return Ok(None),
    };
    Ok(Some(text))
}
