//! Lines of runs of the small engine.

use crate::due::puts_come_before_takes;
use crate::served::{Given, served, told, told_in_pieces};
use outside::Plan;
use row_text::{number, numbers, spelled};
use std::alloc::{AllocError, Global};

// So many steps, as many as fit.
fn steps(number: u64) -> u32 {
    u32::try_from(number).unwrap_or(u32::MAX)
}

// Adds a plan of steps: `REHASH DEFRAG EXPIRE`.
fn plan(given: &mut Given, numbers: &[u64]) -> Result<(), AllocError> {
    if let [rehash, defrag, expire] = numbers {
        given.plans.push(Plan {
            rehash: steps(*rehash),
            defrag: steps(*defrag),
            expire: steps(*expire),
        })?;
    }
    Ok(())
}

// How many bytes each take gives.
fn pieces(alloc: Global, given: &[u64]) -> Result<Vec<usize>, AllocError> {
    let mut all = Vec::new(alloc);
    for number in given {
        all.push(*number as usize)?;
    }
    Ok(all)
}

// A line that says what serving is given.
fn give(given: &mut Given, alloc: Global, name: &str, rest: &str) -> Result<String, AllocError> {
    let all = numbers(alloc, rest)?;
    match name {
        "//" => {}
        "pieces" => given.pieces = pieces(alloc, all.as_slice())?,
        "reads" => given.reads = all,
        "writes" => given.writes = all,
        "moments" => given.moments = all,
        "plan" => plan(given, all.as_slice())?,
        "room" => given.room = number(rest) as usize,
        "limit" => given.limit = number(rest),
        _ => return String::from_str(alloc, "?"),
    }
    Ok(String::new(alloc))
}

// A run over an input.
fn serve(given: &Given, alloc: Global, rest: &str) -> Result<String, AllocError> {
    let bytes = spelled(alloc, rest)?;
    let run = served(alloc, given, bytes.as_slice(), given.pieces.as_slice())?;
    told(alloc, &run)
}

// The same in pieces.
fn cut(given: &Given, alloc: Global, rest: &str) -> Result<String, AllocError> {
    let bytes = spelled(alloc, rest)?;
    told_in_pieces(alloc, given, bytes.as_slice())
}

// Whether replies are put before the next take.
fn puts(alloc: Global) -> Result<String, AllocError> {
    let holds = puts_come_before_takes(alloc)?;
    format!(in alloc; "{holds}")
}

/// What a line answers.
pub fn answer(
    given: &mut Given,
    alloc: Global,
    name: &str,
    rest: &str,
) -> Result<String, AllocError> {
    match name {
        "given" => {
            *given = Given::new(alloc);
            Ok(String::new(alloc))
        }
        "serve" => serve(given, alloc, rest),
        "cut" => cut(given, alloc, rest),
        "puts_before_takes" => puts(alloc),
        _ => give(given, alloc, name, rest),
    }
}
