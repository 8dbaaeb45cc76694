//! Lines on numbers as text. Expected numbers are those that the texts mean in decimal, as std's `parse` reads whole ones; the faults
//! are worked out by hand from the grammar of a score text.

use crate::texts::{given, signed_shown};
use int_text::{Memory, ScoreFault, print, read_i64, read_score, read_u64};
use row_words::{number, shown, unknown};
use std::alloc::Global;

// What a fault of a score text says.
fn fault_text(fault: ScoreFault) -> &'static str {
    match fault {
        ScoreFault::NotWhole => "not whole",
        ScoreFault::TooLarge => "too large",
        ScoreFault::Malformed => "malformed",
    }
}

// A score, or what its fault says.
fn score_shown(alloc: Global, text: &[u8]) -> Result<String, Memory> {
    match read_score(text) {
        Ok(score) => signed_shown(alloc, Some(score)),
        Err(fault) => String::from_str(alloc, fault_text(fault)),
    }
}

// The number of a text, as std reads it, printed behind `n=`.
fn printed(alloc: Global, text: &str) -> Result<String, Memory> {
    let Ok(number) = text.parse::<i64>() else {
        return unknown(alloc);
    };
    let mut bytes = Vec::from_slice(alloc, b"n=")?;
    print(number, &mut bytes)?;
    match String::from_utf8(bytes) {
        Ok(text) => Ok(text),
        Err(_) => unknown(alloc),
    }
}

// The score of a text with so many equal bytes in its middle.
fn long_score(
    alloc: Global,
    before: &str,
    byte: u8,
    count: u64,
    behind: &str,
) -> Result<String, Memory> {
    let mut text = Vec::from_slice(alloc, before.as_bytes())?;
    for _ in 0..count {
        text.push(byte)?;
    }
    text.extend_from_slice(behind.as_bytes())?;
    score_shown(alloc, &text)
}

// The score of a text of four parts.
fn long(alloc: Global, text: &str) -> Result<String, Memory> {
    let mut words = text.split(' ');
    match (words.next(), words.next(), words.next(), words.next()) {
        (Some(before), Some(digit), Some(count), Some(behind)) => {
            let byte = digit.as_bytes().first().copied().unwrap_or(b'0');
            long_score(alloc, given(before), byte, number(count), given(behind))
        }
        _ => unknown(alloc),
    }
}

/// What a line answers.
pub fn answer(alloc: Global, call: &str, text: &str) -> Result<String, Memory> {
    match call {
        "signed" => signed_shown(alloc, read_i64(given(text).as_bytes())),
        "unsigned" => shown(alloc, read_u64(given(text).as_bytes())),
        "printed" => printed(alloc, text),
        "score" => score_shown(alloc, given(text).as_bytes()),
        "long" => long(alloc, text),
        "too_large" => shown(alloc, Some(u64::from(ScoreFault::TooLarge.number()))),
        _ => unknown(alloc),
    }
}
