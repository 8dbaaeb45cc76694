//! Lines of streams, and of what is put.

use crate::frames::{framed, framed_long, told};
use outside::MemSink;
use plain_world::{Part, Refusal};
use resp_frames::{Rule, put_all, put_fault, put_part};
use row_text::{number, shown, spelled, spelled_word};
use std::alloc::{AllocError, Global};

// What a stream is read as.
fn frames(alloc: Global, rest: &str) -> Result<String, AllocError> {
    let stream = spelled(alloc, rest)?;
    match framed(alloc, stream.as_slice())? {
        Some((outcome, is_same)) => told(alloc, &outcome, is_same),
        None => String::from_str(alloc, "?"),
    }
}

// A piece so many times between what stands before it and behind it.
fn repeated(
    alloc: Global,
    before: &str,
    piece: &str,
    count: usize,
    behind: &str,
) -> Result<Vec<u8>, AllocError> {
    let mut bytes = spelled_word(alloc, before)?;
    let piece = spelled_word(alloc, piece)?;
    for _ in 0..count {
        bytes.extend_from_slice(piece.as_slice())?;
    }
    bytes.extend_from_slice(spelled_word(alloc, behind)?.as_slice())?;
    Ok(bytes)
}

// What a stream is read as; `~` stands for the words that are due.
fn long_told(alloc: Global, stream: &[u8], due: &[u8]) -> Result<String, AllocError> {
    match framed_long(alloc, stream)? {
        Some((mut outcome, is_same)) => {
            if outcome.said.as_slice() == due {
                outcome.said = Vec::from_slice(alloc, b"~")?;
            }
            told(alloc, &outcome, is_same)
        }
        None => String::from_str(alloc, "?"),
    }
}

// The same of a line: what stands before a piece, how often that stands in the stream, and behind it; and of the words that are due
// what stands for each piece, and behind.
fn long(alloc: Global, rest: &str) -> Result<String, AllocError> {
    let words: Vec<&str> = rest.split(' ').collect(alloc)?;
    match words.as_slice() {
        [before, count, piece, behind, due, due_behind] => {
            let count = number(count).min(100_000) as usize;
            let stream = repeated(alloc, before, piece, count, behind)?;
            let due = repeated(alloc, "", due, count, due_behind)?;
            long_told(alloc, stream.as_slice(), due.as_slice())
        }
        _ => String::from_str(alloc, "?"),
    }
}

// The rule of a name.
fn rule_of(name: &str) -> Rule {
    match name {
        "InvalidMultibulkLength" => Rule::InvalidMultibulkLength,
        "ExpectedDollar" => Rule::ExpectedDollar,
        "InvalidBulkLength" => Rule::InvalidBulkLength,
        "LineTooLong" => Rule::LineTooLong,
        "ExpectedCrLf" => Rule::ExpectedCrLf,
        _ => Rule::QuotedInline,
    }
}

// Whether all was put, and what was.
fn put_line(alloc: Global, is_put: bool, sink: &MemSink) -> Result<String, AllocError> {
    let line = shown(alloc, sink.written())?;
    format!(in alloc; "{is_put} {line}")
}

// The line of a rule that is broken: `RULE AT`.
fn fault_line(alloc: Global, rest: &str) -> Result<String, AllocError> {
    let (name, at) = rest.split_once(' ').unwrap_or((rest, ""));
    let mut sink = MemSink::new(vec![in alloc; 0u8; 100]?, Vec::new(alloc));
    let is_put = put_fault(&mut sink, rule_of(name), number(at)).is_ok();
    put_line(alloc, is_put, &sink)
}

// Parts of replies, and a piece behind them.
fn parts(alloc: Global) -> Result<String, AllocError> {
    let mut sink = MemSink::new(vec![in alloc; 0u8; 60]?, Vec::new(alloc));
    for part in [
        Part::Array(2),
        Part::Number(-7),
        Part::Null,
        Part::NullArray,
        Part::Refused(Refusal::Syntax),
    ] {
        if put_part(&mut sink, &part).is_err() {
            return String::from_str(alloc, "a fault");
        }
    }
    let is_put = put_all(&mut sink, b"and more").is_ok();
    put_line(alloc, is_put, &sink)
}

/// What a line answers; none for any other line.
pub fn answer(alloc: Global, name: &str, rest: &str) -> Result<Option<String>, AllocError> {
    match name {
        "frames" => Ok(Some(frames(alloc, rest)?)),
        "long" => Ok(Some(long(alloc, rest)?)),
        "fault_line" => Ok(Some(fault_line(alloc, rest)?)),
        "parts" => Ok(Some(parts(alloc)?)),
        _ => Ok(None),
    }
}
