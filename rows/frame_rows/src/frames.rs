//! What a stream is read as, whole and in pieces.

ghost use Rattle.std.specs.Prelude.{◌≤◌, length};
ghost use Rattle.resp_frames.specs.Feeding.{SameFed};

use resp_frames::{Feeder, FrameFault, Request};
use row_text::shown;
use std::alloc::{AllocError, Global};

// Adds the words of a request, each followed by a bar, and the last by a semicolon too.
fn say(request: &Request<'_>, said: &mut Vec<u8>) -> Result<(), AllocError> {
    for index in 0..request.len() {
        said.extend_from_slice(request.word(index))?;
        said.push(b'|')?;
    }
    said.push(b';')?;
    Ok(())
}

// Adds the words of what is whole, and says why the stream broke.
fn gathered(feeder: &mut Feeder, said: &mut Vec<u8>) -> Result<Option<FrameFault>, AllocError>
    ensures { SameFed feeder.old feeder.new }
{
    for _ in 0..100 {
        match feeder.next_request() {
            Ok(true) => say(&feeder.current(), said)?,
            Ok(false) => return Ok(None),
            Err(fault) => return Ok(Some(fault)),
        }
    }
    Ok(None)
}

/// What is read of a stream: the words, how many bytes are left, and why it broke.
#[derive(Drop)]
pub struct Outcome {
    pub said: Vec<u8>,
    pub kept: usize,
    pub fault: Option<FrameFault>,
}

impl Outcome {
    fn is_same(&self, other: &Outcome) -> bool {
        self.said.as_slice() == other.said.as_slice()
            && self.kept == other.kept
            && self.fault == other.fault
    }
}

// Feeds the stream in two pieces.
fn in_two(alloc: Global, stream: &[u8], first: usize) -> Result<Outcome, AllocError>
    requires first { first ≤ length stream.now }
    requires few { length stream.now ≤ 100000 }
{
    let mut feeder = Feeder::new(alloc);
    let mut said = Vec::new(alloc);
    feeder.feed(&stream[..first])?;
    gathered(&mut feeder, &mut said)?;
    feeder.feed(&stream[first..])?;
    let fault = gathered(&mut feeder, &mut said)?;
    Ok(Outcome {
        said,
        kept: feeder.kept(),
        fault,
    })
}

// Feeds the stream byte by byte.
fn in_bytes(alloc: Global, stream: &[u8]) -> Result<Outcome, AllocError>
    requires few { length stream.now ≤ 100000 }
{
    let mut feeder = Feeder::new(alloc);
    let mut said = Vec::new(alloc);
    let mut fault = None;
    for i in 0..stream.len() {
        feeder.feed(&stream[i..i + 1])?;
        fault = gathered(&mut feeder, &mut said)?;
    }
    Ok(Outcome {
        said,
        kept: feeder.kept(),
        fault,
    })
}

// Whether the stream is read as the same in two pieces, of which the first has so many bytes at least.
fn same_in_two(
    alloc: Global,
    stream: &[u8],
    from: usize,
    whole: &Outcome,
) -> Result<bool, AllocError>
    requires few { length stream.now ≤ 100000 }
{
    for first in from..=stream.len() {
        let outcome = in_two(alloc, stream, first)?;
        if !whole.is_same(&outcome) {
            return Ok(false);
        }
    }
    Ok(true)
}

/// What the stream is read as, and whether it is the same in each two pieces and byte by byte. None where it is too long for that.
pub fn framed(alloc: Global, stream: &[u8]) -> Result<Option<(Outcome, bool)>, AllocError> {
    if stream.len() > 1000 {
        return Ok(None);
    }
    let whole = in_two(alloc, stream, 0)?;
    let slow = in_bytes(alloc, stream)?;
    let is_same = whole.is_same(&slow) && same_in_two(alloc, stream, 0, &whole)?;
    Ok(Some((whole, is_same)))
}

/// What a long stream is read as, and whether it is the same where the first piece has one byte, or is near the end.
pub fn framed_long(alloc: Global, stream: &[u8]) -> Result<Option<(Outcome, bool)>, AllocError> {
    if stream.is_empty() || stream.len() > 100_000 {
        return Ok(None);
    }
    let whole = in_two(alloc, stream, 0)?;
    let second = in_two(alloc, stream, 1)?;
    let near = stream.len().saturating_sub(3);
    let is_same = whole.is_same(&second) && same_in_two(alloc, stream, near, &whole)?;
    Ok(Some((whole, is_same)))
}

/// What a stream was read as.
pub fn told(alloc: Global, outcome: &Outcome, is_same: bool) -> Result<String, AllocError> {
    let said = shown(alloc, outcome.said.as_slice())?;
    let (kept, fault) = (outcome.kept, outcome.fault);
    format!(in alloc; "{said} kept {kept}, {fault:?} | the same in pieces: {is_same}")
}
