//! Lines on sources and sinks: each form once. Expected answers are worked out by hand from what a form is given.

use crate::texts::{add_call, given, no_calls};
use outside::{MemSink, MemSource, Sink, Source, StdSink, StdSource};
use row_words::{number, unknown};
use std::alloc::{AllocError, Global};
use std::io;
use std::io::{ErrorKind, Read, Write};

// A reader and writer whose first call is interrupted, and whose third fails.
#[derive(Drop)]
struct Troubled {
    calls: u64,
}

impl Troubled {
    fn call(&mut self) -> io::Result<usize> {
        self.calls = self.calls.saturating_add(1);
        match self.calls {
            1 => Err(io::Error::from(ErrorKind::Interrupted)),
            3 => Err(io::Error::from(ErrorKind::BrokenPipe)),
            _ => Ok(1),
        }
    }
}

impl Read for Troubled {
    fn read(&mut self, buf: &mut [u8]) -> io::Result<usize> {
        let count = self.call()?;
        Ok(count.min(buf.len()))
    }
}

impl Write for Troubled {
    fn write(&mut self, buf: &[u8]) -> io::Result<usize> {
        let count = self.call()?;
        Ok(count.min(buf.len()))
    }

    fn flush(&mut self) -> io::Result<()> {
        Ok(())
    }
}

// What so many takes answer, each with the four bytes of the room.
fn takes<S: Source>(alloc: Global, source: &mut S, count: u64) -> Result<String, AllocError> {
    let mut told = no_calls(alloc)?;
    let mut room = [0u8; 4];
    for _ in 0..count {
        let taken = source.take(&mut room).ok();
        add_call(alloc, &mut told, taken, &room)?;
    }
    Ok(told)
}

// What a put of each piece answers.
fn puts<S: Sink>(
    alloc: Global,
    sink: &mut S,
    pieces: &[&str],
    told: &mut String,
) -> Result<(), AllocError> {
    for piece in pieces {
        let put = sink.put(given(piece).as_bytes()).ok();
        add_call(alloc, told, put, &[])?;
    }
    Ok(())
}

// What so many takes of a source in memory answer, of which one fails; the words are the lengths of its pieces.
fn mem_source(
    alloc: Global,
    bytes: &str,
    failing: u64,
    count: u64,
    words: &[&str],
) -> Result<String, AllocError> {
    let bytes = Vec::from_slice(alloc, bytes.as_bytes())?;
    let mut pieces = Vec::new(alloc);
    for piece in words {
        pieces.push(number(piece) as usize)?;
    }
    let failing = Vec::from_slice(alloc, &[failing])?;
    takes(alloc, &mut MemSource::new(bytes, pieces, failing), count)
}

// What puts of a sink in memory answer, of which one fails, and then its bytes.
fn mem_sink(
    alloc: Global,
    room: usize,
    failing: u64,
    pieces: &[&str],
) -> Result<String, AllocError> {
    let room = vec![in alloc; 0u8; room]?;
    let failing = Vec::from_slice(alloc, &[failing])?;
    let mut sink = MemSink::new(room, failing);
    let mut told = no_calls(alloc)?;
    puts(alloc, &mut sink, pieces, &mut told)?;
    let written = sink.written();
    add_call(alloc, &mut told, Some(written.len()), written)?;
    Ok(told)
}

// What puts of a sink over a writer answer.
fn writes<W: Write + Drop>(
    alloc: Global,
    writer: W,
    pieces: &[&str],
) -> Result<String, AllocError> {
    let mut told = no_calls(alloc)?;
    puts(alloc, &mut StdSink::new(writer), pieces, &mut told)?;
    Ok(told)
}

/// What a line of these words answers.
pub fn answer(alloc: Global, call: &str, words: &[&str]) -> Result<String, AllocError> {
    match (call, words) {
        ("source", [bytes, failing, count, pieces @ ..]) => {
            mem_source(alloc, bytes, number(failing), number(count), pieces)
        }
        ("sink", [room, failing, pieces @ ..]) => {
            mem_sink(alloc, number(room) as usize, number(failing), pieces)
        }
        ("reader", [bytes, count]) => {
            let mut source = StdSource::new(bytes.as_bytes());
            takes(alloc, &mut source, number(count))
        }
        ("writer", pieces) => writes(alloc, Vec::new(alloc), pieces),
        // An interrupted call is tried again; a fault is one.
        ("troubled_reader", [count]) => {
            let mut source = StdSource::new(Troubled { calls: 0 });
            takes(alloc, &mut source, number(count))
        }
        ("troubled_writer", pieces) => writes(alloc, Troubled { calls: 0 }, pieces),
        _ => unknown(alloc),
    }
}
