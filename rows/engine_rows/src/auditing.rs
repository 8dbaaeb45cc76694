//! An engine over a class heap, and what stands in its slabs.

use crate::asking::{ask, asked};
use bstr::ByteSlice;
use class_heap::ClassHeap;
use defrag_rax::{audit, audit_lines};
use object_codec::Limits;
use plain_model::Memory;
use redis_core::Engine;
use row_text::{number, shown, spelled};
use std::alloc::Global;

/// An engine over a class heap.
#[derive(Drop)]
pub struct InSlabs {
    engine: Engine<ClassHeap>,
}

impl InSlabs {
    pub fn new(alloc: Global) -> Result<InSlabs, Memory> {
        let engine = Engine::new(alloc, ClassHeap::new(alloc), Limits::default(), 7)?;
        Ok(InSlabs { engine })
    }
}

// Asks a request with the number in the place of each `#`.
fn ask_numbered(
    state: &mut InSlabs,
    alloc: Global,
    number: u64,
    request: &str,
) -> Result<(), Memory> {
    let told = format!(in alloc; "{number}")?;
    let request = spelled(alloc, request)?;
    let request = request.as_slice().replace(alloc, b"#", told.as_bytes())?;
    let _answer = ask(alloc, &mut state.engine, request.as_slice(), 0)?;
    Ok(())
}

// Asks requests with each of so many numbers from 1 on: `COUNT REQUEST|REQUEST..`.
fn each(state: &mut InSlabs, alloc: Global, rest: &str) -> Result<String, Memory> {
    let (count, requests) = rest.split_once(' ').unwrap_or((rest, ""));
    for before in 0..number(count) {
        for request in requests.split('|') {
            ask_numbered(state, alloc, before.saturating_add(1), request)?;
        }
    }
    Ok(String::new(alloc))
}

// The reply to a request.
fn reply(state: &mut InSlabs, alloc: Global, rest: &str) -> Result<String, Memory> {
    let request = spelled(alloc, rest)?;
    asked(alloc, &mut state.engine, request.as_slice(), 0)
}

// The lines of an audit.
fn rows(state: &InSlabs, alloc: Global) -> Result<String, Memory> {
    let rows = audit(alloc, state.engine.keyspace())?;
    let lines = audit_lines(alloc, rows.as_slice())?;
    shown(alloc, lines.as_slice())
}

/// What a line of an engine over a class heap answers; none for any other line.
pub fn answer(
    state: &mut InSlabs,
    alloc: Global,
    name: &str,
    rest: &str,
) -> Result<Option<String>, Memory> {
    let text = match name {
        "heap" => {
            *state = InSlabs::new(alloc)?;
            String::new(alloc)
        }
        "heap_each" => each(state, alloc, rest)?,
        "heap_ask" => reply(state, alloc, rest)?,
        "heap_rows" => rows(state, alloc)?,
        _ => return Ok(None),
    };
    Ok(Some(text))
}
