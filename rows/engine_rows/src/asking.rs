//! Requests on one engine, one after the other.

use blocks::{BlockStore, PlainStore};
use object_codec::Limits;
use outside::{MemHost, MemSink, Plan};
use plain_model::{Memory, Reply};
use rdb_reader::{LoadFault, Loaded};
use redis_core::{Engine, StepsDone, refusals_change_nothing};
use resp_frames::{Feeder, spell};
use row_text::shown;
use std::alloc::Global;

/// An engine without a key.
pub fn begun(alloc: Global) -> Result<Engine<PlainStore>, Memory> {
    Engine::new(alloc, PlainStore::new(alloc), Limits::default(), 7)
}

// The host of one file, `f`, of these bytes.
fn host_of(alloc: Global, bytes: &[u8]) -> Result<MemHost, Memory> {
    let names = vec![in alloc; String::from_str(alloc, "f")?]?;
    let files = vec![in alloc; Vec::from_slice(alloc, bytes)?]?;
    Ok(MemHost::new(names, files, Vec::new(alloc)))
}

// What loading answered, as text. It stands apart, since what comes behind a call of the engine is proved among all that the call
// says.
fn told_load(alloc: Global, answer: Result<Loaded, LoadFault>) -> Result<String, Memory> {
    format!(in alloc; "{answer:?}")
}

/// An engine with the keys of a file of these bytes, and what loading it answered.
pub fn loaded(
    alloc: Global,
    bytes: &[u8],
    limit: u64,
    moment: u64,
) -> Result<(Engine<PlainStore>, String), Memory> {
    let mut host = host_of(alloc, bytes)?;
    let store = PlainStore::new(alloc);
    let mut engine = Engine::new(alloc, store, Limits::default(), 7)?;
    let answer = engine.load(&mut host, "f", limit, moment);
    let text = told_load(alloc, answer)?;
    // last, so that no other call is proved among what it says
    refusals_change_nothing();
    Ok((engine, text))
}

/// The reply to a request, and whether it ends the run; none where the bytes are no whole request.
pub fn ask<B: BlockStore>(
    alloc: Global,
    engine: &mut Engine<B>,
    request: &[u8],
    moment: u64,
) -> Result<Option<(Reply, bool)>, Memory> {
    if request.len() > 1000 {
        return Ok(None);
    }
    let mut feeder = Feeder::new(alloc);
    feeder.feed(request)?;
    match feeder.next_request() {
        Ok(true) => {
            let done = engine.execute(&feeder.current(), moment)?;
            Ok(Some((done.reply, done.quit)))
        }
        _ => Ok(None),
    }
}

// The bytes of a reply, and whether all of them fit.
fn told_reply(alloc: Global, reply: &Reply) -> Result<(String, bool), Memory> {
    let mut sink = MemSink::new(vec![in alloc; 0; 200]?, Vec::new(alloc));
    let fits = spell(reply, &mut sink).is_ok();
    Ok((shown(alloc, sink.written())?, fits))
}

/// The bytes of the reply to a request.
pub fn asked<B: BlockStore>(
    alloc: Global,
    engine: &mut Engine<B>,
    request: &[u8],
    moment: u64,
) -> Result<String, Memory> {
    match ask(alloc, engine, request, moment)? {
        Some((reply, quits)) => {
            let (told, fits) = told_reply(alloc, &reply)?;
            let end = if quits { " and the end" } else { "" };
            format!(in alloc; "{told}{end}{}", if fits { "" } else { ".." })
        }
        None => String::from_str(alloc, "no request"),
    }
}

// What was done of a plan, as text.
fn told_steps(alloc: Global, done: StepsDone) -> Result<String, Memory> {
    format!(in alloc; "{} {} {}", done.rehash, done.defrag, done.expired)
}

/// What is done of a plan.
pub fn planned(
    alloc: Global,
    engine: &mut Engine<PlainStore>,
    plan: Plan,
    moment: u64,
) -> Result<String, Memory> {
    told_steps(alloc, engine.background(plan, moment))
}
