//! Runs of the small engine over the forms in memory.

use crate::counting::Counting;
use outside::{Clock, Conductor, ListClock, ListPacer, MemSink, MemSource, Pacer, Plan, Source};
use row_text::shown;
use serving::{Ended, serve_input};
use std::alloc::{AllocError, Global};

// The most bytes that any run takes.
const MANY_BYTES: u64 = 1_099_511_627_776;

/// What serving is given.
#[derive(Drop)]
pub struct Given {
    /// How many bytes each take gives.
    pub pieces: Vec<usize>,
    /// The calls of the input and the output that fail.
    pub reads: Vec<u64>,
    pub writes: Vec<u64>,
    /// What the clock answers in turn, in milliseconds.
    pub moments: Vec<u64>,
    pub plans: Vec<Plan>,
    /// The room of the output in bytes.
    pub room: usize,
    /// So many bytes are taken at most.
    pub limit: u64,
}

impl Given {
    pub fn new(alloc: Global) -> Given {
        Given {
            pieces: Vec::new(alloc),
            reads: Vec::new(alloc),
            writes: Vec::new(alloc),
            moments: Vec::new(alloc),
            plans: Vec::new(alloc),
            room: 200,
            limit: MANY_BYTES,
        }
    }
}

/// How the serving ends, what was executed and written, and what is left of the input.
#[derive(Drop)]
pub struct Run {
    ended: Ended,
    executed: u64,
    last: u64,
    worked: u64,
    written: Vec<u8>,
    left: usize,
}

// The input, in pieces of so many bytes.
fn source_of(
    alloc: Global,
    given: &Given,
    bytes: &[u8],
    pieces: &[usize],
) -> Result<MemSource, AllocError> {
    Ok(MemSource::new(
        Vec::from_slice(alloc, bytes)?,
        Vec::from_slice(alloc, pieces)?,
        Vec::from_slice(alloc, given.reads.as_slice())?,
    ))
}

// The output.
fn sink_of(alloc: Global, given: &Given) -> Result<MemSink, AllocError> {
    Ok(MemSink::new(
        vec![in alloc; 0u8; given.room]?,
        Vec::from_slice(alloc, given.writes.as_slice())?,
    ))
}

// How many bytes are left of the input, of 100 at most.
fn left_of(input: &mut MemSource) -> usize {
    let mut rest = [0u8; 100];
    input.take(&mut rest).unwrap_or(0)
}

// What became of a run that ended so. It stands apart, since what comes behind the serving is proved among all that it says.
fn run_of(
    alloc: Global,
    ended: Ended,
    engine: &Counting,
    input: &mut MemSource,
    output: &MemSink,
) -> Result<Run, AllocError> {
    let left = left_of(input);
    Ok(Run {
        ended,
        executed: engine.executed,
        last: engine.last,
        worked: engine.worked,
        written: Vec::from_slice(alloc, output.written())?,
        left,
    })
}

/// Serves an input that comes in pieces of so many bytes.
pub fn served(
    alloc: Global,
    given: &Given,
    bytes: &[u8],
    pieces: &[usize],
) -> Result<Run, AllocError> {
    let mut input = source_of(alloc, given, bytes, pieces)?;
    let mut output = sink_of(alloc, given)?;
    let mut engine = Counting::new(alloc);
    let moments = Vec::from_slice(alloc, given.moments.as_slice())?;
    let mut clock: Box<dyn Clock> = Box::new(alloc, ListClock::new(moments))?;
    let plans = Vec::from_slice(alloc, given.plans.as_slice())?;
    let pacer: Box<dyn Pacer> = Box::new(alloc, ListPacer::new(plans))?;
    let mut pacers = Vec::new(alloc);
    pacers.push(pacer)?;
    let mut conductor = Conductor::new(pacers, 1);
    let ended = serve_input(
        alloc,
        &mut engine,
        &mut clock,
        &mut conductor,
        &mut input,
        &mut output,
        given.limit.min(MANY_BYTES),
    );
    run_of(alloc, ended, &engine, &mut input, &output)
}

/// What became of a run.
pub fn told(alloc: Global, run: &Run) -> Result<String, AllocError> {
    let written = shown(alloc, run.written.as_slice())?;
    format!(in alloc;
        "{:?}, executed {}, at {}, worked {}, left {}: {written}",
        run.ended, run.executed, run.last, run.worked, run.left
    )
}

/// What becomes of a run over the whole input, and whether it is the same byte by byte.
pub fn told_in_pieces(alloc: Global, given: &Given, bytes: &[u8]) -> Result<String, AllocError> {
    let run = served(alloc, given, bytes, &[])?;
    let ones = vec![in alloc; 1usize; bytes.len()]?;
    let slow = served(alloc, given, bytes, ones.as_slice())?;
    let is_same = run.ended == slow.ended
        && run.executed == slow.executed
        && run.written.as_slice() == slow.written.as_slice();
    let text = told(alloc, &run)?;
    format!(in alloc; "{text} | the same in pieces: {is_same}")
}
