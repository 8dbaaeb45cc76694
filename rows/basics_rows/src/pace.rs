//! Lines on clocks and on plans: each form once. Expected answers are worked out by hand from what a form is given.

use crate::texts::{add, no_calls, numbers};
use outside::{Clock, Conductor, ListClock, ListPacer, Pacer, Plan, SteadyPacer, SystemClock};
use row_words::{number, told, unknown};
use std::alloc::{AllocError, Global};
use std::cell::Cell;
use std::io::ErrorKind;
use std::time::Duration;
use std::{io, time};

// A clock that can be read each second time, and tells its count of readings in seconds.
#[derive(Drop)]
struct Stopped {
    readings: Cell<u64>,
}

impl time::Clock for Stopped {
    fn monotonic(&self) -> io::Result<Duration> {
        Ok(Duration::ZERO)
    }

    fn since_1970(&self) -> io::Result<Duration> {
        let reading = self.readings.get().saturating_add(1);
        self.readings.set(reading);
        if reading % 2 == 0 {
            Ok(Duration::from_secs(reading))
        } else {
            Err(io::Error::from(ErrorKind::Unsupported))
        }
    }
}

// So many moments of a clock.
fn moments<C: Clock>(alloc: Global, clock: &mut C, count: u64) -> Result<String, AllocError> {
    let mut told = no_calls(alloc)?;
    for _ in 0..count {
        let moment = clock.now();
        let step = format!(in alloc; " {moment};")?;
        add(&mut told, &step)?;
    }
    Ok(told)
}

// A plan: its steps of rehashing, of packing and of search for keys that are gone.
fn plan_shown(alloc: Global, plan: Plan) -> Result<String, AllocError> {
    let (rehash, defrag, expire) = (plan.rehash, plan.defrag, plan.expire);
    format!(in alloc; " {rehash} {defrag} {expire};")
}

// A plan of so many steps of rehashing.
fn rehashing(rehash: u32) -> Plan {
    Plan {
        rehash,
        defrag: 0,
        expire: 0,
    }
}

// A pacer of one plan, or of none for the word `none`.
fn pacer_of(alloc: Global, word: &str) -> Result<ListPacer, AllocError> {
    let mut plans = Vec::new(alloc);
    if word != "none" {
        plans.push(rehashing(u32::try_from(number(word)).unwrap_or(0)))?;
    }
    Ok(ListPacer::new(plans))
}

// So many plans of a conductor with an effort of 3 over the pacers of these words.
fn conducted(alloc: Global, count: u64, words: &[&str]) -> Result<String, AllocError> {
    let mut pacers: Vec<Box<dyn Pacer>> = Vec::new(alloc);
    for word in words {
        if *word == "steady" {
            pacers.push(Box::new(alloc, SteadyPacer::new())?)?;
        } else {
            pacers.push(Box::new(alloc, pacer_of(alloc, word)?)?)?;
        }
    }
    let mut conductor = Conductor::new(pacers, 3);
    let mut told = no_calls(alloc)?;
    for _ in 0..count {
        let step = plan_shown(alloc, conductor.next())?;
        add(&mut told, &step)?;
    }
    Ok(told)
}

// Whether the real clock is past a moment.
fn is_past(rt: &HostRuntime, moment: u64) -> bool {
    SystemClock::new(rt).now() > moment
}

/// What a line of these words answers.
pub fn answer(rt: &HostRuntime, call: &str, words: &[&str]) -> Result<String, AllocError> {
    let alloc = rt.alloc();
    match (call, words) {
        ("clock", [count, answers @ ..]) => {
            let mut clock = ListClock::new(numbers(alloc, answers)?);
            moments(alloc, &mut clock, number(count))
        }
        // Where it can't be read the last answer comes again, at first 0.
        ("stopped", [count]) => {
            let readings = Cell::new(0);
            let mut clock = SystemClock::new(Stopped { readings });
            moments(alloc, &mut clock, number(count))
        }
        ("real", [moment]) => told(alloc, is_past(rt, number(moment))),
        ("conductor", [count, words @ ..]) => conducted(alloc, number(count), words),
        _ => unknown(alloc),
    }
}
