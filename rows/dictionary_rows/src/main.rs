//! Reads calls of dictionaries and of deadlines, a line each, and prints what each answers. The lines and the answers are data:
//! stdin and stdout. The layout of the buckets and the order of a scan are those of `dict.c` of Redis, worked out by hand.
#![tactic(auto)]

mod agreeing;
mod bare;
mod cycles;
mod deadlines;
mod held;
mod keyed;
mod plain;
mod refusals;
mod scanning;
mod timed;
mod words;

use crate::bare::Bare;
use crate::deadlines::Found;
use crate::held::Held;
use crate::words::at;
use row_words::unknown;
use std::alloc::{AllocError, Global};
use std::io;

// What the lines work on.
#[derive(Drop)]
struct State {
    held: Held,
    bare: Bare,
    found: Found,
}

// What a line answers.
fn answer(state: &mut State, alloc: Global, line: &str) -> Result<String, AllocError> {
    let words: Vec<&str> = line.split(' ').collect(alloc)?;
    let words = words.as_slice();
    match at(words, 0) {
        "keyed" => keyed::answer(&mut state.held, alloc, words),
        "bare" => bare::answer(&mut state.bare, alloc, words),
        "deadlines" => deadlines::answer(&mut state.found, alloc, words),
        _ => unknown(alloc),
    }
}

fn main(rt: HostRuntime) -> io::Result<()> {
    let text = io::read_to_string(rt.alloc(), rt.stdin())?;
    let mut state = State {
        held: Held::new(rt.alloc()),
        bare: Bare::new(rt.alloc()),
        found: Found::new(rt.alloc()),
    };
    for line in text.lines() {
        let answered = answer(&mut state, rt.alloc(), line)?;
        println!(rt; "{line} = {answered}")?;
    }
    Ok(())
}
