//! Reads calls of packed lists and packed sets of numbers, a line each, and prints what each answers. The lines and the answers are
//! data: stdin and stdout. Expected faults and bytes of listpacks come from a reading of the listpack specification that was written
//! apart, those of sets by hand from the layout in `intset.h` of Redis, and those of longer runs from a sorted list.
#![tactic(auto)]

mod faults;
mod held;
mod lists;
mod numbers;
mod twin;
mod walks;

use crate::held::Held;
use crate::numbers::Numbers;
use row_words::unknown;
use std::alloc::{AllocError, Global};
use std::io;

// What the lines work on.
#[derive(Drop)]
struct State {
    held: Held,
    numbers: Numbers,
}

// What a line answers.
fn answer(state: &mut State, alloc: Global, line: &str) -> Result<String, AllocError> {
    let words: Vec<&str> = line.split(' ').collect(alloc)?;
    match words.as_slice() {
        ["list", words @ ..] => lists::answer(&mut state.held, alloc, words),
        ["bytes", words @ ..] => walks::answer(alloc, words),
        ["set", words @ ..] => numbers::answer(&mut state.numbers, alloc, words),
        _ => unknown(alloc),
    }
}

fn main(rt: HostRuntime) -> io::Result<()> {
    let text = io::read_to_string(rt.alloc(), rt.stdin())?;
    let mut state = State {
        held: Held::new(rt.alloc())?,
        numbers: Numbers::new(rt.alloc())?,
    };
    for line in text.lines() {
        let answered = answer(&mut state, rt.alloc(), line)?;
        println!(rt; "{line} = {answered}")?;
    }
    Ok(())
}
