//! Reads calls of the maps, nodes and consumer groups of streams, a line each, and prints what each answers. The lines and the answers
//! are data: stdin and stdout. Expected faults, entries and bytes are worked out by hand from the format of stream nodes and listpacks
//! of Redis, those of groups from its command reference (XGROUP CREATE, XGROUP DESTROY, XREADGROUP, XACK, XPENDING), and those of longer
//! runs come from a sorted list.
#![tactic(auto)]

mod grouped;
mod keys;
mod nodes;
mod packed;
mod words;

use crate::grouped::Grouped;
use crate::packed::Held;
use crate::words::at;
use row_words::unknown;
use std::alloc::{AllocError, Global};
use std::io;

// What the lines work on.
#[derive(Drop)]
struct State {
    packed: Held,
    grouped: Grouped,
}

// What a line answers.
fn answer(state: &mut State, alloc: Global, line: &str) -> Result<String, AllocError> {
    let words: Vec<&str> = line.split(' ').collect(alloc)?;
    let words = words.as_slice();
    match at(words, 0) {
        "packed" => packed::answer(&mut state.packed, alloc, words),
        "node" => nodes::answer(alloc, words),
        "groups" => grouped::answer(&mut state.grouped, alloc, words),
        _ => unknown(alloc),
    }
}

fn main(rt: HostRuntime) -> io::Result<()> {
    let text = io::read_to_string(rt.alloc(), rt.stdin())?;
    let mut state = State {
        packed: Held::new(rt.alloc()),
        grouped: Grouped::new(rt.alloc()),
    };
    for line in text.lines() {
        let answered = answer(&mut state, rt.alloc(), line)?;
        println!(rt; "{line} = {answered}")?;
    }
    Ok(())
}
