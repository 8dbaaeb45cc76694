//! Reads calls of lists and tables of scores, a line each, and prints what each answers. The lines and the answers are data: stdin
//! and stdout. Expected orders are those of the Redis command reference (sorted sets: by score, then by the members' bytes), and those
//! of a plain vector under the same edits.
#![tactic(auto)]

mod lists;
mod tables;
mod words;

use crate::words::at;
use row_words::unknown;
use std::alloc::{AllocError, Global};
use std::io;

// What the lines work on.
#[derive(Drop)]
struct State {
    list: lists::Held,
    table: tables::Held,
}

// What a line answers.
fn answer(state: &mut State, alloc: Global, line: &str) -> Result<String, AllocError> {
    let words: Vec<&str> = line.split(' ').collect(alloc)?;
    let words = words.as_slice();
    match at(words, 0) {
        "list" => lists::answer(&mut state.list, alloc, words),
        "table" => tables::answer(&mut state.table, alloc, words),
        _ => unknown(alloc),
    }
}

fn main(rt: HostRuntime) -> io::Result<()> {
    let text = io::read_to_string(rt.alloc(), rt.stdin())?;
    let mut state = State {
        list: lists::Held::new(rt.alloc())?,
        table: tables::Held::new(rt.alloc()),
    };
    for line in text.lines() {
        let answered = answer(&mut state, rt.alloc(), line)?;
        println!(rt; "{line} = {answered}")?;
    }
    Ok(())
}
