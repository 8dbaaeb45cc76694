//! Reads calls of the small libraries, a line each, and prints what each answers. The lines and the answers are data: stdin and
//! stdout. Where the expected answers come from is said at the head of each module.
#![tactic(auto)]

mod blocks_kept;
mod cursors;
mod digests_of;
mod files;
mod forms;
mod kept;
mod numbers;
mod pace;
mod patterns;
mod streams;
mod strings;
mod strings_held;
mod texts;

use crate::kept::Kept;
use crate::strings_held::Held;
use row_words::unknown;
use std::alloc::{AllocError, Global};
use std::io;

// What the lines work on.
#[derive(Drop)]
struct State {
    kept: Kept,
    held: Held,
}

// What a line on values answers.
fn on_values(
    alloc: Global,
    module: &str,
    call: &str,
    text: &str,
    words: &[&str],
) -> Result<String, AllocError> {
    match module {
        "number" => numbers::answer(alloc, call, text),
        "pattern" => patterns::answer(alloc, call, words),
        "digest" => digests_of::answer(alloc, call, words),
        "cursor" => cursors::answer(alloc, call, words),
        "form" => forms::answer(alloc, call, words),
        "stream" => streams::answer(alloc, call, words),
        _ => unknown(alloc),
    }
}

// What a line answers.
fn answer(state: &mut State, rt: &HostRuntime, line: &str) -> io::Result<String> {
    let alloc = rt.alloc();
    let (module, rest) = line.split_once(' ').unwrap_or((line, ""));
    let (call, text) = rest.split_once(' ').unwrap_or((rest, ""));
    let words: Vec<&str> = text.split(' ').collect(alloc)?;
    match module {
        "block" => Ok(blocks_kept::answer(&mut state.kept, alloc, call, words.as_slice())?),
        "string" => Ok(strings::answer(&mut state.held, alloc, call, words.as_slice())?),
        "file" => files::answer(rt, call, words.as_slice()),
        "pace" => Ok(pace::answer(rt, call, words.as_slice())?),
        _ => Ok(on_values(alloc, module, call, text, words.as_slice())?),
    }
}

fn main(rt: HostRuntime) -> io::Result<()> {
    let text = io::read_to_string(rt.alloc(), rt.stdin())?;
    let mut state = State {
        kept: Kept::new(rt.alloc())?,
        held: Held::new(rt.alloc())?,
    };
    for line in text.lines() {
        let answered = answer(&mut state, &rt, line)?;
        println!(rt; "{line} = {answered}")?;
    }
    Ok(())
}
