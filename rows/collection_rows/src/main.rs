//! Reads calls of sets, hashes and sorted sets, a line each, and prints what each answers. The lines and the answers are data: stdin
//! and stdout. Expected answers and encodings are those of the Redis command reference (SADD, SISMEMBER, SCARD, SREM, HSET, HGET,
//! HDEL, HLEN, ZADD, ZSCORE, ZRANK, ZCOUNT, ZREM, ZCARD, OBJECT ENCODING), and those of plain lists under the same edits.
#![tactic(auto)]

mod hashes;
mod scored;
mod sets;
mod words;

use crate::hashes::Hashes;
use crate::scored::SortedSets;
use crate::sets::Sets;
use crate::words::at;
use row_words::unknown;
use std::alloc::{AllocError, Global};
use std::io;

// What the lines work on.
#[derive(Drop)]
struct State {
    sets: Sets,
    hashes: Hashes,
    scored: SortedSets,
}

impl State {
    fn new(alloc: Global) -> State {
        State {
            sets: Sets::new(alloc),
            hashes: Hashes::new(alloc),
            scored: SortedSets::new(alloc),
        }
    }
}

// What a line answers.
fn answer(state: &mut State, alloc: Global, line: &str) -> Result<String, AllocError> {
    let words: Vec<&str> = line.split(' ').collect(alloc)?;
    let words = words.as_slice();
    match at(words, 0) {
        "set" => sets::answer(&mut state.sets, alloc, words),
        "hash" => hashes::answer(&mut state.hashes, alloc, words),
        "sorted" => scored::answer(&mut state.scored, alloc, words),
        _ => unknown(alloc),
    }
}

// Prints what each line answers.
fn print_answers(rt: &HostRuntime, state: &mut State, text: &str) -> io::Result<()> {
    for line in text.lines() {
        let answered = answer(state, rt.alloc(), line)?;
        println!(rt; "{line} = {answered}")?;
    }
    Ok(())
}

fn main(rt: HostRuntime) -> io::Result<()> {
    let text = io::read_to_string(rt.alloc(), rt.stdin())?;
    let mut state = State::new(rt.alloc());
    print_answers(&rt, &mut state, &text)
}
