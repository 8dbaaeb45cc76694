//! Reads streams, requests and runs of a small engine, a line each, and prints what each comes to. The lines and the answers are
//! data: stdin and stdout.
#![tactic(auto)]

mod command;
mod command_lines;
mod counting;
mod due;
mod frame_lines;
mod frames;
mod list_lines;
mod member_lines;
mod score_lines;
mod served;
mod serving_lines;
mod stream_lines;

use crate::command::command;
use crate::served::Given;
use std::alloc::{AllocError, Global};
use std::io;

// What a line answers.
fn answer(given: &mut Given, alloc: Global, line: &str) -> Result<String, AllocError> {
    let (name, rest) = line.split_once(' ').unwrap_or((line, ""));
    if name == "command" {
        return command(alloc, rest);
    }
    match frame_lines::answer(alloc, name, rest)? {
        Some(text) => Ok(text),
        None => serving_lines::answer(given, alloc, name, rest),
    }
}

fn main(rt: HostRuntime) -> io::Result<()> {
    let text = io::read_to_string(rt.alloc(), rt.stdin())?;
    let mut given = Given::new(rt.alloc());
    for line in text.lines() {
        let answered = answer(&mut given, rt.alloc(), line)?;
        let between = if answered.is_empty() { "" } else { " = " };
        println!(rt; "{line}{between}{answered}")?;
    }
    Ok(())
}
