//! Reads lines of engines and of a keyspace, and prints what each answers. The lines and the answers are data: stdin and stdout.
#![tactic(auto)]

mod asking;
mod auditing;
mod engine_lines;
mod keyspace_lines;
mod packing;
mod scanning;
mod standing;

use crate::auditing::InSlabs;
use crate::engine_lines::Asked;
use crate::standing::Held;
use std::alloc::{AllocError, Global};
use std::io;

// What a line answers.
fn answer(
    asked: &mut Asked,
    held: &mut Held,
    in_slabs: &mut InSlabs,
    alloc: Global,
    line: &str,
) -> Result<String, AllocError> {
    let (name, rest) = line.split_once(' ').unwrap_or((line, ""));
    if name == "//" {
        return Ok(String::new(alloc));
    }
    if let Some(text) = engine_lines::answer(asked, alloc, name, rest)? {
        return Ok(text);
    }
    match auditing::answer(in_slabs, alloc, name, rest)? {
        Some(text) => Ok(text),
        None => keyspace_lines::answer(held, alloc, line),
    }
}

fn main(rt: HostRuntime) -> io::Result<()> {
    let text = io::read_to_string(rt.alloc(), rt.stdin())?;
    let mut asked = Asked::new(rt.alloc())?;
    let mut held = Held::new(rt.alloc())?;
    let mut in_slabs = InSlabs::new(rt.alloc())?;
    for line in text.lines() {
        let answered = answer(&mut asked, &mut held, &mut in_slabs, rt.alloc(), line)?;
        let between = if answered.is_empty() { "" } else { " = " };
        println!(rt; "{line}{between}{answered}")?;
    }
    Ok(())
}
