//! Reads calls of the store in slabs, a line each, and prints what each answers. The lines and the answers are data: stdin and stdout.
//! Expected numbers follow by hand from the rule of placing (a slab is 65,536 bytes, a block goes into the lowest-numbered slab of its
//! class that has room, else to the least free number, and a block of more than 14,336 bytes stands alone), and from a plain model.
#![tactic(auto)]

mod calls;
mod entries;
mod lines;
mod plain;
mod regions;
mod twin;
mod words;

use crate::lines::{State, answer};
use std::io;

fn main(rt: HostRuntime) -> io::Result<()> {
    let text = io::read_to_string(rt.alloc(), rt.stdin())?;
    let mut state = State::new(rt.alloc())?;
    for line in text.lines() {
        let answered = answer(&mut state, rt.alloc(), line)?;
        println!(rt; "{line} = {answered}")?;
    }
    Ok(())
}
