//! Reads items and files of the RDB format, a line each, and prints what each is read as. The lines and the answers are data:
//! stdin and stdout.
#![tactic(auto)]

mod lines;
mod standing;

use crate::lines::{State, answer};
use std::io;

fn main(rt: HostRuntime) -> io::Result<()> {
    let text = io::read_to_string(rt.alloc(), rt.stdin())?;
    let mut state = State::new(rt.alloc())?;
    for line in text.lines() {
        let answered = answer(&mut state, rt.alloc(), line)?;
        let between = if answered.is_empty() { "" } else { " = " };
        println!(rt; "{line}{between}{answered}")?;
    }
    Ok(())
}
