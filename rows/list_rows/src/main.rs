//! Reads calls of a list, a line each, and prints what each answers. The lines and the answers are data: stdin and stdout. Expected
//! answers are those of the Redis command reference of lists (LINSERT, LSET, LINDEX, LREM, LTRIM, OBJECT ENCODING), and those of a
//! plain vector under the same edits.
#![tactic(auto)]

mod held;
mod lines;
mod texts;
mod twin;

use crate::held::Held;
use crate::lines::answer;
use std::io;

fn main(rt: HostRuntime) -> io::Result<()> {
    let text = io::read_to_string(rt.alloc(), rt.stdin())?;
    let mut held = Held::new(rt.alloc());
    for line in text.lines() {
        let answered = answer(&mut held, rt.alloc(), line)?;
        println!(rt; "{line} = {answered}")?;
    }
    Ok(())
}
