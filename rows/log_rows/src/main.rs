//! Reads calls of a stream, a line each, and prints what each answers. The lines and the answers are data: stdin and stdout. Expected
//! answers are those of the Redis command reference of streams (XADD, XDEL, XLEN, XRANGE, XREVRANGE, XTRIM, XGROUP CREATE,
//! XREADGROUP, XACK, COPY), those of a plain list under the same edits, and the entries that a node of a file has by its format.
#![tactic(auto)]

mod held;
mod lines;
mod loads;
mod texts;
mod twin;

use crate::held::Held;
use crate::lines::answer;
use std::io;

fn main(rt: HostRuntime) -> io::Result<()> {
    let text = io::read_to_string(rt.alloc(), rt.stdin())?;
    let mut held = Held::new(rt.alloc());
    for line in text.lines() {
        let answered = answer(&mut held, rt.alloc(), line)?;
        println!(rt; "{line} = {answered}")?;
    }
    Ok(())
}
