//! Replies are put before the next take.

ghost use Rattle.std.specs.Prelude.{None, false};

use crate::counting::Counting;
use outside::{Clock, Conductor, ListClock, ReadFault, Sink, Source, WriteFault};
use serving::{Ended, serve_input};
use std::alloc::{AllocError, Global};
use std::cell::Cell;

// A source of three requests, one a take, which notes whether a reply was due at a take.
#[derive(Drop)]
struct Asking<'a> {
    puts: &'a Cell<u64>,
    asked: u64,
    is_late: bool,
}

impl Source for Asking<'_> {
    ghost seen = { λ s. record { told = None; faults = 0; sure = false } };

    fn take(&mut self, into: &mut [u8]) -> Result<usize, ReadFault> {
        if self.puts.get() != self.asked {
            self.is_late = true;
        }
        if self.asked >= 3 {
            return Ok(0);
        }
        self.asked += 1;
        let request = b"*1\r\n$1\r\na\r\n".as_slice();
        let count = request.len().min(into.len());
        into[..count].copy_from_slice(&request[..count]);
        Ok(count)
    }
}

// A sink that counts its puts.
#[derive(Drop)]
struct Counted<'a> {
    puts: &'a Cell<u64>,
}

impl Sink for Counted<'_> {
    ghost seen = { λ s. record { told = None; faults = 0; room = None } };

    fn put(&mut self, piece: &[u8]) -> Result<usize, WriteFault> {
        self.puts.set(self.puts.get().saturating_add(1));
        Ok(piece.len())
    }
}

/// Whether each of three replies is put before the next take.
pub fn puts_come_before_takes(alloc: Global) -> Result<bool, AllocError> {
    let puts = Cell::new(0u64);
    let mut input = Asking {
        puts: &puts,
        asked: 0,
        is_late: false,
    };
    let mut output = Counted { puts: &puts };
    let mut engine = Counting::new(alloc);
    let mut clock: Box<dyn Clock> = Box::new(alloc, ListClock::new(Vec::new(alloc)))?;
    let mut conductor = Conductor::new(Vec::new(alloc), 1);
    let ended = serve_input(
        alloc,
        &mut engine,
        &mut clock,
        &mut conductor,
        &mut input,
        &mut output,
        1_000_000,
    );
    Ok(ended == Ended::Whole && !input.is_late && puts.get() == 3)
}
