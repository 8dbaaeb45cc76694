//! A small engine.

ghost use Rattle.std.specs.Prelude.{⊤, [], bytes_eq, codes, slice_index_or};

use outside::Plan;
use plain_world::{Memory, Reply};
use resp_frames::Request;
use serving::{Done, Server};
use std::alloc::{AllocError, Global};

/// Answers each request with the number of its words, and ends the run with `QUIT`. At `FULL` memory is refused. It sums up the
/// steps that were planned, each by the moment at which they were.
#[derive(Drop)]
pub struct Counting {
    alloc: Global,
    pub executed: u64,
    /// The last moment in milliseconds.
    pub last: u64,
    pub worked: u64,
    is_spent: bool,
}

impl Server for Counting {
    ghost executes = { λ moment old words reply new. ⊤ };

    ghost works = { λ moment plan old new. ⊤ };

    ghost quits = { λ words. bytes_eq (slice_index_or words 0 []) (codes "QUIT") };

    ghost spent = { λ engine. engine.is_spent };

    fn background(&mut self, plan: Plan, moment: u64) {
        let steps = plan.rehash as u64 + 2 * plan.defrag as u64 + 3 * plan.expire as u64;
        self.worked = self.worked.wrapping_add(steps.wrapping_mul(moment));
    }

    fn execute(&mut self, request: &Request<'_>, moment: u64) -> Result<Done, Memory> {
        if self.is_spent {
            return Err(AllocError);
        }
        self.executed = self.executed.saturating_add(1);
        self.last = moment;
        let count = request.len();
        let quit = request.word(0) == b"QUIT".as_slice();
        if request.word(0) == b"FULL".as_slice() {
            self.is_spent = true;
            return Err(AllocError);
        }
        match Reply::number(self.alloc, count as i64) {
            Ok(reply) => Ok(Done { reply, quit }),
            Err(_) => {
                self.is_spent = true;
                Err(AllocError)
            }
        }
    }
}

impl Counting {
    pub fn new(alloc: Global) -> Counting {
        Counting {
            alloc,
            executed: 0,
            last: 0,
            worked: 0,
            is_spent: false,
        }
    }
}
