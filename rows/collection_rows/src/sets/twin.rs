//! A set beside a plain one.

ghost use Rattle.object_codec.specs.Limits.{AreInRange};

use super::held::Held;
use itoa::Buffer;
use object_codec::{Form, Limits};
use std::alloc::Global;

// Which members a set has, beside the set. Each has a number below 64, whose text it is where that is even, and else so many bytes.
#[derive(Drop)]
struct Twin {
    held: Held,
    has: [bool; 64],
}

fn member_of<'a>(n: usize, buffer: &'a mut Buffer, filler: &'a [u8; 64]) -> &'a [u8] {
    if n % 2 == 0 {
        buffer.format(n).as_bytes()
    } else {
        &filler[..n % 64]
    }
}

impl Twin {
    fn new(alloc: Global, limits: Limits) -> Twin
        requires { AreInRange limits }
    {
        Twin {
            held: Held::new(alloc, limits),
            has: [false; 64],
        }
    }

    // Puts a member in or takes it out, and tells whether the answer is right. A call that finds no memory leaves all as it was, but
    // a dictionary without the member that was to go.
    fn edit(&mut self, number: usize, filler: &[u8; 64], adds: bool) -> bool {
        let n = number % 64;
        let mut buffer = Buffer::new();
        let member = member_of(n, &mut buffer, filler);
        let form = self.held.set.form();
        let answer = if adds {
            self.held.add(member)
        } else {
            self.held.remove(member)
        };
        match answer {
            Ok(changed) => {
                let wanted = self.has[n] != adds;
                self.has[n] = adds;
                changed == wanted
            }
            Err(_) => {
                if !adds && form == Form::Hashtable {
                    self.has[n] = false;
                }
                true
            }
        }
    }

    fn agrees(&self, filler: &[u8; 64]) -> bool {
        let mut count: usize = 0;
        for n in 0..64usize {
            let mut buffer = Buffer::new();
            if self.held.has(member_of(n, &mut buffer, filler)) != self.has[n] {
                return false;
            }
            if self.has[n] {
                count = count.saturating_add(1);
            }
        }
        self.held.set.len() == count && self.held.walked() == count
    }
}

/// Whether a set agrees with a plain one under 300 seeded edits, with members whose number is within a mask.
pub fn agrees_under_edits(alloc: Global, limits: Limits, mask: usize) -> bool
    requires { AreInRange limits }
{
    let filler = [b'x'; 64];
    let mut twin = Twin::new(alloc, limits);
    let mut seed: u32 = 7;
    for round in 0..300 {
        seed = seed.wrapping_mul(1664525).wrapping_add(1013904223);
        let n = (seed >> 16) as usize & mask;
        if !twin.edit(n, &filler, seed >> 13 & 3 != 0) {
            return false;
        }
        if round % 30 == 29 && !twin.agrees(&filler) {
            return false;
        }
    }
    true
}
