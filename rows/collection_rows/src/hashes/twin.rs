//! A hash beside a plain list.

ghost use Rattle.object_codec.specs.Limits.{AreInRange};

use super::held::Held;
use itoa::Buffer;
use object_codec::{Form, Limits};
use std::alloc::Global;

// A hash beside the list of its values by the numbers of their fields.
#[derive(Drop)]
struct Twin {
    held: Held,
    values: [Option<u32>; 64],
}

// The field of a number: its text, or so many bytes.
fn field_of<'a>(n: usize, buffer: &'a mut Buffer, filler: &'a [u8; 64]) -> &'a [u8] {
    if n % 2 == 0 {
        buffer.format(n).as_bytes()
    } else {
        &filler[..n % 64]
    }
}

impl Twin {
    fn new(alloc: Global, limits: Limits) -> Twin
        requires { AreInRange limits }
    {
        Twin {
            held: Held::new(alloc, limits),
            values: [None; 64],
        }
    }

    // Gives a field a value, and tells whether the answer is right. A call that finds no memory leaves all as it was.
    fn set(&mut self, number: usize, filler: &[u8; 64], value: u32) -> bool {
        let n = number % 64;
        let mut buffer = Buffer::new();
        let field = field_of(n, &mut buffer, filler);
        match self.held.set(field, Buffer::new().format(value).as_bytes()) {
            Ok(new) => {
                let wanted = self.values[n].is_none();
                self.values[n] = Some(value);
                new == wanted
            }
            Err(_) => true,
        }
    }

    // Takes a field out, and tells whether the answer is right. A dictionary that finds no memory is left without the field.
    fn remove(&mut self, number: usize, filler: &[u8; 64]) -> bool {
        let n = number % 64;
        let mut buffer = Buffer::new();
        let field = field_of(n, &mut buffer, filler);
        let form = self.held.hash.form();
        match self.held.remove(field) {
            Ok(was) => {
                let wanted = self.values[n].is_some();
                self.values[n] = None;
                was == wanted
            }
            Err(_) => {
                if form == Form::Hashtable {
                    self.values[n] = None;
                }
                true
            }
        }
    }

    // Whether the hash has each value, and no more fields.
    fn agrees(&self, filler: &[u8; 64]) -> bool {
        let mut count: usize = 0;
        for n in 0..64usize {
            let mut buffer = Buffer::new();
            let field = field_of(n, &mut buffer, filler);
            let is_right = match self.values[n] {
                Some(value) => self.held.has(field, Buffer::new().format(value).as_bytes()),
                None => self.held.lacks(field),
            };
            if !is_right {
                return false;
            }
            if self.values[n].is_some() {
                count = count.saturating_add(1);
            }
        }
        self.held.hash.len() == count
            && self.held.walked() == count
            && self.held.numbered() == count
    }
}

/// Whether a hash agrees with a plain list under 300 seeded edits.
pub fn agrees_under_edits(alloc: Global, limits: Limits) -> bool
    requires { AreInRange limits }
{
    let filler = [b'x'; 64];
    let mut twin = Twin::new(alloc, limits);
    let mut seed: u32 = 7;
    for round in 0..300 {
        seed = seed.wrapping_mul(1664525).wrapping_add(1013904223);
        let n = (seed >> 16) as usize;
        let is_right = if seed >> 13 & 3 == 0 {
            twin.remove(n, &filler)
        } else {
            twin.set(n, &filler, seed >> 8)
        };
        if !is_right || round % 30 == 29 && !twin.agrees(&filler) {
            return false;
        }
    }
    true
}
