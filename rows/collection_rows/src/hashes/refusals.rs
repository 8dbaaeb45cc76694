//! Calls of which each placing is refused in its turn.

use super::held::{Held, limits};
use hash_object::Memory;
use object_codec::Form;
use std::alloc::Global;

impl Held {
    // Whether the hash has the numbers below one and no other field, in this form.
    fn is_whole(&self, count: u32, form: Form) -> bool {
        let there = [self.count_numbers(64), self.hash.len()];
        let met = [self.walked(), self.numbered()];
        self.hash.form() == form && there == [count as usize; 2] && met == [count as usize; 2]
    }

    // Whether a field is new, was there, or a copy is right.
    fn call(&mut self, name: &str, field: &[u8], value: &[u8]) -> Result<bool, Memory> {
        match name {
            "set" => self.set(field, value),
            "remove" => self.remove(field),
            _ => self.is_copied(),
        }
    }

    // How many placings a call takes on a hash of the numbers below one, which is whole each time that the store refuses the next one.
    fn placings(&mut self, count: u32, name: &str, field: &[u8], value: &[u8]) -> Option<usize> {
        let form = self.hash.form();
        for left in 0..64usize {
            self.store.allow(left);
            let answer = self.call(name, field, value);
            self.store.allow_all();
            if let Ok(is_right) = answer {
                return if is_right { Some(left) } else { None };
            }
            if !self.is_whole(count, form) {
                return None;
            }
        }
        None
    }
}

/// How many placings a call takes on a hash of the numbers below one, by a limit of 3 fields. None where it doesn't answer `true`, or
/// where a refused call leaves another hash.
pub fn placings(
    alloc: Global,
    count: u32,
    name: &str,
    pair: (&[u8], &[u8]),
) -> Result<Option<usize>, Memory> {
    let (field, value) = pair;
    let mut held = Held::new(alloc, limits(3, 64));
    held.set_numbers(count)?;
    Ok(held.placings(count, name, field, value))
}
