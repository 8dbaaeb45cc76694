//! Calls of which each placing is refused in its turn.

use super::held::{Held, limits};
use object_codec::Form;
use set_object::Memory;
use std::alloc::Global;

impl Held {
    // Whether the set has the numbers below one and no other member, in this form.
    fn is_whole(&self, count: u32, form: Form) -> bool {
        let there = [self.count_numbers(0, count), self.set.len(), self.walked()];
        self.set.form() == form && there == [count as usize; 3]
    }

    // Whether a copy, which takes the place of the set, has its form and as many members.
    fn is_copied(&mut self) -> Result<bool, Memory> {
        let (form, count) = (self.set.form(), self.set.len());
        self.copied()?;
        Ok(self.set.form() == form && self.walked() == count)
    }

    // Whether a member is new, was there, or a copy is right.
    fn call(&mut self, name: &str, member: &[u8]) -> Result<bool, Memory> {
        match name {
            "add" => self.add(member),
            "remove" => self.remove(member),
            _ => self.is_copied(),
        }
    }

    // How many placings a call takes on a set of the numbers below one, which is whole each time that the store refuses the next one.
    fn placings(&mut self, count: u32, name: &str, member: &[u8]) -> Option<usize> {
        let form = self.set.form();
        for left in 0..64usize {
            self.store.allow(left);
            let answer = self.call(name, member);
            self.store.allow_all();
            if let Ok(is_right) = answer {
                return if is_right { Some(left) } else { None };
            }
            if !self.is_whole(count, form) {
                return None;
            }
        }
        None
    }
}

/// How many placings a call takes on a set of the numbers below one, by limits of 2 numbers and 4 members. None where it doesn't
/// answer `true`, or where a refused call leaves another set.
pub fn placings(
    alloc: Global,
    count: u32,
    name: &str,
    member: &[u8],
) -> Result<Option<usize>, Memory> {
    let mut held = Held::new(alloc, limits(2, 4, 64));
    held.add_numbers(0, count)?;
    Ok(held.placings(count, name, member))
}
