//! Calls of which each placing is refused in its turn.

use super::held::{Held, limits};
use itoa::Buffer;
use object_codec::Form;
use std::alloc::Global;
use zset_object::Memory;

impl Held {
    // Whether the sorted set has the numbers below one at their ranks and no other member, in this form.
    fn is_whole(&self, count: u32, form: Form) -> bool {
        for n in 0..count {
            if !self.ranks(n as usize, Buffer::new().format(n).as_bytes(), n as i64) {
                return false;
            }
        }
        let met = [self.set.len(), self.walked(), self.numbered()];
        self.set.form() == form && met == [count as usize; 3]
    }

    // Whether the answer of a call and what it leaves are right.
    fn call(&mut self, name: &str, member: &[u8], score: i64) -> Result<bool, Memory> {
        match name {
            "set" => {
                let is_new = self.lacks(member);
                Ok(self.set(member, score)? == is_new && self.score(member) == Some(score))
            }
            "remove" => Ok(self.remove(member)? && self.lacks(member)),
            _ => self.is_copied(),
        }
    }

    // How many placings a call takes on a sorted set of the numbers below one, which is whole each time that the store refuses the
    // next one.
    fn placings(&mut self, count: u32, name: &str, member: &[u8], score: i64) -> Option<usize> {
        let form = self.set.form();
        for left in 0..64usize {
            self.store.allow(left);
            let answer = self.call(name, member, score);
            self.store.allow_all();
            if let Ok(is_right) = answer {
                return if is_right { Some(left) } else { None };
            }
            if !self.is_whole(count, form) {
                return None;
            }
        }
        None
    }
}

/// How many placings a call takes on a sorted set of the numbers below one, by a limit of 3 members. None where its answer is wrong,
/// or where a refused call leaves another sorted set.
pub fn placings(
    alloc: Global,
    count: u32,
    name: &str,
    pair: (&[u8], i64),
) -> Result<Option<usize>, Memory> {
    let (member, score) = pair;
    let mut held = Held::new(alloc, limits(3, 64));
    held.set_numbers(count)?;
    Ok(held.placings(count, name, member, score))
}
