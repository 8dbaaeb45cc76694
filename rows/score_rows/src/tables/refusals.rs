//! Calls that may be refused memory: each leaves all then, and goes through when it is asked again.

use super::held::Held;
use score_table::Memory;
use std::alloc::Global;

impl Held {
    // Puts a member in, and tells whether a refused call left all and one that is asked again finds it new.
    fn takes_again(&mut self, score: i64, member: &[u8]) -> Result<bool, Memory> {
        let count = self.table.len();
        match self.set(score, member) {
            Ok(is_new) => Ok(is_new),
            Err(_) => {
                let is_left = self.lacks(member) && self.table.len() == count;
                Ok(self.set(score, member)? && is_left)
            }
        }
    }

    // Puts so many members of one byte in, and tells whether each went as it should.
    fn fills(&mut self, count: u8) -> Result<bool, Memory> {
        for n in 0..count {
            let is_right = self.takes_again(i64::from(n % 7), &[n])?;
            if !is_right || self.table.len() != n as usize + 1 {
                return Ok(false);
            }
        }
        Ok(true)
    }

    // Gives a member that is there another score, and tells whether a refused call left the old one.
    fn rescores_again(&mut self, old: i64, new: i64, member: &[u8]) -> Result<bool, Memory> {
        match self.set(new, member) {
            Ok(is_new) => Ok(!is_new),
            Err(_) => {
                let is_left = self.score(member) == Some(old);
                Ok(!self.set(new, member)? && is_left)
            }
        }
    }

    // How many of these members of one byte are taken out.
    fn lose(&mut self, from: u8, to: u8) -> usize {
        let mut count: usize = 0;
        for n in from..to {
            let was = self.take_out(&[n]).is_some();
            count = count.saturating_add(usize::from(was));
        }
        count
    }

    // Whether a table that should shrink begins to, where it is refused once.
    fn shrinks_again(&mut self) -> Result<bool, Memory> {
        match self.shrink() {
            Ok(began) => Ok(began),
            Err(_) => self.shrink(),
        }
    }
}

// Whether the members of the bytes 0 and 1 are left, with these numbers for scores.
fn has_two(held: &Held) -> bool {
    held.ranks(0, 0, &[0]) && held.ranks(1, 1, &[1]) && held.ends_at(2) && held.walked() == 2
}

/// Whether a table of 60 members stands after any refusal, changes a score, and shrinks behind all members but two.
pub fn spares(alloc: Global) -> Result<bool, Memory> {
    let mut held = Held::new(alloc);
    if !held.fills(60)? || !held.rescores_again(3, -1, &[59])? {
        return Ok(false);
    }
    if !held.is_at(0, -1, &[59]) || held.lose(2, 60) != 58 {
        return Ok(false);
    }
    Ok(held.shrinks_again()? && has_two(&held))
}
