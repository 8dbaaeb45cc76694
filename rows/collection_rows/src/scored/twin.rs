//! A sorted set beside a plain list.

ghost use Rattle.object_codec.specs.Limits.{AreInRange};

use super::held::Held;
use itoa::Buffer;
use object_codec::{Form, Limits};
use std::alloc::Global;
use std::cmp::Ordering;

// A sorted set beside the list of its scores by the numbers of their members.
#[derive(Drop)]
struct Twin {
    held: Held,
    scores: [Option<i64>; 64],
}

// The member of a number: its text, or so many bytes.
fn member_of<'a>(n: usize, buffer: &'a mut Buffer, filler: &'a [u8; 64]) -> &'a [u8] {
    if n % 2 == 0 {
        buffer.format(n).as_bytes()
    } else {
        &filler[..n % 64]
    }
}

// Whether the member of one number stands before that of another, by these scores.
fn stands_before(scores: [i64; 2], numbers: [usize; 2], filler: &[u8; 64]) -> bool {
    if scores[0] != scores[1] {
        return scores[0] < scores[1];
    }
    let mut one = Buffer::new();
    let mut other = Buffer::new();
    let order = member_of(numbers[0], &mut one, filler).cmp(member_of(
        numbers[1], &mut other, filler,
    ));
    match order {
        Ordering::Less => true,
        _ => false,
    }
}

impl Twin {
    fn new(alloc: Global, limits: Limits) -> Twin
        requires { AreInRange limits }
    {
        Twin {
            held: Held::new(alloc, limits),
            scores: [None; 64],
        }
    }

    // Gives a member a score, and tells whether the answer is right. A call that finds no memory leaves all as it was.
    fn set(&mut self, number: usize, filler: &[u8; 64], score: i64) -> bool {
        let n = number % 64;
        let mut buffer = Buffer::new();
        match self.held.set(member_of(n, &mut buffer, filler), score) {
            Ok(new) => {
                let wanted = self.scores[n].is_none();
                self.scores[n] = Some(score);
                new == wanted
            }
            Err(_) => true,
        }
    }

    // Takes a member out, and tells whether the answer is right. A table that finds no memory is left without the member.
    fn remove(&mut self, number: usize, filler: &[u8; 64]) -> bool {
        let n = number % 64;
        let mut buffer = Buffer::new();
        let form = self.held.set.form();
        match self.held.remove(member_of(n, &mut buffer, filler)) {
            Ok(was) => {
                let wanted = self.scores[n].is_some();
                self.scores[n] = None;
                was == wanted
            }
            Err(_) => {
                if form == Form::Skiplist {
                    self.scores[n] = None;
                }
                true
            }
        }
    }

    // How many members stand before the one of a number with this score, and how many have a lower score.
    fn counts(&self, n: usize, score: i64, filler: &[u8; 64]) -> (usize, usize) {
        let mut before: usize = 0;
        let mut below: usize = 0;
        for other in 0..64usize {
            if let Some(another) = self.scores[other] {
                if stands_before([another, score], [other, n], filler) {
                    before = before.saturating_add(1);
                }
                if another < score {
                    below = below.saturating_add(1);
                }
            }
        }
        (before, below)
    }

    // Whether the sorted set has each score at its rank, and no more members.
    fn agrees(&self, filler: &[u8; 64]) -> bool {
        let mut count: usize = 0;
        for n in 0..64usize {
            let mut buffer = Buffer::new();
            let member = member_of(n, &mut buffer, filler);
            let is_right = match self.scores[n] {
                Some(score) => {
                    let (before, below) = self.counts(n, score, filler);
                    self.held.ranks(before, member, score) && self.held.below(score) == below
                }
                None => self.held.lacks(member),
            };
            if !is_right {
                return false;
            }
            if self.scores[n].is_some() {
                count = count.saturating_add(1);
            }
        }
        self.held.set.len() == count && self.held.walked() == count && self.held.numbered() == count
    }
}

/// Whether a sorted set agrees with a plain list under 300 seeded edits.
pub fn agrees_under_edits(alloc: Global, limits: Limits) -> bool
    requires { AreInRange limits }
{
    let filler = [b'x'; 64];
    let mut twin = Twin::new(alloc, limits);
    let mut seed: u32 = 7;
    for round in 0..300 {
        seed = seed.wrapping_mul(1664525).wrapping_add(1013904223);
        let n = (seed >> 16) as usize;
        let is_right = if seed >> 13 & 3 == 0 {
            twin.remove(n, &filler)
        } else {
            twin.set(n, &filler, (seed >> 8 & 15) as i64 - 8)
        };
        if !is_right || round % 30 == 29 && !twin.agrees(&filler) {
            return false;
        }
    }
    true
}
