//! A table of scores beside the plain scores that it should have.

use super::held::Held;
use std::alloc::Global;

// A table of scores beside the plain scores that it should have. Each member is one byte.
#[derive(Drop)]
struct Twin {
    held: Held,
    scores: [Option<i64>; 64],
}

impl Twin {
    // How many plain pairs stand before one.
    fn place(&self, score: i64, member: usize) -> usize {
        let mut count: usize = 0;
        for n in 0..64usize {
            if let Some(other) = self.scores[n] {
                if other < score || (other == score && n < member) {
                    count = count.saturating_add(1);
                }
            }
        }
        count
    }

    // Sets a score in both or takes a member out of both, and tells whether the answer is right. A call that finds no memory leaves
    // all.
    fn edit(&mut self, number: usize, score: i64, sets: bool) -> bool {
        let n = number % 64;
        let member = [n as u8];
        if !sets {
            let right = self.held.take_out(&member) == self.scores[n];
            self.scores[n] = None;
            return right;
        }
        match self.held.set(score, &member) {
            Ok(new) => {
                let right = new == self.scores[n].is_none();
                self.scores[n] = Some(score);
                right
            }
            Err(_) => true,
        }
    }

    fn agrees(&self) -> bool {
        let mut count: usize = 0;
        for n in 0..64usize {
            let member = [n as u8];
            let rank = self.held.rank(&member);
            match self.scores[n] {
                Some(score) => {
                    let place = self.place(score, n);
                    if rank != Some(place) || !self.held.is_at(place, score, &member) {
                        return false;
                    }
                    count = count.saturating_add(1);
                }
                None => {
                    if rank.is_some() {
                        return false;
                    }
                }
            }
        }
        self.held.table.len() == count
    }
}

/// Whether a table has the scores that it should have under so many seeded edits.
pub fn edits(alloc: Global, count: u64) -> bool {
    let mut twin = Twin {
        held: Held::new(alloc),
        scores: [None; 64],
    };
    let mut seed: u32 = 7;
    for round in 0..count {
        seed = seed.wrapping_mul(1664525).wrapping_add(1013904223);
        let grows = round / 200 != 1;
        let sets = (seed >> 13 & 3 != 0) == grows;
        let score = i64::from(seed >> 24 & 7) - 3;
        if !twin.edit((seed >> 16) as usize, score, sets) {
            return false;
        }
        if round % 50 == 49 && !twin.agrees() {
            return false;
        }
    }
    true
}
