//! A stream beside a plain list.

use crate::held::Held;
use std::alloc::Global;
use stream_object::{AddFault, Id, Memory, Owned};

// The id that a number stands for: four ids a millisecond.
fn id_of(n: u64) -> Id {
    Id {
        ms: n >> 2,
        seq: n & 3,
    }
}

// Whether entries have these ids, in this order.
fn are(found: &[Owned], ids: &[u64]) -> bool {
    found.len() == ids.len()
        && found
            .iter()
            .zip(ids)
            .all(|(entry, n)| entry.id == id_of(*n))
}

// The numbers between two, from one end or the other, and not more than a limit.
fn between(
    alloc: Global,
    ids: &[u64],
    from: u64,
    to: u64,
    back: bool,
    limit: usize,
) -> Result<Vec<u64>, Memory> {
    let mut found = Vec::new(alloc);
    for index in 0..ids.len() {
        let n = if back {
            ids[ids.len() - 1 - index]
        } else {
            ids[index]
        };
        if n >= from && n <= to && found.len() < limit {
            found.push(n)?;
        }
    }
    Ok(found)
}

// The numbers that are left without some.
fn without(alloc: Global, ids: &[u64], low: u64, gone: u64) -> Result<Vec<u64>, Memory> {
    let mut left = Vec::new(alloc);
    for n in ids {
        if *n >= low && *n != gone {
            left.push(*n)?;
        }
    }
    Ok(left)
}

// A stream, and the numbers of its ids.
#[derive(Drop)]
struct Twin {
    held: Held,
    ids: Vec<u64>,
    last: u64,
    seed: u64,
}

impl Twin {
    fn new(alloc: Global) -> Twin {
        Twin {
            held: Held::new(alloc),
            ids: Vec::new(alloc),
            last: 0,
            seed: 7,
        }
    }

    // A number below a limit. (Knuth: a linear congruential generator modulo 2^64.)
    fn draw(&mut self, limit: u64) -> u64 {
        self.seed = self
            .seed
            .wrapping_mul(6364136223846793005)
            .wrapping_add(1442695040888963407);
        (self.seed >> 33) % limit.max(1)
    }

    // Adds an entry behind the others, and tells whether the stream took it.
    fn add(&mut self, alloc: Global) -> Result<bool, Memory> {
        let step = self.draw(3);
        let n = self.last.saturating_add(step);
        match self.held.add(alloc, id_of(n), b"field", b"value") {
            Ok(()) => {
                let fresh = n > self.last;
                self.last = n;
                self.ids.push(n)?;
                Ok(fresh)
            }
            Err(AddFault::NotAbove(last)) => Ok(step == 0 && last == id_of(self.last)),
            Err(AddFault::Memory) => Ok(false),
        }
    }

    // Deletes an entry or trims, and tells whether as many entries went.
    fn cut(&mut self, alloc: Global, kind: u64) -> Result<bool, Memory> {
        let before = self.ids.len();
        let last = self.last.saturating_add(2);
        let n = self.draw(last);
        if kind < 70 {
            let found = self.held.delete(id_of(n))?;
            self.ids = without(alloc, &self.ids, 0, n)?;
            return Ok(found == (self.ids.len() < before));
        }
        if kind < 72 {
            let low = self.last.saturating_sub(n >> 1);
            let count = self.held.trim_id(id_of(low))?;
            self.ids = without(alloc, &self.ids, low, u64::MAX)?;
            return Ok(count == before.saturating_sub(self.ids.len()) as u64);
        }
        let keep = before as u64 / 2;
        let count = self.held.trim_len(keep)?;
        let last = between(alloc, &self.ids, 0, u64::MAX, true, keep as usize)?;
        self.ids = between(alloc, &last, 0, u64::MAX, true, usize::MAX)?;
        Ok(count == before.saturating_sub(self.ids.len()) as u64)
    }

    // Whether a range of the stream is that of the list.
    fn agrees(&mut self, alloc: Global) -> Result<bool, Memory> {
        let last = self.last.saturating_add(2);
        let from = self.draw(last);
        let to = self.draw(last);
        let back = self.draw(2) == 1;
        let limit = self.draw(300);
        let found = self.held.range(id_of(from), id_of(to), back, limit)?;
        let wanted = between(alloc, &self.ids, from, to, back, limit as usize)?;
        Ok(are(&found, &wanted) && self.held.stream.len() == self.ids.len() as u64)
    }

    fn step(&mut self, alloc: Global) -> Result<bool, Memory> {
        let kind = self.draw(400);
        let done = if kind < 73 {
            self.cut(alloc, kind)?
        } else {
            self.add(alloc)?
        };
        let same = self.agrees(alloc)?;
        Ok(done && same)
    }
}

/// Whether so many drawn edits leave the stream as a plain list, at each step, and it had three nodes or more at one of them.
pub fn play(alloc: Global, count: u64) -> Result<bool, Memory> {
    let mut twin = Twin::new(alloc);
    let mut same = true;
    let mut most = 0;
    for _ in 0..count {
        let agrees = twin.step(alloc)?;
        same = same && agrees;
        most = twin.held.nodes().max(most);
    }
    let Twin { held, .. } = twin;
    held.release();
    Ok(same && most > 2)
}
