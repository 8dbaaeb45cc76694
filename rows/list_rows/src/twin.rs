//! A list beside a plain vector.

use crate::held::Held;
use quicklist::{End, Memory};
use std::alloc::Global;

// These lengths without the first `wanted` ones from an end on that are `len`, or without all of them where 0 are wanted.
fn without(
    alloc: Global,
    lens: &[usize],
    len: usize,
    end: End,
    wanted: usize,
) -> Result<Vec<usize>, Memory> {
    let total = lens.iter().filter(|other| **other == len).count();
    let many = if wanted == 0 { total } else { wanted };
    let first = match end {
        End::Head => 0,
        End::Tail => total.saturating_sub(many),
    };
    let mut left = Vec::new(alloc);
    let mut ordinal: usize = 0;
    for other in lens {
        let is_equal = *other == len;
        if !is_equal || ordinal < first || ordinal - first >= many {
            left.push(*other)?;
        }
        if is_equal {
            ordinal = ordinal.saturating_add(1);
        }
    }
    Ok(left)
}

// The lengths of a list's elements beside the list.
#[derive(Drop)]
struct Twin {
    held: Held,
    lens: Vec<usize>,
}

impl Twin {
    fn new(alloc: Global) -> Twin {
        Twin {
            held: Held::new(alloc),
            lens: Vec::new(alloc),
        }
    }

    // Does the edit of this kind at this place with an element of so many bytes.
    fn edit(&mut self, kind: u32, place: usize, filler: &[u8]) -> Result<(), Memory> {
        let count = self.lens.len();
        let at = place % (count + 1);
        if kind < 5 || at == count {
            self.lens.insert(at, filler.len())?;
            return self.held.insert(at, filler);
        }
        if kind == 5 {
            self.lens[at] = filler.len();
            return self.held.set(at, filler);
        }
        if kind == 6 {
            self.lens.remove(at);
            return self.held.remove(at);
        }
        let to = count.min(at + 3);
        for _ in at..to {
            if at < self.lens.len() {
                self.lens.remove(at);
            }
        }
        self.held.remove_range(at, to)
    }

    // Takes out elements of these bytes, and tells whether as many went of both.
    fn remove_equal(
        &mut self,
        alloc: Global,
        text: &[u8],
        end: End,
        wanted: usize,
    ) -> Result<bool, Memory> {
        let left = without(alloc, &self.lens, text.len(), end, wanted)?;
        let many = self.held.remove_equal(text, end, wanted)?;
        let before = self.lens.len();
        self.lens = left;
        Ok(before.saturating_sub(self.lens.len()) == many)
    }

    fn agrees(&self, filler: &[u8]) -> bool {
        for (index, len) in self.lens.iter().enumerate() {
            if *len > filler.len() || !self.held.is_between(index, &filler[..*len]) {
                return false;
            }
        }
        self.held.len() == self.lens.len()
    }
}

/// Whether so many edits leave what they leave of a vector.
pub fn edits(alloc: Global, count: u64) -> Result<bool, Memory> {
    let filler = [b'x'; 9000];
    let mut twin = Twin::new(alloc);
    let mut seed: u32 = 7;
    for round in 0..count {
        seed = seed.wrapping_mul(1664525).wrapping_add(1013904223);
        let kind = seed >> 13 & 7;
        let most = if seed >> 9 & 7 == 0 { 9000 } else { 900 };
        let len = (seed >> 16) as usize % most;
        twin.edit(kind, (seed >> 7) as usize, &filler[..len])?;
        if round % 50 == 49 && !twin.agrees(&filler) {
            return Ok(false);
        }
    }
    Ok(twin.agrees(&filler))
}

// Elements of six texts, of which two are numbers and one is longer than a node, so that most stand in a list several times.
const LENS: [usize; 6] = [1, 2, 40, 700, 1500, 9000];

// Takes out some of the elements of a text, and tells whether as many went of both.
fn take(twin: &mut Twin, alloc: Global, text: &[u8], seed: u32) -> Result<bool, Memory> {
    let end = if seed >> 14 & 1 == 0 {
        End::Head
    } else {
        End::Tail
    };
    twin.remove_equal(alloc, text, end, (seed >> 10 & 3) as usize)
}

/// Whether so many edits, each eighth of which takes equal elements out, leave what they leave of a vector.
pub fn removals(alloc: Global, count: u64) -> Result<bool, Memory> {
    let filler = [b'7'; 9000];
    let mut twin = Twin::new(alloc);
    let mut seed: u32 = 11;
    for round in 0..count {
        seed = seed.wrapping_mul(1664525).wrapping_add(1013904223);
        let text = &filler[..LENS[(seed >> 16) as usize % 6]];
        if round % 8 != 7 {
            twin.edit(0, (seed >> 7) as usize, text)?;
        } else if !take(&mut twin, alloc, text, seed)? {
            return Ok(false);
        }
        if round % 40 == 39 && !twin.agrees(&filler) {
            return Ok(false);
        }
    }
    Ok(twin.agrees(&filler))
}
