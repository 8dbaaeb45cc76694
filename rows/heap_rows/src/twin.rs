//! A heap beside a plain model of its slabs.

use crate::calls::{bytes, end, lengthened, moved, stretched};
use crate::plain::{Slabs, per_slab};
use blocks::{BlockRef, BlockStore, Memory, put_block};
use class_heap::ClassHeap;
use rand_core::Rng;
use rand_pcg::Pcg32;
use std::alloc::Global;

const LENGTHS: [usize; 12] = [
    0, 8, 9, 500, 1000, 2048, 4000, 5000, 9000, 14_336, 14_337, 20_000,
];

// A live block, and the byte that fills it.
#[derive(Clone, Copy)]
struct Filled {
    at: BlockRef,
    len: usize,
    fill: u8,
}

// A heap, its model, and the live blocks.
#[derive(Drop)]
struct Twin {
    heap: ClassHeap,
    slabs: Slabs,
    live: Vec<Filled>,
}

impl Twin {
    fn new(alloc: Global) -> Twin {
        Twin {
            heap: ClassHeap::new(alloc),
            slabs: Slabs::new(alloc),
            live: Vec::new(alloc),
        }
    }

    // Places a block, and tells whether both give it one number.
    fn place(&mut self, alloc: Global, len: usize, fill: u8) -> Result<bool, Memory> {
        let filled = vec![in alloc; fill; len]?;
        let at = put_block(&mut self.heap, &filled)?;
        self.live.push(Filled { at, len, fill })?;
        Ok(at.slab == self.slabs.place(len)?)
    }

    // Ends the block at a place of the list, and tells whether it was live.
    fn give_back(&mut self, place: usize) -> bool {
        if place >= self.live.len() {
            return false;
        }
        let block = self.live.swap_remove(place);
        self.slabs.give_back(block.at.slab);
        end(&mut self.heap, block.at)
    }

    // Lengthens the block at a place of the list: by the rule a placing and a return.
    fn lengthen(&mut self, place: usize, len: usize) -> Result<bool, Memory> {
        let Some(block) = self.live.get_mut(place) else {
            return Ok(false);
        };
        let old = block.at;
        match lengthened(&mut self.heap, old, len)? {
            Some(longer) => {
                block.at = longer;
                let same = longer.slab == self.slabs.place(len)?;
                self.slabs.give_back(old.slab);
                Ok(same)
            }
            None => Ok(self.heap.is_live(old)),
        }
    }

    // Gives the block at a place of the list another length in its place, and tells whether both lengths are of one class just then.
    fn stretch(&mut self, place: usize, len: usize) -> bool {
        let Some(block) = self.live.get_mut(place) else {
            return false;
        };
        let wanted = self.slabs.is_slab_for(block.at.slab, len);
        if stretched(&mut self.heap, block.at, len) != wanted {
            return false;
        }
        let long = match bytes(&self.heap, block.at) {
            Some(found) => found.len(),
            None => return false,
        };
        block.len = block.len.min(long);
        long == len || !wanted
    }

    // Moves the block at a place of the list, and tells whether both want it alike and move it to one number.
    fn relocate(&mut self, place: usize) -> bool {
        let Some(block) = self.live.get_mut(place) else {
            return false;
        };
        let old = block.at;
        if !self.heap.is_live(old) {
            return false;
        }
        let wants = self.slabs.wants_move(old.slab);
        if self.heap.wants_move(old) != wants {
            return false;
        }
        match self.heap.move_block(old) {
            Some(new) => {
                block.at = new;
                self.slabs.move_block(old.slab) == Some(new.slab)
            }
            None => !wants,
        }
    }

    // Begins or ends a pass.
    fn pass(&mut self, begins: bool) {
        if begins {
            self.heap.begin_pass();
            self.slabs.begin_pass();
        } else {
            self.heap.end_pass();
            self.slabs.end_pass();
        }
    }

    // One of the calls, and whether both answer the same.
    fn step(&mut self, alloc: Global, round: u32, word: u32) -> Result<bool, Memory> {
        let pick = (word / 64) as usize;
        let kind = word % 64;
        let place = pick % self.live.len().max(1);
        if kind < 2 {
            self.pass(kind == 0);
            return Ok(true);
        }
        if kind < 10 + round / 1500 % 2 * 22 || self.live.is_empty() {
            return self.place(alloc, LENGTHS[pick % 12], (round % 251) as u8);
        }
        match kind {
            0..40 => Ok(self.give_back(place)),
            40..46 => self.lengthen(place, LENGTHS[pick / 64 % 12]),
            46..50 => Ok(self.stretch(place, LENGTHS[pick / 64 % 12])),
            _ => Ok(self.relocate(place)),
        }
    }

    // Whether every slab count is that of the model.
    fn agrees(&self) -> bool {
        for class in 0..36 {
            let in_use = self.heap.use_of(class);
            if (in_use.slabs, in_use.used) != self.slabs.use_of(class) {
                return false;
            }
        }
        self.heap.is_calm() == self.slabs.is_calm()
    }

    // Goes through all blocks in a pass that nothing disturbs.
    fn pack(&mut self) {
        self.heap.begin_pass();
        for block in &mut self.live {
            if let Some(new) = moved(&mut self.heap, block.at) {
                block.at = new;
            }
        }
        self.heap.end_pass();
    }

    // Whether each class has as few slabs as its blocks need.
    fn is_packed(&self) -> bool {
        for class in 0..36 {
            let in_use = self.heap.use_of(class);
            if in_use.slabs != in_use.used.div_ceil(per_slab(class).max(1)) {
                return false;
            }
        }
        true
    }

    // Whether each block has its bytes.
    fn holds_bytes(&self, alloc: Global) -> Result<bool, Memory> {
        for block in &self.live {
            let wanted = vec![in alloc; block.fill; block.len]?;
            match bytes(&self.heap, block.at) {
                Some(found) if found.starts_with(&wanted) => {}
                _ => return Ok(false),
            }
        }
        Ok(true)
    }
}

/// Whether so many calls answer as the model does, and whether a pass then leaves each class the least number of slabs, and each
/// block its bytes.
pub fn agree(alloc: Global, rounds: u64) -> Result<bool, Memory> {
    let mut rng = Pcg32::new(20, 7);
    let mut twin = Twin::new(alloc);
    for round in 0..u32::try_from(rounds).unwrap_or(0) {
        if !twin.step(alloc, round, rng.next_u32())? {
            return Ok(false);
        }
        if round % 50 == 0 && !twin.agrees() {
            return Ok(false);
        }
    }
    let same = twin.agrees();
    twin.pack();
    let kept = twin.holds_bytes(alloc)?;
    Ok(same && kept && twin.is_packed())
}
