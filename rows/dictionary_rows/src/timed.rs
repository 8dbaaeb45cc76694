//! Deadlines beside the store of their keys.

use blocks::{BlockRef, BlockStore, PlainStore, put_block};
use expiry::{Deadlines, Gone, Memory};
use std::alloc::Global;
use std::marker::Model;

/// Deadlines beside the store of their keys.
#[derive(Drop)]
pub struct Timed {
    pub store: PlainStore,
    pub deadlines: Deadlines,
}

impl Model for Timed {
    ghost use Rattle.std.specs.Prelude.{ℕ};
    ghost use Rattle.blocks.specs.Plain.{plain_blocks};
    ghost use Rattle.rehash_dict.specs.Keyed.{Keyed};

    ghost Value = { ℕ };

    ghost view = { λ timed. 0 };

    ghost invariant = { λ timed. Keyed (plain_blocks timed.store) timed.deadlines.table };
}

impl Timed {
    pub fn new(alloc: Global) -> Timed {
        Timed {
            store: PlainStore::new(alloc),
            deadlines: Deadlines::new(alloc, 7),
        }
    }

    /// Gives the key a deadline, by a block of its own, which is the answer.
    pub fn set(&mut self, key: &[u8], deadline: u64) -> Result<BlockRef, Memory> {
        let block = put_block(&mut self.store, key)?;
        self.deadlines.set(&self.store, block, deadline)?;
        Ok(block)
    }

    pub fn get(&self, key: &[u8]) -> Option<u64> {
        self.deadlines.get(&self.store, key)
    }

    pub fn clear(&mut self, key: &[u8]) -> bool {
        self.deadlines.clear(&self.store, key)
    }

    pub fn cycle(&mut self, moment: u64, found: &mut Gone) {
        self.deadlines.cycle(moment, found);
    }

    /// Makes a cycle, takes away the deadlines of the keys that it found, and answers how many these were.
    pub fn expire(&mut self, moment: u64, found: &mut Gone) -> usize {
        self.deadlines.cycle(moment, found);
        for index in 0..found.len() {
            let key = self.store.bytes(found.at(index));
            self.deadlines.clear(&self.store, key);
        }
        found.len()
    }

    /// Names the key by another block, and answers whether it has a deadline.
    pub fn rename(&mut self, key: &[u8]) -> Result<bool, Memory> {
        let block = put_block(&mut self.store, key)?;
        match self.deadlines.table().find(&self.store, key) {
            Some(at) => {
                self.deadlines.swap_ref(at, block);
                Ok(true)
            }
            None => Ok(false),
        }
    }

    pub fn rehash_step(&mut self) -> bool {
        self.deadlines.rehash_step()
    }

    pub fn shrink(&mut self) -> Result<bool, Memory> {
        self.deadlines.shrink()
    }

    /// How many keys have a deadline.
    pub fn len(&self) -> usize {
        self.deadlines.table().len()
    }

    /// The block that names the key, where it has a deadline.
    pub fn block_of(&self, key: &[u8]) -> Option<BlockRef> {
        let at = self.deadlines.table().find(&self.store, key)?;
        Some(self.deadlines.table().entry(at).0)
    }
}
