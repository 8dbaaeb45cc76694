//! A dictionary beside the store of its keys.

use blocks::{BlockStore, PlainStore, put_block};
use rehash_dict::{Dict, Memory};
use std::alloc::Global;
use std::marker::Model;

/// A dictionary beside the store of its keys.
#[derive(Drop)]
pub struct Held {
    pub store: PlainStore,
    pub dict: Dict<u64>,
}

impl Model for Held {
    ghost use Rattle.std.specs.Prelude.{ℕ};
    ghost use Rattle.blocks.specs.Plain.{plain_blocks};
    ghost use Rattle.rehash_dict.specs.Keyed.{Keyed};

    ghost Value = { ℕ };

    ghost view = { λ held. 0 };

    ghost invariant = { λ held. Keyed (plain_blocks held.store) held.dict };
}

impl Held {
    pub fn new(alloc: Global) -> Held {
        Held {
            store: PlainStore::new(alloc),
            dict: Dict::new(alloc, 7),
        }
    }

    /// The value of the key.
    pub fn get(&self, key: &[u8]) -> Option<u64> {
        let at = self.dict.find(&self.store, key)?;
        value_at(&self.dict, at)
    }

    /// Gives the key this value, and answers the one that stood there.
    pub fn put(&mut self, key: &[u8], value: u64) -> Result<Option<u64>, Memory> {
        if let Some(at) = self.dict.find(&self.store, key) {
            return Ok(Some(self.dict.swap_value(at, value)));
        }
        let block = put_block(&mut self.store, key)?;
        match self.dict.insert(&self.store, block, value) {
            Ok(_) => Ok(None),
            Err((_, error)) => Err(error),
        }
    }

    pub fn remove(&mut self, key: &[u8]) -> Option<u64> {
        match self.dict.remove(&self.store, key) {
            Some((_, value)) => Some(value),
            None => None,
        }
    }

    /// Names the key by another block, and answers whether it is there.
    pub fn rename(&mut self, key: &[u8]) -> Result<bool, Memory> {
        let block = put_block(&mut self.store, key)?;
        match self.dict.find(&self.store, key) {
            Some(at) => {
                self.dict.swap_ref(at, block);
                Ok(true)
            }
            None => Ok(false),
        }
    }

    pub fn rehash_step(&mut self) -> bool {
        self.dict.rehash_step()
    }

    pub fn shrink(&mut self) -> Result<bool, Memory> {
        self.dict.shrink()
    }
}

/// The value of an element.
pub fn value_at(dict: &Dict<u64>, at: usize) -> Option<u64> {
    if dict.is_entry(at) {
        Some(*dict.entry(at).1)
    } else {
        None
    }
}
