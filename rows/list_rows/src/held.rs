//! A list in its store.

use blocks::Moved;
use listpack::check;
use quicklist::{End, Memory, Quick, is_text};
use scarce_store::ScarceStore;
use std::alloc::Global;
use std::marker::Model;

/// A list in its store.
#[derive(Drop)]
pub struct Held {
    pub store: ScarceStore,
    pub quick: Quick,
}

impl Model for Held {
    ghost use Rattle.std.specs.Prelude.{ℕ};
    ghost use Rattle.blocks.specs.Plain.{plain_blocks};
    ghost use Rattle.quicklist.specs.Chain.{IsQuick};

    ghost Value = { ℕ };

    ghost view = { λ held. 0 };

    ghost invariant = { λ held. IsQuick (plain_blocks held.store.plain) held.quick };
}

impl Held {
    pub fn new(alloc: Global) -> Held {
        Held {
            store: ScarceStore::new(alloc),
            quick: Quick::new(alloc),
        }
    }

    pub fn len(&self) -> usize {
        self.quick.len()
    }

    pub fn insert(&mut self, index: usize, element: &[u8]) -> Result<(), Memory> {
        if index <= self.quick.len() {
            self.quick.insert(&mut self.store, index, element)?;
        }
        Ok(())
    }

    pub fn set(&mut self, index: usize, element: &[u8]) -> Result<(), Memory> {
        if index < self.quick.len() {
            self.quick.set(&mut self.store, index, element)?;
        }
        Ok(())
    }

    pub fn remove(&mut self, index: usize) -> Result<(), Memory> {
        if index < self.quick.len() {
            self.quick.remove(&mut self.store, index)?;
        }
        Ok(())
    }

    pub fn remove_range(&mut self, from: usize, to: usize) -> Result<(), Memory> {
        if from <= to && to <= self.quick.len() {
            self.quick.remove_range(&mut self.store, from, to)?;
        }
        Ok(())
    }

    pub fn remove_equal(&mut self, text: &[u8], end: End, wanted: usize) -> Result<usize, Memory> {
        self.quick.remove_equal(&mut self.store, text, end, wanted)
    }

    /// Whether the list takes these bytes whole, where they are a listpack.
    pub fn take_pack(&mut self, bytes: &[u8]) -> Result<bool, Memory> {
        match check(bytes) {
            Ok(pack) => self.quick.take_pack(&mut self.store, &pack),
            Err(_) => Ok(false),
        }
    }

    /// How many blocks were placed since all placings were allowed.
    pub fn placed(&self) -> usize {
        usize::MAX - self.store.left
    }

    pub fn is_at(&self, index: usize, text: &[u8]) -> bool {
        match self.quick.get(&self.store, index) {
            Some(element) => is_text(element, text),
            None => false,
        }
    }

    /// Whether the element at an index has this text by cursors that come from its neighbours.
    pub fn is_between(&self, index: usize, text: &[u8]) -> bool {
        let Some(at) = self.quick.seek(&self.store, index) else {
            return false;
        };
        if let Some(behind) = self.quick.next(&self.store, at) {
            match self.quick.prev(&self.store, behind) {
                Some(back) if is_text(self.quick.element(&self.store, back), text) => {}
                _ => return false,
            }
        }
        if let Some(before) = self.quick.prev(&self.store, at) {
            match self.quick.next(&self.store, before) {
                Some(back) if is_text(self.quick.element(&self.store, back), text) => {}
                _ => return false,
            }
        }
        at.index() == index && is_text(self.quick.element(&self.store, at), text)
    }

    pub fn relocate(&mut self, from: u128) -> Moved {
        self.quick.relocate_part(&mut self.store, from, 32)
    }

    /// Whether a copy has these elements at the first two places. It ends the list and its store.
    pub fn copies(self, first: &[u8], second: &[u8]) -> Result<bool, Memory> {
        let mut store = self.store;
        let copy = self.quick.copy(&mut store)?;
        let same = match (copy.get(&store, 0), copy.get(&store, 1)) {
            (Some(a), Some(b)) => is_text(a, first) && is_text(b, second),
            _ => false,
        };
        copy.release(&mut store);
        Ok(same)
    }

    pub fn release(self) {
        let mut store = self.store;
        self.quick.release(&mut store);
    }
}
