//! A listpack that is edited.

use listpack::{Memory, append, empty, fits, insert, known, remove, remove_range, replace};
use std::alloc::Global;
use std::marker::Model;

/// A listpack.
#[derive(Drop)]
pub struct Held {
    pack: Vec<u8>,
}

impl Model for Held {
    ghost use Rattle.std.specs.Prelude.{ℕ};
    ghost use Rattle.listpack.specs.Pack.{IsPack};

    ghost Value = { ℕ };

    ghost view = { λ held. 0 };

    ghost invariant = { λ held. IsPack held.pack.items };
}

impl Held {
    pub fn new(alloc: Global) -> Result<Held, Memory> {
        let pack = empty(alloc)?;
        Ok(Held { pack })
    }

    pub fn bytes(&self) -> &[u8] {
        &self.pack
    }

    pub fn len(&self) -> usize {
        known(&self.pack).len()
    }

    pub fn append(&mut self, element: &[u8]) -> Result<(), Memory> {
        if fits(&self.pack, element) {
            append(&mut self.pack, element)?;
        }
        Ok(())
    }

    pub fn insert(&mut self, index: usize, element: &[u8]) -> Result<(), Memory> {
        if index <= known(&self.pack).len() && fits(&self.pack, element) {
            insert(&mut self.pack, index, element)?;
        }
        Ok(())
    }

    pub fn replace(&mut self, index: usize, element: &[u8]) -> Result<(), Memory> {
        if index < known(&self.pack).len() && fits(&self.pack, element) {
            replace(&mut self.pack, index, element)?;
        }
        Ok(())
    }

    pub fn remove(&mut self, index: usize) {
        if index < known(&self.pack).len() {
            remove(&mut self.pack, index);
        }
    }

    pub fn remove_range(&mut self, from: usize, to: usize) {
        if from <= to && to <= known(&self.pack).len() {
            remove_range(&mut self.pack, from, to);
        }
    }
}
