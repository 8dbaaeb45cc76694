//! A string in its store.

use blocks::{Memory, Moved, PlainStore};
use object_codec::Name;
use std::alloc::Global;
use std::marker::Model;
use string_object::Text;

/// The most bytes of a string.
const LONGEST: u64 = 536_870_912;

/// A string in its store.
#[derive(Drop)]
pub struct Held {
    store: PlainStore,
    text: Text,
}

impl Model for Held {
    ghost use Rattle.std.specs.Prelude.{ℕ};
    ghost use Rattle.blocks.specs.Blocks.{Owned};
    ghost use Rattle.blocks.specs.Plain.{plain_blocks};
    ghost use Rattle.string_object.specs.Text.{text_refs};

    ghost Value = { ℕ };

    ghost view = { λ held. 0 };

    ghost invariant = { λ held. Owned (text_refs held.text) (plain_blocks held.store) };
}

impl Held {
    /// The string of these bytes in a new store.
    pub fn of(alloc: Global, bytes: &[u8]) -> Result<Held, Memory> {
        let mut store = PlainStore::new(alloc);
        let text = Text::make(&mut store, bytes)?;
        Ok(Held { store, text })
    }

    pub fn new(alloc: Global) -> Result<Held, Memory> {
        Held::of(alloc, b"")
    }

    pub fn bytes<'a>(&'a self, room: &'a mut [u8; 20]) -> &'a [u8] {
        self.text.bytes(&self.store, room)
    }

    pub fn number(&self) -> Option<i64> {
        self.text.number(&self.store)
    }

    pub fn name(&self) -> Name {
        self.text.name(&self.store)
    }

    pub fn block_count(&self) -> u32 {
        self.text.block_count()
    }

    /// Appends what has room, and answers the new length.
    pub fn append(&mut self, tail: &[u8]) -> Result<u64, Memory> {
        let mut room = [0; 20];
        let len = self.text.bytes(&self.store, &mut room).len() as u64;
        if len > LONGEST || tail.len() as u64 > LONGEST - len {
            return Ok(len);
        }
        self.text.append(&mut self.store, tail)
    }

    /// Writes a piece that has room, and answers the new length.
    pub fn set_range(&mut self, at: u64, piece: &[u8]) -> Result<u64, Memory> {
        if at > LONGEST || piece.len() as u64 > LONGEST - at {
            return Ok(0);
        }
        self.text.set_range(&mut self.store, at, piece)
    }

    pub fn set_number(&mut self, n: i64) {
        self.text.set_number(&mut self.store, n);
    }

    pub fn relocate(&mut self, from: u128) -> Moved {
        self.text.relocate_part(&mut self.store, from, 32)
    }

    pub fn release(self) {
        let mut store = self.store;
        self.text.release(&mut store);
    }
}
