//! Two live blocks of a plain store, which may be one.

ghost use Rattle.std.specs.Prelude.{◌<◌};

use blocks::{
    BlockRef, BlockStore, ClassUse, Memory, PlainStore, changes_laws, finish_sweep, placed_anew,
    put_block, served_laws, settle, start_sweep, written_is_read,
};
use std::alloc::Global;
use std::marker::Model;

/// A plain store with a live block, and another beside it.
#[derive(Drop)]
pub struct Kept {
    store: PlainStore,
    at: BlockRef,
    beside: BlockRef,
}

impl Model for Kept {
    ghost use Rattle.std.specs.Prelude.{ℕ, IsSome};
    ghost use Rattle.blocks.specs.Plain.{plain_blocks};

    ghost Value = { ℕ };

    ghost view = { λ kept. 0 };

    ghost invariant = { λ kept. IsSome (plain_blocks kept.store kept.at) × IsSome (plain_blocks kept.store kept.beside) };
}

impl Kept {
    /// A store with one block, of no bytes.
    pub fn new(alloc: Global) -> Result<Kept, Memory> {
        let mut store = PlainStore::new(alloc);
        let at = store.place(0)?;
        Ok(Kept {
            store,
            at,
            beside: at,
        })
    }

    pub fn bytes(&self) -> &[u8] {
        self.store.bytes(self.at)
    }

    /// Whether the two blocks are different ones.
    pub fn is_apart(&self) -> bool {
        self.at != self.beside
    }

    /// The other block from now on.
    pub fn swap(&mut self) {
        let (at, beside) = (self.at, self.beside);
        self.at = beside;
        self.beside = at;
    }

    /// A new block of zero bytes, beside the one that was there.
    pub fn place(&mut self, len: usize) -> Result<(), Memory> {
        let new = self.store.place(len)?;
        self.beside = self.at;
        self.at = new;
        Ok(())
    }

    /// A new block of these bytes, beside the one that was there.
    pub fn put(&mut self, bytes: &[u8]) -> Result<(), Memory> {
        let new = put_block(&mut self.store, bytes)?;
        self.beside = self.at;
        self.at = new;
        Ok(())
    }

    /// Writes a piece that has room.
    pub fn write(&mut self, from: usize, piece: &[u8]) {
        let len = self.store.bytes(self.at).len();
        if from <= len && piece.len() <= len - from {
            self.store.write(self.at, from, piece);
        }
    }

    /// Gives the block back; the one beside it stays.
    pub fn end(&mut self) {
        if self.at != self.beside {
            self.store.give_back(self.at);
            self.at = self.beside;
        }
    }

    /// Lengthens the block.
    pub fn lengthen(&mut self, len: usize) -> Result<(), Memory> {
        if self.store.bytes(self.at).len() <= len {
            let new = self.store.lengthen(self.at, len)?;
            self.at = new;
            self.beside = new;
        }
        Ok(())
    }

    pub fn begin_pass(&mut self) {
        self.store.begin_pass();
    }

    pub fn wants_move(&self) -> bool {
        self.store.wants_move(self.at)
    }

    /// Whether the block moved.
    pub fn moved(&mut self) -> bool {
        match self.store.move_block(self.at) {
            Some(new) => {
                self.at = new;
                self.beside = new;
                true
            }
            None => false,
        }
    }

    pub fn end_pass(&mut self) {
        self.store.end_pass();
    }

    /// What a class uses.
    pub fn use_of(&self, class: usize) -> ClassUse
        requires { class < 36 }
    {
        self.store.use_of(class)
    }

    /// The laws of changes and of what was served.
    pub fn laws(&self) {
        changes_laws();
        served_laws(&self.store);
    }

    /// A new block with a piece that has room written into it, and whether the piece is read from it.
    pub fn written(&mut self, len: usize, from: usize, piece: &[u8]) -> Result<bool, Memory> {
        if from > len || piece.len() > len - from {
            return Ok(false);
        }
        let (new, same) = written_is_read(&mut self.store, len, from, piece)?;
        self.at = new;
        Ok(same)
    }

    /// A new block after the old one was given back.
    pub fn anew(&mut self, len: usize) -> Result<(), Memory> {
        let old = self.at;
        if old != self.beside {
            self.at = self.beside;
            let new = placed_anew(&mut self.store, old, len)?;
            self.at = new;
        }
        Ok(())
    }

    /// Whether the block is as before when it was settled in a whole pass.
    pub fn stays(&mut self) -> bool {
        start_sweep(&mut self.store);
        let settled = settle(&mut self.store, self.at);
        finish_sweep(&mut self.store);
        let same = settled == self.at;
        self.at = settled;
        self.beside = settled;
        same
    }
}
