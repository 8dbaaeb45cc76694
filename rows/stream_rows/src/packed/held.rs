//! A map and its store.

use crate::keys::Key;
use blocks::{BlockRef, BlockStore};
use class_heap::ClassHeap;
use rax_packed::{Memory, PackedTree};
use std::alloc::Global;
use std::marker::Model;
use std::mem::replace;

/// A map and its store.
#[derive(Drop)]
pub struct Held {
    pub store: ClassHeap,
    tree: PackedTree,
}

impl Model for Held {
    ghost use Rattle.std.specs.Prelude.{ℕ};

    ghost Value = { ℕ };

    ghost use Rattle.class_heap.specs.Heap.{heap_blocks};
    ghost use Rattle.rax_packed.specs.Maps.{IsSound};

    ghost view = { λ s. 0 };

    ghost invariant = { λ s. IsSound (heap_blocks s.store) s.tree };
}

impl Held {
    pub fn new(alloc: Global) -> Held {
        Held {
            store: ClassHeap::new(alloc),
            tree: PackedTree::new(),
        }
    }

    pub fn find(&self, key: &Key) -> Option<BlockRef> {
        self.tree.find(&self.store, key)
    }

    pub fn insert(&mut self, key: &Key, value: BlockRef) -> Result<Option<BlockRef>, Memory> {
        self.tree.insert(&mut self.store, key, value)
    }

    pub fn set(&mut self, key: &Key, value: BlockRef) -> bool {
        self.tree.set(&mut self.store, key, value)
    }

    pub fn remove(&mut self, key: &Key) -> Option<BlockRef> {
        self.tree.remove(&mut self.store, key)
    }

    pub fn after(&self, key: &Key) -> Option<Key> {
        self.tree.seek_at_or_after(&self.store, key)
    }

    pub fn before(&self, key: &Key) -> Option<Key> {
        self.tree.seek_at_or_before(&self.store, key)
    }

    /// The bytes of the first node whose least key is this one: those of the root, where the key is the map's first.
    pub fn top(&self, key: &Key) -> &[u8] {
        if self.tree.find(&self.store, key).is_none() {
            return &[];
        }
        let nodes = self.tree.nodes_of(&self.store, key);
        if nodes.is_empty() {
            return &[];
        }
        let at = nodes.at(0);
        if self.store.is_live(at) {
            self.store.bytes(at)
        } else {
            &[]
        }
    }

    /// The number of nodes whose least key is this one.
    pub fn nodes(&self, key: &Key) -> usize {
        if self.tree.find(&self.store, key).is_none() {
            return 0;
        }
        self.tree.nodes_of(&self.store, key).len()
    }

    /// How many nodes of a key moved.
    pub fn relocate(&mut self, key: &Key) -> u32 {
        if self.tree.find(&self.store, key).is_none() {
            return 0;
        }
        self.tree.relocate_path(&mut self.store, key)
    }

    /// Goes on with a copy, and gives the first map back.
    pub fn copy(&mut self) -> Result<(), Memory> {
        let copy = self.tree.copy(&mut self.store)?;
        let old = replace(&mut self.tree, copy);
        old.release(&mut self.store);
        Ok(())
    }

    pub fn begin_pass(&mut self) {
        self.store.begin_pass();
    }

    pub fn end_pass(&mut self) {
        self.store.end_pass();
    }

    /// Gives all nodes back.
    pub fn release(self) -> ClassHeap {
        let Held { mut store, tree } = self;
        tree.release(&mut store);
        store
    }
}

/// The number of live blocks in slabs.
pub fn used(store: &ClassHeap) -> usize {
    let mut sum: u64 = 0;
    for class in 0..36 {
        sum = sum.wrapping_add(store.use_of(class).used);
    }
    sum as usize
}

/// A reference that no call looks at.
pub fn value_of(number: u32) -> BlockRef {
    BlockRef {
        slab: number as usize,
        slot: number,
    }
}
