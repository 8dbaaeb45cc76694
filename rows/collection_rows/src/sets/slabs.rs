//! A set over a class heap: blocks that move from slabs that are half empty. A slab holds 64 blocks of 1,024 bytes.

use super::held::limits;
use blocks::BlockStore;
use class_heap::ClassHeap;
use row_words::{done, shown, unknown};
use set_object::{Members, Memory};
use std::alloc::Global;
use std::marker::Model;

// A set over slabs.
#[derive(Drop)]
struct Stored {
    heap: ClassHeap,
    set: Members,
}

impl Model for Stored {
    ghost use Rattle.std.specs.Prelude.{ℕ};
    ghost use Rattle.class_heap.specs.Heap.{heap_blocks};
    ghost use Rattle.set_object.specs.Members.{IsMembers};

    ghost Value = { ℕ };

    ghost view = { λ stored. 0 };

    ghost invariant = { λ stored. IsMembers (heap_blocks stored.heap) stored.set };
}

impl Stored {
    fn new(alloc: Global) -> Stored {
        Stored {
            heap: ClassHeap::new(alloc),
            set: Members::new(alloc, limits(0, 0, 0), 7),
        }
    }

    fn add(&mut self, member: u8) -> Result<bool, Memory> {
        self.set.add(&mut self.heap, &[member; 1000])
    }

    fn remove(&mut self, member: u8) -> Result<bool, Memory> {
        self.set.remove(&mut self.heap, &[member; 1000])
    }

    fn has(&self, member: u8) -> bool {
        self.set.has(&self.heap, &[member; 1000])
    }

    // How many slabs there are for members.
    fn slabs(&self) -> u64 {
        self.heap.use_of(20).slabs
    }

    // What is passed of the first blocks where none of them wants to move.
    fn passed(&self) -> Option<u64> {
        match self.set.passed(&self.heap, 0, 32) {
            Some(moved) => Some(u64::from(moved.used)),
            None => None,
        }
    }

    // Goes through the blocks from the first mark to the end, at most 32 at a time, and answers how many it passed.
    fn relocate_all(&mut self) -> Option<u64> {
        let mut passed: u64 = 0;
        let mut from = 0;
        for _ in 0..64 {
            let moved = self.set.relocate_part(&mut self.heap, from, 32);
            passed = passed.saturating_add(u64::from(moved.used));
            match moved.next {
                Some(next) => from = next,
                None => return Some(passed),
            }
        }
        None
    }

    // How many blocks and vacant item numbers a pass went through. None is answered where blocks want to move after it.
    fn pass(&mut self) -> Option<u64> {
        self.heap.begin_pass();
        let passed = self.relocate_all();
        let is_calm = self.heap.is_calm();
        self.heap.end_pass();
        if is_calm { passed } else { None }
    }
}

/// A set beside a plain one: whether each member is there, by its byte.
#[derive(Drop)]
pub struct Both {
    stored: Stored,
    has: [bool; 256],
}

impl Both {
    pub fn new(alloc: Global) -> Both {
        Both {
            stored: Stored::new(alloc),
            has: [false; 256],
        }
    }

    fn add(&mut self, member: u8) -> Result<(), Memory> {
        let _new = self.stored.add(member)?;
        self.has[member as usize] = true;
        Ok(())
    }

    fn remove(&mut self, member: u8) -> Result<(), Memory> {
        let _was = self.stored.remove(member)?;
        self.has[member as usize] = false;
        Ok(())
    }

    fn fill(&mut self) -> Result<(), Memory> {
        for member in 0..=255u8 {
            self.add(member)?;
        }
        Ok(())
    }

    // Takes every second member out.
    fn thin(&mut self) -> Result<(), Memory> {
        for half in 0..128u8 {
            self.remove(2 * half)?;
        }
        Ok(())
    }

    // How many members are in both or in neither.
    fn alike(&self) -> usize {
        let mut count: usize = 0;
        for member in 0..=255u8 {
            let is_alike = self.stored.has(member) == self.has[member as usize];
            count = count.saturating_add(usize::from(is_alike));
        }
        count
    }
}

/// What a line of this word answers.
pub fn answer(both: &mut Both, alloc: Global, name: &str) -> Result<String, Memory> {
    match name {
        "fill" => {
            both.fill()?;
            done(alloc)
        }
        "thin" => {
            both.thin()?;
            done(alloc)
        }
        "alike" => shown(alloc, Some(both.alike() as u64)),
        "len" => shown(alloc, Some(both.stored.set.len() as u64)),
        "slabs" => shown(alloc, Some(both.stored.slabs())),
        "units" => shown(alloc, Some(u64::from(both.stored.set.units()))),
        "pass" => shown(alloc, both.stored.pass()),
        "passed" => shown(alloc, both.stored.passed()),
        _ => unknown(alloc),
    }
}
