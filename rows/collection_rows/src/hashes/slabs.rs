//! A hash over a class heap: blocks that move from slabs that are half empty. A slab holds 128 blocks of 512 bytes and 64 of 1,024.

use super::held::limits;
use blocks::BlockStore;
use class_heap::ClassHeap;
use hash_object::{Fields, Memory};
use listpack::Element;
use row_words::{done, shown, unknown};
use std::alloc::Global;
use std::marker::Model;

// A hash over slabs.
#[derive(Drop)]
struct Stored {
    heap: ClassHeap,
    hash: Fields,
}

impl Model for Stored {
    ghost use Rattle.std.specs.Prelude.{ℕ};
    ghost use Rattle.class_heap.specs.Heap.{heap_blocks};
    ghost use Rattle.hash_object.specs.Fields.{IsFields};

    ghost Value = { ℕ };

    ghost view = { λ stored. 0 };

    ghost invariant = { λ stored. IsFields (heap_blocks stored.heap) stored.hash };
}

impl Stored {
    fn new(alloc: Global) -> Stored {
        Stored {
            heap: ClassHeap::new(alloc),
            hash: Fields::new(alloc, limits(0, 0), 7),
        }
    }

    fn set(&mut self, field: u8, value: u8) -> Result<bool, Memory> {
        self.hash.set(&mut self.heap, &[field; 500], &[value; 1000])
    }

    fn remove(&mut self, field: u8) -> Result<bool, Memory> {
        self.hash.remove(&mut self.heap, &[field; 500])
    }

    // Whether the field has this value, or is not there where that is none.
    fn has(&self, field: u8, value: Option<u8>) -> bool {
        match (self.hash.get(&self.heap, &[field; 500]), value) {
            (Some(Element::Text(text)), Some(value)) => text == [value; 1000].as_slice(),
            (None, None) => true,
            _ => false,
        }
    }

    // How many slabs there are for fields, and how many for values.
    fn slabs(&self) -> (u64, u64) {
        (self.heap.use_of(16).slabs, self.heap.use_of(20).slabs)
    }

    // Goes through the blocks from the first mark to the end, at most 32 at a time, and answers how many it passed.
    fn relocate_all(&mut self) -> Option<u64> {
        let mut passed: u64 = 0;
        let mut from = 0;
        for _ in 0..64 {
            let moved = self.hash.relocate_part(&mut self.heap, from, 32);
            passed = passed.saturating_add(u64::from(moved.used));
            match moved.next {
                Some(next) => from = next,
                None => return Some(passed),
            }
        }
        None
    }

    // How many blocks and vacant item numbers a pass went through. None is answered where blocks want to move after it.
    fn pass(&mut self) -> Option<u64> {
        self.heap.begin_pass();
        let passed = self.relocate_all();
        let is_calm = self.heap.is_calm();
        self.heap.end_pass();
        if is_calm { passed } else { None }
    }
}

/// A hash beside a plain map: the byte of each value by the byte of its field.
#[derive(Drop)]
pub struct Twin {
    stored: Stored,
    values: [Option<u8>; 256],
}

impl Twin {
    pub fn new(alloc: Global) -> Twin {
        Twin {
            stored: Stored::new(alloc),
            values: [None; 256],
        }
    }

    fn set(&mut self, field: u8, value: u8) -> Result<(), Memory> {
        let _new = self.stored.set(field, value)?;
        self.values[field as usize] = Some(value);
        Ok(())
    }

    fn remove(&mut self, field: u8) -> Result<(), Memory> {
        let _was = self.stored.remove(field)?;
        self.values[field as usize] = None;
        Ok(())
    }

    // Gives each field a value.
    fn fill(&mut self) -> Result<(), Memory> {
        for field in 0..=255u8 {
            self.set(field, 255 - field)?;
        }
        Ok(())
    }

    // Takes every second field out.
    fn thin(&mut self) -> Result<(), Memory> {
        for half in 0..128u8 {
            self.remove(2 * half)?;
        }
        Ok(())
    }

    // How many fields have the value of the plain map or are in neither.
    fn alike(&self) -> usize {
        let mut count: usize = 0;
        for field in 0..=255u8 {
            let is_alike = self.stored.has(field, self.values[field as usize]);
            count = count.saturating_add(usize::from(is_alike));
        }
        count
    }
}

/// What a line of this word answers.
pub fn answer(twin: &mut Twin, alloc: Global, name: &str) -> Result<String, Memory> {
    match name {
        "fill" => {
            twin.fill()?;
            done(alloc)
        }
        "thin" => {
            twin.thin()?;
            done(alloc)
        }
        "alike" => shown(alloc, Some(twin.alike() as u64)),
        "len" => shown(alloc, Some(twin.stored.hash.len() as u64)),
        "slabs" => {
            let (fields, values) = twin.stored.slabs();
            format!(in alloc; "{fields} {values}")
        }
        "units" => shown(alloc, Some(u64::from(twin.stored.hash.units()))),
        "pass" => shown(alloc, twin.stored.pass()),
        _ => unknown(alloc),
    }
}
