//! Keys and values in a heap: a key's block of four bytes, and its value's of 1,000, each the key's number.

use crate::calls::{bytes, end, moved};
use blocks::{BlockRef, Memory, put_block};
use class_heap::ClassHeap;
use std::alloc::Global;

/// The blocks of the keys and those of their values, by their numbers.
#[derive(Drop)]
pub struct Entries {
    pub keys: Vec<BlockRef>,
    pub values: Vec<BlockRef>,
}

// Places the block of a key.
fn put_key(heap: &mut ClassHeap, number: u8) -> Result<BlockRef, Memory> {
    put_block(heap, &[b'k', b'0', number / 10, number % 10])
}

// Places the block of a value.
fn put_value(heap: &mut ClassHeap, number: u8) -> Result<BlockRef, Memory> {
    put_block(heap, &[number; 1000])
}

// Ends the blocks of odd numbers, and answers how many these were.
fn thin(blocks: &[BlockRef], heap: &mut ClassHeap) -> u64 {
    let mut ended: u64 = 0;
    for number in 0..blocks.len() {
        if number % 2 == 1 && end(heap, blocks[number]) {
            ended = ended.saturating_add(1);
        }
    }
    ended
}

/// How many live blocks of a list move.
pub fn move_all(blocks: &mut Vec<BlockRef>, heap: &mut ClassHeap) -> u64 {
    let mut many: u64 = 0;
    for at in blocks {
        if let Some(new) = moved(heap, *at) {
            *at = new;
            many = many.saturating_add(1);
        }
    }
    many
}

impl Entries {
    pub fn new(alloc: Global) -> Entries {
        Entries {
            keys: Vec::new(alloc),
            values: Vec::new(alloc),
        }
    }

    /// Adds the keys of the first numbers, so many of them.
    pub fn fill(&mut self, heap: &mut ClassHeap, count: u8) -> Result<(), Memory> {
        for number in 0..count {
            let key = put_key(heap, number)?;
            self.keys.push(key)?;
            let value = put_value(heap, number)?;
            self.values.push(value)?;
        }
        Ok(())
    }

    /// Ends the blocks of odd numbers, and answers how many these were.
    pub fn thin(&mut self, heap: &mut ClassHeap) -> u64 {
        thin(self.keys.as_slice(), heap).saturating_add(thin(self.values.as_slice(), heap))
    }

    /// How many values are live and have their bytes.
    pub fn holding(&self, heap: &ClassHeap) -> u64 {
        let mut many: u64 = 0;
        for number in 0..=255u8 {
            if let Some(at) = self.values.get(number as usize) {
                if bytes(heap, *at) == Some([number; 1000].as_slice()) {
                    many = many.saturating_add(1);
                }
            }
        }
        many
    }
}
