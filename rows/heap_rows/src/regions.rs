//! Lines on two regions of 65,536 bytes.

use crate::words::{at, nth};
use blocks::Memory;
use class_heap::SlabMem;
use row_words::{bytes_of, done, unknown};
use std::alloc::Global;

// How many bytes a region has.
const REGION: usize = 65_536;

/// Two regions.
#[derive(Drop)]
pub struct Regions {
    first: SlabMem,
    second: SlabMem,
}

impl Regions {
    pub fn new(alloc: Global) -> Result<Regions, Memory> {
        Ok(Regions {
            first: SlabMem::make(alloc)?,
            second: SlabMem::make(alloc)?,
        })
    }

    // Writes a piece into the first region.
    fn put(&mut self, at: usize, piece: &[u8]) {
        if at <= REGION && piece.len() <= REGION - at {
            self.first.put(at, piece);
        }
    }

    // Copies bytes of the first region to a place of the second.
    fn across(&mut self, at: usize, to: usize, len: usize) {
        if at <= REGION && to <= REGION && len <= REGION - at && len <= REGION - to {
            self.first.copy_across(at, &mut self.second, to, len);
        }
    }

    // Bytes of the second region.
    fn part(&self, at: usize, len: usize) -> &[u8] {
        if at <= REGION && len <= REGION - at {
            self.second.part(at, len)
        } else {
            &[]
        }
    }
}

// Writes the bytes that a word stands for into the first region.
fn put(regions: &mut Regions, alloc: Global, words: &[&str]) -> Result<String, Memory> {
    let piece = bytes_of(alloc, at(words, 3))?;
    regions.put(nth(words, 2) as usize, piece.as_slice());
    done(alloc)
}

// Bytes of the second region.
fn part_shown(regions: &Regions, alloc: Global, words: &[&str]) -> Result<String, Memory> {
    let part = regions.part(nth(words, 2) as usize, nth(words, 3) as usize);
    format!(in alloc; "{part:?}")
}

/// What a line of these words answers.
pub fn answer(regions: &mut Regions, alloc: Global, words: &[&str]) -> Result<String, Memory> {
    match at(words, 1) {
        "put" => put(regions, alloc, words),
        "part" => part_shown(regions, alloc, words),
        "across" => {
            let (from, to) = (nth(words, 2) as usize, nth(words, 3) as usize);
            regions.across(from, to, nth(words, 4) as usize);
            done(alloc)
        }
        _ => unknown(alloc),
    }
}
