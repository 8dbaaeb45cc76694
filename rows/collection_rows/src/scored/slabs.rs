//! A sorted set over a class heap: blocks that move from slabs that are half empty. A slab holds 64 blocks of 1,024 bytes.

use super::held::limits;
use blocks::BlockStore;
use class_heap::ClassHeap;
use listpack::Element;
use row_words::{done, shown, unknown};
use std::alloc::Global;
use std::marker::Model;
use zset_object::{Memory, Scored};

// A sorted set over slabs.
#[derive(Drop)]
struct Stored {
    heap: ClassHeap,
    set: Scored,
}

impl Model for Stored {
    ghost use Rattle.std.specs.Prelude.{ℕ};
    ghost use Rattle.class_heap.specs.Heap.{heap_blocks};
    ghost use Rattle.zset_object.specs.Scored.{IsScored};

    ghost Value = { ℕ };

    ghost view = { λ stored. 0 };

    ghost invariant = { λ stored. IsScored (heap_blocks stored.heap) stored.set };
}

impl Stored {
    fn new(alloc: Global) -> Stored {
        Stored {
            heap: ClassHeap::new(alloc),
            set: Scored::new(alloc, limits(0, 0), 7),
        }
    }

    fn set(&mut self, member: u8, score: i64) -> Result<bool, Memory> {
        self.set.set(&mut self.heap, &[member; 1000], score)
    }

    fn remove(&mut self, member: u8) -> Result<bool, Memory> {
        self.set.remove(&mut self.heap, &[member; 1000])
    }

    fn score(&self, member: u8) -> Option<i64> {
        self.set.score(&self.heap, &[member; 1000])
    }

    // Whether this member stands at the rank with this score.
    fn has_at(&self, rank: usize, member: u8, score: i64) -> bool {
        match self.set.at_rank(&self.heap, rank) {
            Some((Element::Text(text), found)) => text == [member; 1000].as_slice()
                && found == score,
            _ => false,
        }
    }

    // How many slabs there are for members.
    fn slabs(&self) -> u64 {
        self.heap.use_of(20).slabs
    }

    // Goes through the blocks from the first mark to the end, at most 32 at a time, and answers how many it passed.
    fn relocate_all(&mut self) -> Option<u64> {
        let mut passed: u64 = 0;
        let mut from = 0;
        for _ in 0..64 {
            let moved = self.set.relocate_part(&mut self.heap, from, 32);
            passed = passed.saturating_add(u64::from(moved.used));
            match moved.next {
                Some(next) => from = next,
                None => return Some(passed),
            }
        }
        None
    }

    // How many blocks and vacant item numbers a pass went through. None is answered where blocks want to move after it.
    fn pass(&mut self) -> Option<u64> {
        self.heap.begin_pass();
        let passed = self.relocate_all();
        let is_calm = self.heap.is_calm();
        self.heap.end_pass();
        if is_calm { passed } else { None }
    }
}

/// A sorted set beside a plain map: the score of each member by its byte.
#[derive(Drop)]
pub struct Twin {
    stored: Stored,
    scores: [Option<i64>; 256],
}

impl Twin {
    pub fn new(alloc: Global) -> Twin {
        Twin {
            stored: Stored::new(alloc),
            scores: [None; 256],
        }
    }

    fn set(&mut self, member: u8, score: i64) -> Result<(), Memory> {
        let _new = self.stored.set(member, score)?;
        self.scores[member as usize] = Some(score);
        Ok(())
    }

    fn remove(&mut self, member: u8) -> Result<(), Memory> {
        let _was = self.stored.remove(member)?;
        self.scores[member as usize] = None;
        Ok(())
    }

    // Gives each member a score, the later ones the lower scores.
    fn fill(&mut self) -> Result<(), Memory> {
        for member in 0..=255u8 {
            self.set(member, -i64::from(member))?;
        }
        Ok(())
    }

    // Takes every second member out.
    fn thin(&mut self) -> Result<(), Memory> {
        for half in 0..128u8 {
            self.remove(2 * half)?;
        }
        Ok(())
    }

    // How many members have the score of the plain map or are in neither.
    fn alike(&self) -> usize {
        let mut count: usize = 0;
        for member in 0..=255u8 {
            let is_alike = self.stored.score(member) == self.scores[member as usize];
            count = count.saturating_add(usize::from(is_alike));
        }
        count
    }

    // How many members of the plain map, from the last one on, stand at the ranks that follow one another from 0 on.
    fn ranked(&self) -> usize {
        let mut rank: usize = 0;
        for before in 0..=255u8 {
            let member = 255 - before;
            if let Some(score) = self.scores[member as usize] {
                if self.stored.has_at(rank, member, score) {
                    rank = rank.saturating_add(1);
                }
            }
        }
        rank
    }
}

/// What a line of this word answers.
pub fn answer(twin: &mut Twin, alloc: Global, name: &str) -> Result<String, Memory> {
    match name {
        "fill" => {
            twin.fill()?;
            done(alloc)
        }
        "thin" => {
            twin.thin()?;
            done(alloc)
        }
        "alike" => shown(alloc, Some(twin.alike() as u64)),
        "ranked" => shown(alloc, Some(twin.ranked() as u64)),
        "len" => shown(alloc, Some(twin.stored.set.len() as u64)),
        "slabs" => shown(alloc, Some(twin.stored.slabs())),
        "units" => shown(alloc, Some(u64::from(twin.stored.set.units()))),
        "pass" => shown(alloc, twin.stored.pass()),
        _ => unknown(alloc),
    }
}
