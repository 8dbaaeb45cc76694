//! A table of scores in its store.

use blocks::{BlockStore, PlainStore};
use score_table::{Memory, ScoreTable};
use std::alloc::Global;
use std::marker::Model;
use std::mem;

/// A table of scores in its store.
#[derive(Drop)]
pub struct Held {
    pub store: PlainStore,
    pub table: ScoreTable,
}

impl Model for Held {
    ghost use Rattle.std.specs.Prelude.{ℕ};
    ghost use Rattle.blocks.specs.Plain.{plain_blocks};
    ghost use Rattle.score_table.specs.Scored.{IsScoreTable};

    ghost Value = { ℕ };

    ghost view = { λ held. 0 };

    ghost invariant = { λ held. IsScoreTable (plain_blocks held.store) held.table };
}

impl Held {
    pub fn new(alloc: Global) -> Held {
        Held {
            store: PlainStore::new(alloc),
            table: ScoreTable::new(alloc, 7),
        }
    }

    pub fn set(&mut self, score: i64, member: &[u8]) -> Result<bool, Memory> {
        self.table.set(&mut self.store, score, member)
    }

    /// Puts a member in that isn't there, and answers whether it is new.
    pub fn add(&mut self, score: i64, member: &[u8]) -> Result<bool, Memory> {
        match self.table.score(&self.store, member) {
            Some(_) => Ok(false),
            None => {
                self.table.add(&mut self.store, score, member)?;
                Ok(true)
            }
        }
    }

    pub fn take_out(&mut self, member: &[u8]) -> Option<i64> {
        self.table.take_out(&mut self.store, member)
    }

    pub fn shrink(&mut self) -> Result<bool, Memory> {
        self.table.shrink()
    }

    pub fn settle_item(&mut self, item: usize) {
        self.table.settle_item(&mut self.store, item);
    }

    /// Puts a copy in the place of the table, which is given back.
    pub fn copied(&mut self, alloc: Global) -> Result<(), Memory> {
        let copy = self.table.copy(alloc, 9, &mut self.store)?;
        mem::replace(&mut self.table, copy).release(&mut self.store);
        Ok(())
    }

    pub fn score(&self, member: &[u8]) -> Option<i64> {
        self.table.score(&self.store, member)
    }

    pub fn rank(&self, member: &[u8]) -> Option<usize> {
        self.table.rank(&self.store, member)
    }

    /// Whether this pair stands at a rank.
    pub fn is_at(&self, rank: usize, score: i64, member: &[u8]) -> bool {
        match self.table.at_rank(rank) {
            Some((found, block)) => found == score && self.store.bytes(block) == member,
            None => false,
        }
    }

    /// Whether this pair has an item number.
    pub fn is_item(&self, item: usize, score: i64, member: &[u8]) -> bool {
        if !self.table.is_entry(item) {
            return false;
        }
        let (found, block) = self.table.entry(item);
        found == score && self.store.bytes(block) == member
    }

    pub fn release(self) {
        let Held { mut store, table } = self;
        table.release(&mut store);
    }

    /// Whether this pair stands at the rank, by each call that looks it up.
    pub fn ranks(&self, rank: usize, score: i64, member: &[u8]) -> bool {
        self.is_at(rank, score, member)
            && self.rank(member) == Some(rank)
            && self.score(member) == Some(score)
    }

    /// How many ranks a walk meets in their turn, each with its pair.
    pub fn walked(&self) -> usize {
        let mut count: usize = 0;
        let mut next = self.table.cursor(0);
        for rank in 0..=self.table.len() {
            match next {
                Some(at) => {
                    let is_there = at.rank() == rank && self.table.at_rank(rank) == Some(at.get());
                    count = count.saturating_add(usize::from(is_there));
                    next = at.next();
                }
                None => return count,
            }
        }
        count
    }

    /// Whether there are so many pairs, and none at that rank.
    pub fn ends_at(&self, count: usize) -> bool {
        self.table.len() == count
            && self.table.at_rank(count).is_none()
            && self.table.cursor(count).is_none()
    }

    /// Puts a pair in, and tells whether it is new and there the second time.
    pub fn take(&mut self, score: i64, member: &[u8]) -> Result<bool, Memory> {
        if !self.add(score, member)? {
            return Ok(false);
        }
        let again = self.set(score, member)?;
        Ok(!again)
    }

    /// Whether no call finds the member.
    pub fn lacks(&self, member: &[u8]) -> bool {
        self.score(member).is_none() && self.rank(member).is_none()
    }
}
