//! Scores of one member, beside the store of its block.

use blocks::{BlockRef, BlockStore, PlainStore, put_block};
use score_list::{Memory, Scores};
use std::alloc::Global;
use std::marker::Model;

/// Scores of one member, beside the store of its block.
#[derive(Drop)]
pub struct Held {
    pub store: PlainStore,
    pub member: BlockRef,
    pub scores: Scores,
}

impl Model for Held {
    ghost use Rattle.std.specs.Prelude.{ℕ, IsSome};
    ghost use Rattle.blocks.specs.Plain.{plain_blocks};
    ghost use Rattle.score_list.specs.Sorted.{IsSorted};

    ghost Value = { ℕ };

    ghost view = { λ held. 0 };

    ghost invariant = { λ held. IsSorted (plain_blocks held.store) held.scores × IsSome (plain_blocks held.store held.member) };
}

impl Held {
    pub fn new(alloc: Global) -> Result<Held, Memory> {
        let mut store = PlainStore::new(alloc);
        let member = put_block(&mut store, b"m")?;
        Ok(Held {
            store,
            member,
            scores: Scores::new(alloc, 7),
        })
    }

    pub fn rank(&self, score: i64) -> Option<usize> {
        let bytes = self.store.bytes(self.member);
        self.scores.rank_of(&self.store, score, bytes)
    }

    /// Puts a score where it isn't there yet.
    pub fn insert(&mut self, score: i64) -> Result<bool, Memory> {
        let bytes = self.store.bytes(self.member);
        match self.scores.rank_of(&self.store, score, bytes) {
            Some(_) => Ok(false),
            None => {
                self.scores.insert(&self.store, score, self.member)?;
                Ok(true)
            }
        }
    }

    pub fn remove(&mut self, score: i64) -> bool {
        let bytes = self.store.bytes(self.member);
        self.scores.remove(&self.store, score, bytes)
    }

    /// The score at a rank.
    pub fn score_at(&self, rank: usize) -> Option<i64> {
        match self.scores.at_rank(rank) {
            Some((score, _)) => Some(score),
            None => None,
        }
    }

    /// Whether the scores are just those from one up to below another, in their order.
    pub fn spans(&self, from: i64, to: i64) -> bool {
        let mut next = from;
        for rank in 0..self.scores.len() {
            if self.score_at(rank) != Some(next) {
                return false;
            }
            next = next.wrapping_add(1);
        }
        next == to
    }
}
