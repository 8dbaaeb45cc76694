//! A sorted set in its store.

ghost use Rattle.blocks.specs.Plain.{plain_blocks};
ghost use Rattle.object_codec.specs.Limits.{AreInRange};
ghost use Rattle.zset_object.specs.Scored.{IsScored};

use itoa::Buffer;
use listpack::Element;
use object_codec::{Form, Limits};
use pack_pairs::text;
use scarce_store::ScarceStore;
use std::alloc::Global;
use std::marker::Model;
use zset_object::{Memory, Moved, Scored};

/// A sorted set in its store.
#[derive(Drop)]
pub struct Held {
    pub store: ScarceStore,
    pub set: Scored,
}

impl Model for Held {
    ghost use Rattle.std.specs.Prelude.{ℕ};
    ghost use Rattle.blocks.specs.Plain.{plain_blocks};
    ghost use Rattle.zset_object.specs.Scored.{IsScored};

    ghost Value = { ℕ };

    ghost view = { λ held. 0 };

    ghost invariant = { λ held. IsScored (plain_blocks held.store.plain) held.set };
}

/// Limits of sorted sets: how many members, and how long a member. No limit is above its range.
pub fn limits(entries: u32, value: u32) -> Limits
    ensures { AreInRange result }
{
    Limits {
        hash_entries: 512,
        set_entries: 128,
        zset_entries: entries.min(4096),
        hash_value: 64,
        set_value: 64,
        zset_value: value.min(4096),
        set_intset: 512,
    }
}

// Whether a sorted set has this score of this member.
fn has_pair(set: &Scored, store: &ScarceStore, pair: (Element<'_>, i64)) -> bool
    requires { IsScored (plain_blocks store.now.plain) set.now }
{
    let (member, score) = pair;
    let mut room = Buffer::new();
    set.score(store, text(member, &mut room)) == Some(score)
}

// How many members a walk along the ranks meets, each with the score that the sorted set has.
fn walked(set: &Scored, store: &ScarceStore) -> usize
    requires { IsScored (plain_blocks store.now.plain) set.now }
{
    let mut count: usize = 0;
    let mut next = set.cursor(store, 0);
    for _ in 0..=set.len() {
        match next {
            Some(cursor) => {
                let is_there = has_pair(set, store, set.pair(store, &cursor));
                count = count.saturating_add(usize::from(is_there));
                next = set.next(store, &cursor);
            }
            None => return count,
        }
    }
    count
}

// How many item numbers have a member, each with the score that the sorted set has.
fn numbered(set: &Scored, store: &ScarceStore) -> usize
    requires { IsScored (plain_blocks store.now.plain) set.now }
{
    let mut count: usize = 0;
    for item in 0..set.top() {
        if set.is_entry(item) && has_pair(set, store, set.at(store, item)) {
            count = count.saturating_add(1);
        }
    }
    count
}

impl Held {
    pub fn new(alloc: Global, limits: Limits) -> Held
        requires { AreInRange limits }
    {
        Held {
            store: ScarceStore::new(alloc),
            set: Scored::new(alloc, limits, 7),
        }
    }

    pub fn set(&mut self, member: &[u8], score: i64) -> Result<bool, Memory> {
        self.set.set(&mut self.store, member, score)
    }

    pub fn remove(&mut self, member: &[u8]) -> Result<bool, Memory> {
        self.set.remove(&mut self.store, member)
    }

    pub fn score(&self, member: &[u8]) -> Option<i64> {
        self.set.score(&self.store, member)
    }

    pub fn rank(&self, member: &[u8]) -> Option<usize> {
        self.set.rank(&self.store, member)
    }

    pub fn below(&self, least: i64) -> usize {
        self.set.below(&self.store, least)
    }

    /// Whether this member stands at the rank with this score.
    pub fn has_at(&self, rank: usize, member: &[u8], score: i64) -> bool {
        match self.set.at_rank(&self.store, rank) {
            Some((element, found)) => {
                let mut room = Buffer::new();
                text(element, &mut room) == member && found == score
            }
            None => false,
        }
    }

    /// Whether the member has the score and the rank, by each call that looks it up.
    pub fn ranks(&self, rank: usize, member: &[u8], score: i64) -> bool {
        self.score(member) == Some(score)
            && self.rank(member) == Some(rank)
            && self.has_at(rank, member, score)
    }

    /// How many members a walk meets.
    pub fn walked(&self) -> usize {
        walked(&self.set, &self.store)
    }

    /// How many members have an item number.
    pub fn numbered(&self) -> usize {
        numbered(&self.set, &self.store)
    }

    pub fn lacks(&self, member: &[u8]) -> bool {
        self.score(member).is_none() && self.rank(member).is_none()
    }

    /// Whether a member has this item number and this text.
    pub fn is_at(&self, item: usize, member: &[u8]) -> bool {
        if !self.set.is_entry(item) {
            return false;
        }
        let (found, _) = self.set.at(&self.store, item);
        let mut room = Buffer::new();
        text(found, &mut room) == member
    }

    /// The form behind a member that is new and has its score then. None where it isn't or hasn't.
    pub fn rise(&mut self, member: &[u8], score: i64) -> Result<Option<Form>, Memory> {
        if !self.set(member, score)? || self.score(member) != Some(score) {
            return Ok(None);
        }
        Ok(Some(self.set.form()))
    }

    pub fn release(self) {
        let Held { mut store, set } = self;
        set.release(&mut store);
    }

    /// Gives the members of the numbers below one their numbers for scores.
    pub fn set_numbers(&mut self, count: u32) -> Result<(), Memory> {
        for n in 0..count {
            self.set(Buffer::new().format(n).as_bytes(), n as i64)?;
        }
        Ok(())
    }

    pub fn relocate(&mut self, from: u128) -> Moved {
        self.set.relocate_part(&mut self.store, from, 32)
    }

    /// Whether a copy has the form of the sorted set, and meets as many members.
    pub fn is_copied(&mut self) -> Result<bool, Memory> {
        let copy = self.set.copy(&mut self.store)?;
        let is_same = copy.form() == self.set.form()
            && walked(&copy, &self.store) == self.set.len();
        copy.release(&mut self.store);
        Ok(is_same)
    }

    /// The form behind the members `m0` and on, from one number to below another, each new one with a lower score.
    pub fn fill_behind(&mut self, alloc: Global, from: u32, to: u32) -> Result<Form, Memory> {
        for n in from..to {
            let member = format!(in alloc; "m{n}")?;
            self.set(member.as_bytes(), -(n as i64))?;
        }
        Ok(self.set.form())
    }
}
