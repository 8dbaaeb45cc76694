//! A set in its store.

ghost use Rattle.blocks.specs.Plain.{plain_blocks};
ghost use Rattle.object_codec.specs.Limits.{AreInRange};
ghost use Rattle.set_object.specs.Members.{IsMembers};

use itoa::Buffer;
use listpack::Element;
use object_codec::{Form, Limits};
use scarce_store::ScarceStore;
use set_object::{Members, Memory, Moved};
use std::alloc::Global;
use std::marker::Model;
use std::mem;

/// A set in its store.
#[derive(Drop)]
pub struct Held {
    pub store: ScarceStore,
    pub set: Members,
}

impl Model for Held {
    ghost use Rattle.std.specs.Prelude.{ℕ};
    ghost use Rattle.blocks.specs.Plain.{plain_blocks};
    ghost use Rattle.set_object.specs.Members.{IsMembers};

    ghost Value = { ℕ };

    ghost view = { λ held. 0 };

    ghost invariant = { λ held. IsMembers (plain_blocks held.store.plain) held.set };
}

/// Limits of sets: how many numbers, how many members, and how long a member. No limit is above its range.
pub fn limits(numbers: u32, entries: u32, value: u32) -> Limits
    ensures { AreInRange result }
{
    Limits {
        hash_entries: 512,
        set_entries: entries.min(4096),
        zset_entries: 128,
        hash_value: 64,
        set_value: value.min(4096),
        zset_value: 64,
        set_intset: numbers.min(65536),
    }
}

// How many members of a set a walk meets, each of which it has.
fn walked(set: &Members, store: &ScarceStore) -> usize
    requires { IsMembers (plain_blocks store.now.plain) set.now }
{
    let mut count: usize = 0;
    let mut next = set.first(store);
    for _ in 0..=set.len() {
        match next {
            Some(cursor) => {
                let is_there = match set.element(store, cursor) {
                    Element::Text(text) => set.has(store, text),
                    Element::Number(n) => set.has(store, Buffer::new().format(n).as_bytes()),
                };
                count = count.saturating_add(usize::from(is_there));
                next = set.next(store, cursor);
            }
            None => return count,
        }
    }
    count
}

impl Held {
    pub fn new(alloc: Global, limits: Limits) -> Held
        requires { AreInRange limits }
    {
        Held {
            store: ScarceStore::new(alloc),
            set: Members::new(alloc, limits, 7),
        }
    }

    pub fn add(&mut self, member: &[u8]) -> Result<bool, Memory> {
        self.set.add(&mut self.store, member)
    }

    pub fn remove(&mut self, member: &[u8]) -> Result<bool, Memory> {
        self.set.remove(&mut self.store, member)
    }

    pub fn has(&self, member: &[u8]) -> bool {
        self.set.has(&self.store, member)
    }

    /// The form behind a member that is new and there then. None where it isn't.
    pub fn rise(&mut self, member: &[u8]) -> Result<Option<Form>, Memory> {
        if !self.add(member)? || !self.has(member) {
            return Ok(None);
        }
        Ok(Some(self.set.form()))
    }

    /// Whether a member is there, and no more when it was taken out.
    pub fn leave(&mut self, member: &[u8]) -> Result<bool, Memory> {
        if !self.remove(member)? || self.has(member) {
            return Ok(false);
        }
        let again = self.remove(member)?;
        Ok(!again)
    }

    pub fn release(self) {
        let Held { mut store, set } = self;
        set.release(&mut store);
    }

    pub fn relocate(&mut self, from: u128) -> Moved {
        self.set.relocate_part(&mut self.store, from, 32)
    }

    /// Puts a copy in the place of the set, which is given back.
    pub fn copied(&mut self) -> Result<(), Memory> {
        let copy = self.set.copy(&mut self.store)?;
        mem::replace(&mut self.set, copy).release(&mut self.store);
        Ok(())
    }

    /// How many members a walk meets.
    pub fn walked(&self) -> usize {
        walked(&self.set, &self.store)
    }

    /// Whether a member has this item number and this text.
    pub fn is_at(&self, item: usize, text: &[u8]) -> bool {
        if !self.set.is_entry(item) {
            return false;
        }
        match self.set.at(&self.store, item) {
            Element::Text(part) => part == text,
            Element::Number(n) => Buffer::new().format(n).as_bytes() == text,
        }
    }

    /// What is passed where nothing wants to move.
    pub fn passed(&self, from: u128) -> Option<Moved> {
        self.set.passed(&self.store, from, 32)
    }

    pub fn add_numbers(&mut self, from: u32, to: u32) -> Result<(), Memory> {
        for n in from..to {
            self.add(Buffer::new().format(n).as_bytes())?;
        }
        Ok(())
    }

    pub fn count_numbers(&self, from: u32, to: u32) -> usize {
        let mut count: usize = 0;
        for n in from..to {
            if self.has(Buffer::new().format(n).as_bytes()) {
                count = count.saturating_add(1);
            }
        }
        count
    }

    /// The form behind so many members, numbers behind a prefix.
    pub fn fill_behind(
        &mut self,
        alloc: Global,
        prefix: &str,
        from: u32,
        to: u32,
    ) -> Result<Form, Memory> {
        for n in from..to {
            let member = format!(in alloc; "{prefix}{n}")?;
            self.add(member.as_bytes())?;
        }
        Ok(self.set.form())
    }
}
