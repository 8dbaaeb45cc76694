//! A hash in its store.

ghost use Rattle.blocks.specs.Plain.{plain_blocks};
ghost use Rattle.object_codec.specs.Limits.{AreInRange};
ghost use Rattle.hash_object.specs.Fields.{IsFields};

use hash_object::{Fields, Memory, Moved};
use itoa::Buffer;
use listpack::Element;
use object_codec::{Form, Limits};
use pack_pairs::text;
use scarce_store::ScarceStore;
use std::alloc::Global;
use std::marker::Model;

/// A hash in its store.
#[derive(Drop)]
pub struct Held {
    pub store: ScarceStore,
    pub hash: Fields,
}

impl Model for Held {
    ghost use Rattle.std.specs.Prelude.{ℕ};
    ghost use Rattle.blocks.specs.Plain.{plain_blocks};
    ghost use Rattle.hash_object.specs.Fields.{IsFields};

    ghost Value = { ℕ };

    ghost view = { λ held. 0 };

    ghost invariant = { λ held. IsFields (plain_blocks held.store.plain) held.hash };
}

/// Limits of hashes: how many fields, and how long a field or a value. No limit is above its range.
pub fn limits(entries: u32, value: u32) -> Limits
    ensures { AreInRange result }
{
    Limits {
        hash_entries: entries.min(4096),
        set_entries: 128,
        zset_entries: 128,
        hash_value: value.min(4096),
        set_value: 64,
        zset_value: 64,
        set_intset: 512,
    }
}

// Whether a hash has this value at this field.
fn has_pair(hash: &Fields, store: &ScarceStore, pair: (Element<'_>, Element<'_>)) -> bool
    requires { IsFields (plain_blocks store.now.plain) hash.now }
{
    let (field, value) = pair;
    let mut field_room = Buffer::new();
    match hash.get(store, text(field, &mut field_room)) {
        Some(found) => {
            let mut found_room = Buffer::new();
            let mut value_room = Buffer::new();
            text(found, &mut found_room) == text(value, &mut value_room)
        }
        None => false,
    }
}

// How many fields a walk meets, each with the value that the hash has.
fn walked(hash: &Fields, store: &ScarceStore) -> usize
    requires { IsFields (plain_blocks store.now.plain) hash.now }
{
    let mut count: usize = 0;
    let mut next = hash.first(store);
    for _ in 0..=hash.len() {
        match next {
            Some(cursor) => {
                let is_there = has_pair(hash, store, hash.pair(store, cursor));
                count = count.saturating_add(usize::from(is_there));
                next = hash.next(store, cursor);
            }
            None => return count,
        }
    }
    count
}

// How many item numbers have a field, each with the value that the hash has.
fn numbered(hash: &Fields, store: &ScarceStore) -> usize
    requires { IsFields (plain_blocks store.now.plain) hash.now }
{
    let mut count: usize = 0;
    for item in 0..hash.top() {
        if hash.is_entry(item) && has_pair(hash, store, hash.at(store, item)) {
            count = count.saturating_add(1);
        }
    }
    count
}

impl Held {
    pub fn new(alloc: Global, limits: Limits) -> Held
        requires { AreInRange limits }
    {
        Held {
            store: ScarceStore::new(alloc),
            hash: Fields::new(alloc, limits, 7),
        }
    }

    pub fn set(&mut self, field: &[u8], value: &[u8]) -> Result<bool, Memory> {
        self.hash.set(&mut self.store, field, value)
    }

    pub fn remove(&mut self, field: &[u8]) -> Result<bool, Memory> {
        self.hash.remove(&mut self.store, field)
    }

    /// Whether the field has this value.
    pub fn has(&self, field: &[u8], value: &[u8]) -> bool {
        match self.hash.get(&self.store, field) {
            Some(Element::Text(text)) => text == value,
            Some(Element::Number(n)) => Buffer::new().format(n).as_bytes() == value,
            None => false,
        }
    }

    pub fn lacks(&self, field: &[u8]) -> bool {
        self.hash.get(&self.store, field).is_none()
    }

    /// Whether a field has this item number and this text.
    pub fn is_at(&self, item: usize, field: &[u8]) -> bool {
        if !self.hash.is_entry(item) {
            return false;
        }
        let (found, _) = self.hash.at(&self.store, item);
        let mut room = Buffer::new();
        text(found, &mut room) == field
    }

    /// The form behind a field that is new and has its value then. None where it isn't or hasn't.
    pub fn rise(&mut self, field: &[u8], value: &[u8]) -> Result<Option<Form>, Memory> {
        if !self.set(field, value)? || !self.has(field, value) {
            return Ok(None);
        }
        Ok(Some(self.hash.form()))
    }

    /// Whether a field is there, and no more when it was taken out.
    pub fn leave(&mut self, field: &[u8]) -> Result<bool, Memory> {
        if !self.remove(field)? || !self.lacks(field) {
            return Ok(false);
        }
        let again = self.remove(field)?;
        Ok(!again)
    }

    /// How many fields a walk meets.
    pub fn walked(&self) -> usize {
        walked(&self.hash, &self.store)
    }

    /// How many fields have an item number.
    pub fn numbered(&self) -> usize {
        numbered(&self.hash, &self.store)
    }

    pub fn release(self) {
        let Held { mut store, hash } = self;
        hash.release(&mut store);
    }

    /// Gives the fields of the numbers below one their numbers for values.
    pub fn set_numbers(&mut self, count: u32) -> Result<(), Memory> {
        for n in 0..count {
            let mut room = Buffer::new();
            let text = room.format(n).as_bytes();
            self.set(text, text)?;
        }
        Ok(())
    }

    /// How many of the numbers below one have themselves for values.
    pub fn count_numbers(&self, count: u32) -> usize {
        let mut there: usize = 0;
        for n in 0..count {
            let mut room = Buffer::new();
            let text = room.format(n).as_bytes();
            there = there.saturating_add(usize::from(self.has(text, text)));
        }
        there
    }

    pub fn relocate(&mut self, from: u128) -> Moved {
        self.hash.relocate_part(&mut self.store, from, 32)
    }

    /// Whether a copy has the form of the hash, and meets as many fields.
    pub fn is_copied(&mut self) -> Result<bool, Memory> {
        let copy = self.hash.copy(&mut self.store)?;
        let is_same = copy.form() == self.hash.form()
            && walked(&copy, &self.store) == self.hash.len();
        copy.release(&mut self.store);
        Ok(is_same)
    }

    /// The form behind the fields `f0` and on, from one number to below another.
    pub fn fill_behind(&mut self, alloc: Global, from: u32, to: u32) -> Result<Form, Memory> {
        for n in from..to {
            let field = format!(in alloc; "f{n}")?;
            self.set(field.as_bytes(), b"v")?;
        }
        Ok(self.hash.form())
    }
}
