//! A keyspace over a plain store that is sound from call to call.

ghost use Rattle.std.specs.Prelude.{◌<◌, ◌^◌, ℕ};
ghost use Rattle.blocks.specs.Blocks.{Changes, Owned};
ghost use Rattle.object_codec.specs.declared.limits.Limits.{Limits};
ghost use Rattle.keyspace.specs.Values.{value_refs, IsSound};

use blocks::{BlockStore, Memory, Moved, PlainStore};
use keyspace::{Keyspace, Lifted, Value};
use object_codec::Limits;
use std::alloc::Global;
use std::marker::Model;
use string_object::Text;

/// A keyspace over a plain store that is sound from call to call.
#[derive(Drop)]
pub struct Held {
    keyspace: Keyspace<PlainStore>,
}

impl Model for Held {
    ghost use Rattle.std.specs.Prelude.{ℕ};
    ghost use Rattle.blocks.specs.Plain.{plain_blocks};
    ghost use Rattle.keyspace.specs.Sound.{Sound};

    ghost Value = { ℕ };

    ghost view = { λ held. 0 };

    ghost invariant = { λ held. Sound held.keyspace.bases (plain_blocks held.keyspace.store) };
}

// The value as the text of a number, where it is a string.
fn renumbered<B: BlockStore>(value: Value, store: &mut B, n: i64) -> Value
    requires owned { Owned (value_refs (B.blocks store.old) value) (B.blocks store.old) }
    ensures changes { Changes (B.blocks store.old) (B.blocks store.new) (value_refs (B.blocks store.old) value) (value_refs (B.blocks store.new) result) }
    ensures sound { (limits : Limits) (seed : ℕ) → IsSound limits seed (B.blocks store.old) value → IsSound limits seed (B.blocks store.new) result }
{
    match value {
        Value::Text(mut text) => {
            text.set_number(store, n);
            Value::Text(text)
        }
        other => other,
    }
}

impl Held {
    /// No key, over a store without a live block.
    pub fn new(alloc: Global) -> Result<Held, Memory> {
        let keyspace = Keyspace::new(alloc, PlainStore::new(alloc), Limits::default(), 7)?;
        Ok(Held { keyspace })
    }

    /// Puts these bytes at the key, with a deadline in milliseconds where one is given.
    pub fn set(
        &mut self,
        db: usize,
        key: &[u8],
        bytes: &[u8],
        last: Option<u64>,
    ) -> Result<(), Memory>
        requires { db < 16 }
    {
        let text = Text::make(&mut self.keyspace.store, bytes)?;
        let last = match last {
            Some(moment) if moment < 1_000_000 => Some(moment),
            _ => None,
        };
        self.keyspace.put(db, key, Value::Text(text), last)
    }

    /// How many keys that are gone were dropped by so many steps at the moment.
    pub fn expire(&mut self, steps: u32, moment: u64) -> u64 {
        self.keyspace.expire(steps, moment)
    }

    /// Whether these bytes stand at the key.
    pub fn has(&self, db: usize, key: &[u8], bytes: &[u8]) -> bool
        requires { db < 16 }
    {
        let mut room = [0; 20];
        match self.keyspace.look(db, key, 0) {
            None => false,
            Some(value) => match value.as_text() {
                None => false,
                Some(text) => text.bytes(&self.keyspace.store, &mut room) == bytes,
            },
        }
    }

    /// Lets the string at the key be a number, and answers whether it was there.
    pub fn renumber(&mut self, db: usize, key: &[u8], n: i64) -> bool
        requires { db < 16 }
    {
        let Some(Lifted { db, item, value }) = self.keyspace.lift(db, key, 0) else {
            return false;
        };
        let value = renumbered(value, &mut self.keyspace.store, n);
        self.keyspace.lower(Lifted { db, item, value });
        true
    }

    /// Passes the blocks of the key of an item number; none where no key has it.
    pub fn relocate(&mut self, db: usize, at: usize) -> Option<Moved>
        requires { db < 16 }
    {
        if !self.keyspace.table(db).is_entry(at) {
            return None;
        }
        Some(self.keyspace.relocate_key_part(db, at, None, 33))
    }

    /// Removes the key, and answers whether it was there.
    pub fn drop_key(&mut self, db: usize, key: &[u8]) -> bool
        requires { db < 16 }
    {
        self.keyspace.drop_key(db, key)
    }

    /// Removes all keys of a database.
    pub fn clear(&mut self, db: usize)
        requires { db < 16 }
    {
        self.keyspace.clear(db);
    }

    /// How many keys a database has.
    pub fn count(&self, db: usize) -> u64
        requires { db < 16 }
    {
        self.keyspace.count(db)
    }

    /// The seed of the hashes.
    pub fn seed(&self) -> u64 {
        self.keyspace.seed()
    }

    /// The limits that values are made with.
    pub fn limits(&self) -> Limits {
        self.keyspace.limits()
    }
}
