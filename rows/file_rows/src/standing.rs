//! A keyspace over a plain store that is sound from call to call, and what is loaded into it.

ghost use Rattle.std.specs.Prelude.{◌<◌};

use blocks::PlainStore;
use keyspace::{Keyspace, Value};
use object_codec::Limits;
use outside::MemHost;
use rdb_reader::{LoadFault, Loaded, load};
use std::alloc::{AllocError, Global};
use std::marker::Model;
use string_object::Text;

/// A keyspace over a plain store that is sound from call to call.
#[derive(Drop)]
pub struct Held {
    keyspace: Keyspace<PlainStore>,
}

impl Model for Held {
    ghost use Rattle.std.specs.Prelude.{ℕ};
    ghost use Rattle.blocks.specs.Plain.{plain_blocks};
    ghost use Rattle.keyspace.specs.Sound.{Sound};

    ghost Value = { ℕ };

    ghost view = { λ held. 0 };

    ghost invariant = { λ held. Sound held.keyspace.bases (plain_blocks held.keyspace.store) };
}

impl Held {
    /// No key.
    pub fn new(alloc: Global) -> Result<Held, AllocError> {
        let keyspace = Keyspace::new(alloc, PlainStore::new(alloc), Limits::default(), 0)?;
        Ok(Held { keyspace })
    }

    /// How many keys a database has.
    pub fn count(&self, db: usize) -> u64
        requires { db < 16 }
    {
        self.keyspace.count(db)
    }

    /// The keys of all databases. So many that they have no number are as many as have the greatest.
    pub fn count_all(&self) -> u64 {
        let mut keys: u64 = 0;
        for db in 0..16 {
            keys = keys.saturating_add(self.count(db));
        }
        keys
    }

    /// Whether these bytes stand at the key of a database.
    pub fn has(&self, db: usize, key: &[u8], bytes: &[u8]) -> bool
        requires { db < 16 }
    {
        let mut room = [0; 20];
        match self.keyspace.look(db, key, 0) {
            None => false,
            Some(value) => match value.as_text() {
                None => false,
                Some(text) => text.bytes(&self.keyspace.store, &mut room) == bytes,
            },
        }
    }

    /// The deadline of a key in milliseconds.
    pub fn deadline(&self, db: usize, key: &[u8]) -> Option<u64>
        requires { db < 16 }
    {
        self.keyspace.deadline(db, key)
    }

    /// The encoding of the string at the key of database 0.
    pub fn encoding(&self, key: &[u8]) -> &'static str {
        match self.keyspace.look(0, key, 0) {
            None => "none",
            Some(value) => match value.as_text() {
                None => "other",
                Some(text) => text.name(&self.keyspace.store).text(),
            },
        }
    }

    /// Puts these bytes at the key of database 0.
    pub fn set(&mut self, key: &[u8], bytes: &[u8]) -> Result<(), AllocError> {
        let text = Text::make(&mut self.keyspace.store, bytes)?;
        self.keyspace.put(0, key, Value::Text(text), None)
    }
}

/// What loading is given.
#[derive(Drop)]
pub struct Given {
    /// The name that is asked for. The host has the file `f` alone.
    pub name: String,
    /// The calls of the host that fail.
    pub failing: Vec<u64>,
    /// So many bytes at most.
    pub limit: u64,
    /// The moment of loading in milliseconds.
    pub moment: u64,
}

impl Given {
    pub fn new(alloc: Global) -> Result<Given, AllocError> {
        Ok(Given {
            name: String::from_str(alloc, "f")?,
            failing: Vec::new(alloc),
            limit: 1_000_000,
            moment: 0,
        })
    }
}

/// Loads the file `f` of these bytes.
pub fn loaded(
    alloc: Global,
    given: &Given,
    bytes: &[u8],
) -> Result<(Held, Result<Loaded, LoadFault>), AllocError> {
    let names = vec![in alloc; String::from_str(alloc, "f")?]?;
    let files = vec![in alloc; Vec::from_slice(alloc, bytes)?]?;
    let failing = Vec::from_slice(alloc, given.failing.as_slice())?;
    let mut host = MemHost::new(names, files, failing);
    let mut keyspace = Keyspace::new(alloc, PlainStore::new(alloc), Limits::default(), 0)?;
    let answer = load(
        alloc,
        &mut host,
        given.name.as_str(),
        given.limit,
        &mut keyspace,
        given.moment,
    );
    Ok((Held { keyspace }, answer))
}
