//! A stream in its store.

use blocks::Moved;
use scarce_store::ScarceStore;
use std::alloc::Global;
use std::marker::Model;
use std::mem;
use stream_object::{AddFault, Again, Id, Memory, Owned, Pairs, Stream};

/// A stream in its store.
#[derive(Drop)]
pub struct Held {
    pub store: ScarceStore,
    pub stream: Stream,
}

impl Model for Held {
    ghost use Rattle.std.specs.Prelude.{ℕ};
    ghost use Rattle.blocks.specs.Plain.{plain_blocks};
    ghost use Rattle.stream_object.specs.Streams.{IsStream};

    ghost Value = { ℕ };

    ghost view = { λ held. 0 };

    ghost invariant = { λ held. IsStream (plain_blocks held.store.plain) held.stream };
}

impl Held {
    pub fn new(alloc: Global) -> Held {
        Held {
            store: ScarceStore::new(alloc),
            stream: Stream::new(alloc),
        }
    }

    /// Adds an entry of one short field and value; where they aren't short, nothing.
    pub fn add(
        &mut self,
        alloc: Global,
        id: Id,
        field: &[u8],
        value: &[u8],
    ) -> Result<(), AddFault> {
        if field.len() > 100000 || value.len() > 100000 {
            return Ok(());
        }
        let mut pairs = Pairs::new(alloc);
        match pairs.push(field, value) {
            Ok(()) => self.stream.add(&mut self.store, id, &pairs),
            Err(_) => Err(AddFault::Memory),
        }
    }

    /// Adds so many entries at one millisecond after the other, from the first one on.
    pub fn fill(&mut self, alloc: Global, count: u64) -> Result<(), AddFault> {
        for n in 0..count {
            let id = Id {
                ms: n.saturating_add(1),
                seq: 0,
            };
            self.add(alloc, id, b"f", b"v")?;
        }
        Ok(())
    }

    /// Goes through the blocks from an id on, at most so many of them.
    pub fn pass(&mut self, from: Id, room: u32) -> Moved {
        self.stream
            .relocate_part(&mut self.store, from.number(), room.max(32))
    }

    pub fn delete(&mut self, id: Id) -> Result<bool, Memory> {
        self.stream.delete(&mut self.store, id)
    }

    pub fn trim_len(&mut self, keep: u64) -> Result<u64, Memory> {
        self.stream.trim_len(&mut self.store, keep)
    }

    pub fn trim_id(&mut self, least: Id) -> Result<u64, Memory> {
        self.stream.trim_id(&mut self.store, least)
    }

    pub fn range(&self, from: Id, to: Id, back: bool, limit: u64) -> Result<Vec<Owned>, Memory> {
        self.stream.range(&self.store, from, to, back, limit)
    }

    pub fn group(&mut self, name: &[u8], last: Id) -> Result<bool, Memory> {
        self.stream.group_create(name, last)
    }

    pub fn deliver(
        &mut self,
        name: &[u8],
        consumer: &[u8],
        limit: u64,
        moment: u64,
    ) -> Result<Option<Vec<Owned>>, Memory> {
        self.stream
            .deliver(&self.store, name, consumer, limit, moment)
    }

    pub fn redeliver(
        &mut self,
        name: &[u8],
        consumer: &[u8],
        above: Id,
        limit: u64,
        moment: u64,
    ) -> Result<Option<Vec<Again>>, Memory> {
        self.stream
            .redeliver(&self.store, name, consumer, above, limit, moment)
    }

    pub fn ack(&mut self, name: &[u8], id: Id) -> bool {
        self.stream.ack(name, id)
    }

    /// How many nodes the stream has.
    pub fn nodes(&self) -> u64 {
        let mut count: u64 = 0;
        let mut key = Id { ms: 0, seq: 0 };
        for _ in 0..10000 {
            let Some((found, _)) = self.stream.node_at_or_after(&self.store, key) else {
                return count;
            };
            count = count.saturating_add(1);
            match found.next() {
                Some(next) => key = next,
                None => return count,
            }
        }
        count
    }

    /// Puts a copy in the place of the stream, which is given back.
    pub fn copied(&mut self) -> Result<(), Memory> {
        let copy = self.stream.copy(&mut self.store)?;
        mem::replace(&mut self.stream, copy).release(&mut self.store);
        Ok(())
    }

    pub fn release(self) {
        let Held { mut store, stream } = self;
        stream.release(&mut store);
    }
}
