//! A pass over a keyspace packs its slabs. A slab has 65,536 bytes, so that 1,024 blocks of 60 bytes stand in a slab of the class
//! of 64, and the blocks that are left pack into the least number of slabs.

ghost use Rattle.std.specs.Prelude.{◌<◌, ◌^◌, []};
ghost use Rattle.class_heap.specs.Heap.{heap_blocks};
ghost use Rattle.keyspace.specs.Sound.{Sound};

use blocks::{BlockStore, Memory};
use class_heap::ClassHeap;
use defrag::{Visit, Walk};
use keyspace::{Keyspace, Value};
use object_codec::Limits;
use std::alloc::Global;
use std::marker::Model;
use string_object::Text;

// The class of blocks of 49 to 64 bytes.
const CLASS: usize = 4;

// The database that has keys.
const DATABASE: usize = 15;

// A keyspace over a class heap that is sound from call to call.
#[derive(Drop)]
struct Packed {
    keyspace: Keyspace<ClassHeap>,
}

impl Model for Packed {
    ghost use Rattle.std.specs.Prelude.{ℕ};
    ghost use Rattle.class_heap.specs.Heap.{heap_blocks};
    ghost use Rattle.keyspace.specs.Sound.{Sound};

    ghost Value = { ℕ };

    ghost view = { λ packed. 0 };

    ghost invariant = { λ packed. Sound packed.keyspace.bases (heap_blocks packed.keyspace.store) };
}

// Makes the steps of a whole pass, at most so many, and answers how many they were, or 0 where the pass isn't over.
fn pack(keyspace: &mut Keyspace<ClassHeap>, most: u32) -> u32
    requires { Sound keyspace.old.bases (heap_blocks keyspace.old.store) }
    ensures { Sound keyspace.new.bases (heap_blocks keyspace.new.store) }
{
    let mut walk = Walk::start(keyspace);
    for made in 0..most {
        if walk.step(keyspace) == Visit::Done {
            return made + 1;
        }
    }
    0
}

impl Packed {
    fn new(alloc: Global) -> Result<Packed, Memory> {
        let keyspace = Keyspace::new(alloc, ClassHeap::new(alloc), Limits::default(), 7)?;
        Ok(Packed { keyspace })
    }

    // Puts 60 bytes at the key, with a deadline in milliseconds where one is given.
    fn set(&mut self, key: &[u8], byte: u8, to: Option<u64>) -> Result<(), Memory> {
        let text = Text::make(&mut self.keyspace.store, &[byte; 60])?;
        let to = match to {
            Some(moment) if moment < 1_000_000 => Some(moment),
            _ => None,
        };
        self.keyspace.put(DATABASE, key, Value::Text(text), to)
    }

    // Whether 60 of this byte stand at the key.
    fn has(&self, key: &[u8], byte: u8) -> bool {
        let mut room = [0; 20];
        match self.keyspace.look(DATABASE, key, 0) {
            None => false,
            Some(value) => match value.as_text() {
                None => false,
                Some(text) => {
                    text.bytes(&self.keyspace.store, &mut room) == [byte; 60].as_slice()
                }
            },
        }
    }

    fn deadline(&self, key: &[u8]) -> Option<u64> {
        self.keyspace.deadline(DATABASE, key)
    }

    fn drop_key(&mut self, key: &[u8]) -> bool {
        self.keyspace.drop_key(DATABASE, key)
    }

    fn pack(&mut self) -> u32 {
        pack(&mut self.keyspace, 1000)
    }

    fn slabs(&self) -> u64 {
        self.keyspace.store.use_of(CLASS).slabs
    }
}

// The deadline of every third key.
fn time_of(number: u32) -> Option<u64> {
    if number % 3 == 0 {
        Some(number as u64 + 1)
    } else {
        None
    }
}

// A key of 60 bytes.
fn key_of(number: u32) -> [u8; 60] {
    let mut key = [0; 60];
    key[..4].copy_from_slice(&number.to_le_bytes());
    key
}

// Puts so many keys.
fn put_all(packed: &mut Packed, count: u32) -> Result<(), Memory> {
    for number in 0..count {
        let key = key_of(number);
        packed.set(&key, key[0], time_of(number))?;
    }
    Ok(())
}

// Removes three of each four keys, and answers whether all of them were there.
fn drop_most(packed: &mut Packed, count: u32) -> bool {
    let mut were_there = true;
    for number in 0..count {
        if number % 4 > 0 && !packed.drop_key(&key_of(number)) {
            were_there = false;
        }
    }
    were_there
}

// Whether a key stands as it was put, or not at all.
fn stands(packed: &Packed, number: u32) -> bool {
    let key = key_of(number);
    let is_left = number % 4 == 0;
    let deadline = if is_left { time_of(number) } else { None };
    packed.has(&key, key[0]) == is_left && packed.deadline(&key) == deadline
}

// Whether all do.
fn all_stand(packed: &Packed, count: u32) -> bool {
    for number in 0..count {
        if !stands(packed, number) {
            return false;
        }
    }
    true
}

/// How many slabs the blocks of so many keys take, how many as three of each four keys are removed, whether a pass takes so many
/// steps at least, how many slabs it leaves, and whether what is left stands as it was put.
pub fn pass_over(alloc: Global, count: u32, steps: u32) -> Result<String, Memory> {
    let mut packed = Packed::new(alloc)?;
    put_all(&mut packed, count)?;
    let full = packed.slabs();
    let were_there = drop_most(&mut packed, count);
    let sparse = packed.slabs();
    let is_long = packed.pack() >= steps;
    let least = packed.slabs();
    let stand = were_there && all_stand(&packed, count);
    format!(in alloc; "{full} {sparse} {is_long} {least} {stand}")
}
