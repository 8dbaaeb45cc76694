//! Lines on packed sets of numbers.

use crate::twin::agree;
use intset::{IntsetFault, Memory, add, check, empty, known, remove};
use row_words::{done, number, told, unknown};
use std::alloc::Global;
use std::marker::Model;

/// A packed set of numbers.
#[derive(Drop)]
pub struct Numbers {
    set: Vec<u8>,
}

impl Model for Numbers {
    ghost use Rattle.std.specs.Prelude.{ℕ};
    ghost use Rattle.intset.specs.Intset.{IsIntset, numbers_of};

    ghost Value = { ℕ };

    ghost view = { λ numbers. 0 };

    ghost invariant = { λ numbers. IsIntset numbers.set.items (numbers_of numbers.set.items) };
}

// The most numbers that a set gets here.
const MOST: usize = 64;

impl Numbers {
    pub fn new(alloc: Global) -> Result<Numbers, Memory> {
        let set = empty(alloc)?;
        Ok(Numbers { set })
    }

    pub fn bytes(&self) -> &[u8] {
        &self.set
    }

    pub fn len(&self) -> usize {
        known(&self.set).len()
    }

    pub fn is_empty(&self) -> bool {
        known(&self.set).is_empty()
    }

    pub fn at(&self, index: usize) -> Option<i64> {
        known(&self.set).at(index)
    }

    pub fn contains(&self, n: i64) -> bool {
        known(&self.set).contains(n)
    }

    pub fn add(&mut self, n: i64) -> Result<bool, Memory> {
        if known(&self.set).len() >= MOST {
            return Ok(false);
        }
        add(&mut self.set, n)
    }

    pub fn remove(&mut self, n: i64) -> bool {
        if known(&self.set).len() > MOST {
            return false;
        }
        remove(&mut self.set, n)
    }
}

// A number with or without its sign, 0 where the word is none.
fn signed(word: &str) -> i64 {
    word.parse::<i64>().unwrap_or(0)
}

// How many numbers some bytes are, or their fault.
fn checked(bytes: &[u8]) -> Result<usize, IntsetFault> {
    match check(bytes) {
        Ok(ints) => Ok(ints.len()),
        Err(fault) => Err(fault),
    }
}

// The bytes of several numbers.
fn read(alloc: Global, words: &[&str]) -> Result<Vec<u8>, Memory> {
    let mut bytes = Vec::new(alloc);
    for word in words {
        bytes.push(u8::try_from(number(word)).unwrap_or(0))?;
    }
    Ok(bytes)
}

/// What a line of these words answers.
pub fn answer(numbers: &mut Numbers, alloc: Global, words: &[&str]) -> Result<String, Memory> {
    match words {
        ["new"] => {
            *numbers = Numbers::new(alloc)?;
            done(alloc)
        }
        ["bytes"] => {
            let bytes = numbers.bytes();
            format!(in alloc; "{bytes:?}")
        }
        ["faults"] => {
            let numbers = [
                IntsetFault::Width.number(),
                IntsetFault::Length.number(),
                IntsetFault::Order.number(),
            ];
            format!(in alloc; "{numbers:?}")
        }
        ["add", n] => {
            let is_new = numbers.add(signed(n))?;
            told(alloc, is_new)
        }
        ["remove", n] => told(alloc, numbers.remove(signed(n))),
        ["agree", rounds] => {
            let same = agree(alloc, number(rounds))?;
            told(alloc, same)
        }
        ["check", words @ ..] => {
            let bytes = read(alloc, words)?;
            let outcome = checked(&bytes);
            format!(in alloc; "{outcome:?}")
        }
        _ => unknown(alloc),
    }
}
