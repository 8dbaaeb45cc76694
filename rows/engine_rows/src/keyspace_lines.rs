//! Lines of a keyspace.

ghost use Rattle.std.specs.Prelude.{◌<◌};

use crate::packing::pass_over;
use crate::standing::Held;
use blocks::Memory;
use object_codec::Limits;
use row_text::number;
use std::alloc::Global;

// The database of a word.
fn database(word: &str) -> usize
    ensures { result < 16 }
{
    number(word).min(15) as usize
}

// So many steps, as many as fit.
fn steps(word: &str) -> u32 {
    u32::try_from(number(word)).unwrap_or(u32::MAX)
}

// The bytes of a word: `~900` are 900 of the byte 7.
fn value_of(alloc: Global, word: &str) -> Result<Vec<u8>, Memory> {
    match word.strip_prefix('~') {
        Some(count) => vec![in alloc; 7u8; number(count) as usize],
        None => Vec::from_slice(alloc, word.as_bytes()),
    }
}

// The bytes of a key: `-` is the empty one.
fn key_of(word: &str) -> &[u8] {
    if word == "-" { b"" } else { word.as_bytes() }
}

// Puts a value at a key, until a moment in milliseconds where one is given.
fn set(
    held: &mut Held,
    alloc: Global,
    db: &str,
    key: &str,
    value: &str,
    last: Option<u64>,
) -> Result<String, Memory> {
    let value = value_of(alloc, value)?;
    held.set(database(db), key_of(key), value.as_slice(), last)?;
    String::from_str(alloc, "ok")
}

// Whether the value stands at the key.
fn has(held: &Held, alloc: Global, db: &str, key: &str, value: &str) -> Result<String, Memory> {
    let value = value_of(alloc, value)?;
    let has = held.has(database(db), key_of(key), value.as_slice());
    format!(in alloc; "{has}")
}

// A line of a database: `NAME DB`.
fn database_line(held: &mut Held, alloc: Global, name: &str, db: &str) -> Result<String, Memory> {
    match name {
        "count" => format!(in alloc; "{}", held.count(database(db))),
        "clear" => {
            held.clear(database(db));
            String::from_str(alloc, "ok")
        }
        _ => String::from_str(alloc, "?"),
    }
}

// A line of a key or an item: `NAME DB KEY`.
fn key_line(
    held: &mut Held,
    alloc: Global,
    name: &str,
    db: &str,
    key: &str,
) -> Result<String, Memory> {
    match name {
        "del" => {
            let was_there = held.drop_key(database(db), key_of(key));
            format!(in alloc; "{was_there}")
        }
        "relocate" => {
            let moved = held.relocate(database(db), number(key) as usize);
            format!(in alloc; "{moved:?}")
        }
        _ => String::from_str(alloc, "?"),
    }
}

// Lets a string be a number, and says whether it was there.
fn renumber(
    held: &mut Held,
    alloc: Global,
    db: &str,
    key: &str,
    n: &str,
) -> Result<String, Memory> {
    let n = n.parse::<i64>().unwrap_or(0);
    let was_there = held.renumber(database(db), key_of(key), n);
    format!(in alloc; "{was_there}")
}

// The seed, and whether the limits are the usual ones.
fn settings(held: &Held, alloc: Global) -> Result<String, Memory> {
    let seed = held.seed();
    let are_usual = held.limits() == Limits::default();
    format!(in alloc; "{seed} {are_usual}")
}

// How many keys that are gone were dropped.
fn expire(held: &mut Held, alloc: Global, count: &str, moment: &str) -> Result<String, Memory> {
    let dropped = held.expire(steps(count), number(moment));
    format!(in alloc; "{dropped}")
}

// No key.
fn begin(held: &mut Held, alloc: Global) -> Result<String, Memory> {
    *held = Held::new(alloc)?;
    Ok(String::new(alloc))
}

/// What a line of a keyspace answers.
pub fn answer(held: &mut Held, alloc: Global, line: &str) -> Result<String, Memory> {
    let words: Vec<&str> = line.split(' ').collect(alloc)?;
    match words.as_slice() {
        ["keyspace"] => begin(held, alloc),
        ["settings"] => settings(held, alloc),
        ["expire", count, moment] => expire(held, alloc, count, moment),
        ["packed", count, least] => pass_over(alloc, steps(count), steps(least)),
        ["set", db, key, value] => set(held, alloc, db, key, value, None),
        ["set", db, key, value, last] => set(held, alloc, db, key, value, Some(number(last))),
        ["has", db, key, value] => has(held, alloc, db, key, value),
        ["renumber", db, key, n] => renumber(held, alloc, db, key, n),
        [name, db] => database_line(held, alloc, name, db),
        [name, db, key] => key_line(held, alloc, name, db, key),
        _ => String::from_str(alloc, "?"),
    }
}
