//! What each line answers.

use crate::held::Held;
use crate::loads::{load, pack_of};
use crate::texts::{again_text, entries_text, id_text, moved_text};
use crate::twin::play;
use row_words::{done, number, shown, told, unknown};
use std::alloc::Global;
use std::mem;
use stream_object::{AddFault, Id, Memory};

// An id of two words.
fn id_of(ms: &str, seq: &str) -> Id {
    Id {
        ms: number(ms),
        seq: number(seq),
    }
}

// What a want of memory is told as.
fn want(alloc: Global) -> Result<String, Memory> {
    String::from_str(alloc, "memory")
}

// A line that adds an entry.
fn add(held: &mut Held, alloc: Global, id: Id, field: &str, value: &str) -> Result<String, Memory> {
    match held.add(alloc, id, field.as_bytes(), value.as_bytes()) {
        Ok(()) => done(alloc),
        Err(AddFault::NotAbove(last)) => id_text(alloc, last),
        Err(AddFault::Memory) => want(alloc),
    }
}

// A line that loads a node.
fn load_words(held: &mut Held, alloc: Global, key: Id, words: &[&str]) -> Result<String, Memory> {
    let pack = pack_of(alloc, words)?;
    match load(held, key, &pack) {
        Ok(taken) => told(alloc, taken),
        Err(_) => want(alloc),
    }
}

// A line with a range.
fn range(
    held: &Held,
    alloc: Global,
    from: Id,
    to: Id,
    back: bool,
    limit: u64,
) -> Result<String, Memory> {
    let found = held.range(from, to, back, limit)?;
    entries_text(alloc, &found)
}

// A line with an id.
fn at_id(held: &mut Held, alloc: Global, name: &str, id: Id) -> Result<String, Memory> {
    match name {
        "delete" => match held.delete(id) {
            Ok(found) => told(alloc, found),
            Err(_) => want(alloc),
        },
        "trim_id" => match held.trim_id(id) {
            Ok(count) => shown(alloc, Some(count)),
            Err(_) => want(alloc),
        },
        _ => unknown(alloc),
    }
}

// A line on a group at an id.
fn on_group(
    held: &mut Held,
    alloc: Global,
    name: &str,
    group: &str,
    id: Id,
) -> Result<String, Memory> {
    match name {
        "group" => {
            let made = held.group(group.as_bytes(), id)?;
            told(alloc, made)
        }
        "ack" => told(alloc, held.ack(group.as_bytes(), id)),
        _ => unknown(alloc),
    }
}

// A line that hands entries out.
fn deliver(
    held: &mut Held,
    alloc: Global,
    group: &str,
    consumer: &str,
    limit: u64,
) -> Result<String, Memory> {
    match held.deliver(group.as_bytes(), consumer.as_bytes(), limit, 7)? {
        Some(found) => entries_text(alloc, &found),
        None => shown(alloc, None),
    }
}

// A line that hands pending ids out again.
fn redeliver(
    held: &mut Held,
    alloc: Global,
    group: &str,
    consumer: &str,
    limit: u64,
) -> Result<String, Memory> {
    let least = Id { ms: 0, seq: 0 };
    match held.redeliver(group.as_bytes(), consumer.as_bytes(), least, limit, 8)? {
        Some(found) => again_text(alloc, &found),
        None => shown(alloc, None),
    }
}

// How often a pending id of the first group was handed out.
fn counts(held: &Held, alloc: Global) -> Result<String, Memory> {
    match held.stream.pending_after(0, None) {
        Some(entry) => shown(alloc, Some(entry.count)),
        None => shown(alloc, None),
    }
}

// A line with a number.
fn counted(held: &mut Held, alloc: Global, name: &str, count: u64) -> Result<String, Memory> {
    match name {
        "trim_len" => match held.trim_len(count) {
            Ok(count) => shown(alloc, Some(count)),
            Err(_) => want(alloc),
        },
        "scarce" => {
            held.store.allow(count as usize);
            done(alloc)
        }
        "fill" => match held.fill(alloc, count) {
            Ok(()) => done(alloc),
            Err(_) => want(alloc),
        },
        "play" => {
            let same = play(alloc, count)?;
            told(alloc, same)
        }
        _ => unknown(alloc),
    }
}

// A line of one word.
fn plain(held: &mut Held, alloc: Global, name: &str) -> Result<String, Memory> {
    match name {
        "new" => {
            mem::replace(held, Held::new(alloc)).release();
            done(alloc)
        }
        "plenty" => {
            held.store.allow_all();
            done(alloc)
        }
        "copy" => match held.copied() {
            Ok(()) => done(alloc),
            Err(_) => want(alloc),
        },
        "len" => shown(alloc, Some(held.stream.len())),
        "empty" => told(alloc, held.stream.is_empty()),
        "last" => id_text(alloc, held.stream.last_id()),
        "deleted" => id_text(alloc, held.stream.greatest_deleted()),
        "added" => shown(alloc, Some(held.stream.added())),
        "nodes" => shown(alloc, Some(held.nodes())),
        "units" => shown(alloc, Some(u64::from(held.stream.units()))),
        "count" => counts(held, alloc),
        _ => unknown(alloc),
    }
}

/// What a line answers.
pub fn answer(held: &mut Held, alloc: Global, line: &str) -> Result<String, Memory> {
    let words: Vec<&str> = line.split(' ').collect(alloc)?;
    match words.as_slice() {
        ["load", ms, seq, elements @ ..] => load_words(held, alloc, id_of(ms, seq), elements),
        ["add", ms, seq, field, value] => add(held, alloc, id_of(ms, seq), field, value),
        ["range", a, b, c, d, limit] => {
            range(held, alloc, id_of(a, b), id_of(c, d), false, number(limit))
        }
        ["back", a, b, c, d, limit] => {
            range(held, alloc, id_of(a, b), id_of(c, d), true, number(limit))
        }
        ["deliver", group, consumer, limit] => {
            deliver(held, alloc, group, consumer, number(limit))
        }
        ["redeliver", group, consumer, limit] => {
            redeliver(held, alloc, group, consumer, number(limit))
        }
        ["pass", ms, seq, room] => {
            let moved = held.pass(id_of(ms, seq), number(room).min(1000) as u32);
            moved_text(alloc, moved)
        }
        [name, group, ms, seq] => on_group(held, alloc, name, group, id_of(ms, seq)),
        [name, ms, seq] => at_id(held, alloc, name, id_of(ms, seq)),
        [name, count] => counted(held, alloc, name, number(count)),
        [name] => plain(held, alloc, name),
        _ => unknown(alloc),
    }
}
