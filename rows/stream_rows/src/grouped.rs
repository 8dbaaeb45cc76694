//! Lines of consumer groups.

use crate::words::{at, nth};
use row_words::{bytes_of, done, shown, told, unknown};
use std::alloc::Global;
use stream_groups::{Bytes, Groups, Id, Memory, Waiting, WaitingEntry};

/// Groups, and a copy of them that was made before.
#[derive(Drop)]
pub struct Grouped {
    groups: Groups,
    kept: Groups,
}

impl Grouped {
    pub fn new(alloc: Global) -> Grouped {
        Grouped {
            groups: Groups::new(alloc),
            kept: Groups::new(alloc),
        }
    }
}

// The id that the words at an index and behind it are.
fn id(words: &[&str], index: usize) -> Id {
    (nth(words, index), nth(words, index.wrapping_add(1)))
}

// The ids of the words from an index on, two for each.
fn ids_of(alloc: Global, words: &[&str], from: usize) -> Result<Vec<Id>, Memory> {
    let mut ids = Vec::new(alloc);
    for index in from..words.len() {
        if index % 2 != from % 2 {
            ids.push(id(words, index.wrapping_sub(1)))?;
        }
    }
    Ok(ids)
}

// The owners of pending ids: each name, and how many are pending for it.
fn owners_of<'a>(alloc: Global, waiting: &'a Waiting) -> Result<Vec<(&'a [u8], u64)>, Memory> {
    let mut owners = Vec::new(alloc);
    for owner in &waiting.owners {
        owners.push((owner.name.as_slice(), owner.count))?;
    }
    Ok(owners)
}

// What is pending in a group: how many, the least, the greatest, and the owners; `None` where there is no such group.
fn pending_shown(alloc: Global, pending: Option<Waiting>) -> Result<String, Memory> {
    match pending {
        Some(waiting) => {
            let owners = owners_of(alloc, &waiting)?;
            let (count, least, greatest) = (waiting.count, waiting.least, waiting.greatest);
            format!(in alloc; "{count} {least:?} {greatest:?} {owners:?}")
        }
        None => String::from_str(alloc, "None"),
    }
}

// A pending entry: its id, its consumer's place, its moment and its count.
fn entry_shown(alloc: Global, entry: Option<WaitingEntry>) -> Result<String, Memory> {
    match entry {
        Some(entry) => {
            let (id, consumer, moment, count) = (
                entry.id,
                entry.consumer,
                entry.moment,
                entry.count,
            );
            format!(in alloc; "{id:?} {consumer} {moment} {count}")
        }
        None => String::from_str(alloc, "None"),
    }
}

// Adds a consumer to a group, and sets an entry for it with this moment and count: whether the consumer was added, and whether the
// group is there.
fn set(
    groups: &mut Groups,
    name: &[u8],
    consumer: &[u8],
    id: Id,
    handed: (u64, u64),
) -> Result<(Option<bool>, bool), Memory> {
    let (moment, count) = handed;
    let added = groups.add_consumer(name, consumer)?;
    let there = groups.set_pending(name, consumer, id, moment, count)?;
    Ok((added, there.is_some()))
}

// The last id that a group has delivered.
fn last_shown(alloc: Global, last: Option<Id>) -> Result<String, Memory> {
    format!(in alloc; "{last:?}")
}

// A name, and `None` for none.
fn name_shown(alloc: Global, name: Option<&[u8]>) -> Result<String, Memory> {
    format!(in alloc; "{name:?}")
}

// The bytes that a name keeps.
fn bytes_shown(alloc: Global, name: &[u8]) -> Result<String, Memory> {
    let made = Bytes::new(alloc, name)?;
    let bytes = made.as_slice();
    format!(in alloc; "{bytes:?}")
}

// A line on a group.
fn on_group(state: &mut Grouped, alloc: Global, call: &str, name: &[u8]) -> Result<String, Memory> {
    match call {
        "destroy" => told(alloc, state.groups.destroy(name)),
        "last" => last_shown(alloc, state.groups.last(name)),
        "kept" => last_shown(alloc, state.kept.last(name)),
        "pending" => {
            let pending = state.groups.pending(name)?;
            pending_shown(alloc, pending)
        }
        "bytes" => bytes_shown(alloc, name),
        _ => unknown(alloc),
    }
}

// Delivers the ids from the seventh word on to a consumer at a moment, and tells whether the group is there.
fn deliver(
    groups: &mut Groups,
    alloc: Global,
    name: &[u8],
    words: &[&str],
) -> Result<bool, Memory> {
    let ids = ids_of(alloc, words, 6)?;
    let there = groups.deliver(name, at(words, 4).as_bytes(), &ids, nth(words, 5))?;
    Ok(there.is_some())
}

// The ids that are pending for a consumer above one.
fn pending_of(
    groups: &Groups,
    alloc: Global,
    name: &[u8],
    words: &[&str],
) -> Result<String, Memory> {
    let listed = groups.pending_of(name, at(words, 4).as_bytes(), id(words, 5), nth(words, 7))?;
    format!(in alloc; "{listed:?}")
}

// Adds a consumer.
fn consumer(groups: &mut Groups, alloc: Global, name: &[u8], word: &str) -> Result<String, Memory> {
    let added = groups.add_consumer(name, word.as_bytes())?;
    format!(in alloc; "{added:?}")
}

// Sets an entry for a consumer that is added.
fn set_shown(
    groups: &mut Groups,
    alloc: Global,
    name: &[u8],
    words: &[&str],
) -> Result<String, Memory> {
    let handed = (nth(words, 7), nth(words, 8));
    let outcome = set(groups, name, at(words, 4).as_bytes(), id(words, 5), handed)?;
    format!(in alloc; "{outcome:?}")
}

// A line on a group and more words.
fn with_words(
    groups: &mut Groups,
    alloc: Global,
    name: &[u8],
    words: &[&str],
) -> Result<String, Memory> {
    match at(words, 3) {
        "create" => {
            let is_new = groups.create(name, id(words, 4))?;
            told(alloc, is_new)
        }
        "consumer" => consumer(groups, alloc, name, at(words, 4)),
        "deliver" => {
            let there = deliver(groups, alloc, name, words)?;
            told(alloc, there)
        }
        "pending_of" => pending_of(groups, alloc, name, words),
        "ack" => told(alloc, groups.ack(name, id(words, 4))),
        "again" => told(alloc, groups.again(name, id(words, 4), nth(words, 6))),
        "set" => set_shown(groups, alloc, name, words),
        _ => unknown(alloc),
    }
}

// A line on what stands at places.
fn at_place(groups: &Groups, alloc: Global, words: &[&str]) -> Result<String, Memory> {
    let place = nth(words, 3) as usize;
    match at(words, 2) {
        "group" => name_shown(alloc, groups.group_name(place)),
        "consumer" => name_shown(alloc, groups.consumer_name(place, nth(words, 4) as usize)),
        "first" => entry_shown(alloc, groups.pending_after(place, None)),
        _ => entry_shown(alloc, groups.pending_after(place, Some(id(words, 4)))),
    }
}

// A line that only does something.
fn act(state: &mut Grouped, alloc: Global, name: &str) -> Result<(), Memory> {
    match name {
        "new" => state.groups = Groups::new(alloc),
        _ => state.kept = state.groups.copy()?,
    }
    Ok(())
}

// A line that begins with a group's name.
fn named(state: &mut Grouped, alloc: Global, words: &[&str]) -> Result<String, Memory> {
    let name = bytes_of(alloc, at(words, 2))?;
    match at(words, 1) {
        "of" => with_words(&mut state.groups, alloc, name.as_slice(), words),
        call => on_group(state, alloc, call, name.as_slice()),
    }
}

/// What a line of these words answers.
pub fn answer(state: &mut Grouped, alloc: Global, words: &[&str]) -> Result<String, Memory> {
    match at(words, 1) {
        "new" | "keep" => {
            act(state, alloc, at(words, 1))?;
            done(alloc)
        }
        "count" => shown(alloc, Some(state.groups.groups() as u64)),
        "place" => at_place(&state.groups, alloc, words),
        _ => named(state, alloc, words),
    }
}
