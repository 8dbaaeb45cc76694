//! Commands on streams as lines of text.

use crate::command_lines::{line, pairs_line};
use plain_model::{AppendOptions, IdList, ReadList, StreamCommand, Word};
use std::alloc::{AllocError, Global};

// A command of a key, and what is said beside it.
fn beside_line(
    alloc: Global,
    name: &str,
    key: &Word<'_>,
    beside: String,
) -> Result<Vec<u8>, AllocError> {
    line(alloc, name, &[key.as_slice(), beside.as_bytes()])
}

// Ids behind a line.
fn ids_line(alloc: Global, first: Vec<u8>, ids: &IdList) -> Result<Vec<u8>, AllocError> {
    let mut bytes = first;
    for (ms, seq) in ids.as_slice() {
        bytes.extend_from_slice(format!(in alloc; " {ms}-{seq}")?.as_bytes())?;
    }
    Ok(bytes)
}

// Keys with their ids behind a line.
fn keys_line(alloc: Global, first: Vec<u8>, keys: &ReadList<'_>) -> Result<Vec<u8>, AllocError> {
    let mut bytes = first;
    for (key, id) in keys.as_slice() {
        bytes.push(b' ')?;
        bytes.extend_from_slice(key.as_slice())?;
        bytes.extend_from_slice(format!(in alloc; "={id:?}")?.as_bytes())?;
    }
    Ok(bytes)
}

// Commands on the groups of a stream.
fn group_line(alloc: Global, command: &StreamCommand<'_>) -> Result<Vec<u8>, AllocError> {
    match command {
        StreamCommand::XGroupCreate(key, group, id, makes) => {
            let beside = format!(in alloc; "{id:?} {makes}")?;
            line(
                alloc,
                "XGroupCreate",
                &[key.as_slice(), group.as_slice(), beside.as_bytes()],
            )
        }
        StreamCommand::XGroupDestroy(key, group) => {
            line(alloc, "XGroupDestroy", &[key.as_slice(), group.as_slice()])
        }
        StreamCommand::XReadGroup(group, consumer, limit, keys) => {
            let beside = format!(in alloc; "{limit:?}")?;
            let words = [group.as_slice(), consumer.as_slice(), beside.as_bytes()];
            keys_line(alloc, line(alloc, "XReadGroup", &words)?, keys)
        }
        StreamCommand::XAck(key, group, ids) => {
            let first = line(alloc, "XAck", &[key.as_slice(), group.as_slice()])?;
            ids_line(alloc, first, ids)
        }
        StreamCommand::XPending(key, group) => {
            line(alloc, "XPending", &[key.as_slice(), group.as_slice()])
        }
        _ => line(alloc, "another", &[]),
    }
}

/// The command's name, and what it keeps.
pub fn stream_words_line(
    alloc: Global,
    command: &StreamCommand<'_>,
) -> Result<Vec<u8>, AllocError> {
    match command {
        StreamCommand::XAdd(key, options, id, pairs) => {
            let AppendOptions { only_there, trim } = options;
            let beside = format!(in alloc; "{only_there} {trim:?} {id:?}")?;
            let mut bytes = beside_line(alloc, "XAdd", key, beside)?;
            bytes.extend_from_slice(pairs_line(alloc, "", pairs)?.as_slice())?;
            Ok(bytes)
        }
        StreamCommand::XLen(key) => line(alloc, "XLen", &[key.as_slice()]),
        StreamCommand::XRange(key, from, to, order, limit) => {
            let beside = format!(in alloc; "{from:?} {to:?} {order:?} {limit:?}")?;
            beside_line(alloc, "XRange", key, beside)
        }
        StreamCommand::XDel(key, ids) => {
            ids_line(alloc, line(alloc, "XDel", &[key.as_slice()])?, ids)
        }
        StreamCommand::XTrim(key, trim) => {
            beside_line(alloc, "XTrim", key, format!(in alloc; "{trim:?}")?)
        }
        StreamCommand::XRead(limit, keys) => {
            let beside = format!(in alloc; "{limit:?}")?;
            keys_line(alloc, line(alloc, "XRead", &[beside.as_bytes()])?, keys)
        }
        _ => group_line(alloc, command),
    }
}
