//! Commands on lists as lines of text.

use crate::command_lines::{line, list_line};
use plain_model::{ListCommand, Word, WordList};
use std::alloc::{AllocError, Global};

// The key of a command, and the words behind it.
fn elements_line(
    alloc: Global,
    name: &str,
    key: &Word<'_>,
    elements: &WordList<'_>,
) -> Result<Vec<u8>, AllocError> {
    let mut bytes = line(alloc, name, &[key.as_slice()])?;
    bytes.extend_from_slice(list_line(alloc, "", elements)?.as_slice())?;
    Ok(bytes)
}

// Commands that put elements into a list or take them off.
fn end_line(alloc: Global, command: &ListCommand<'_>) -> Result<Vec<u8>, AllocError> {
    match command {
        ListCommand::LPush(key, own) => elements_line(alloc, "LPush", key, own),
        ListCommand::RPush(key, own) => elements_line(alloc, "RPush", key, own),
        ListCommand::LPushX(key, own) => elements_line(alloc, "LPushX", key, own),
        ListCommand::RPushX(key, own) => elements_line(alloc, "RPushX", key, own),
        ListCommand::LPop(key, n) => {
            line(
                alloc,
                "LPop",
                &[key.as_slice(), format!(in alloc; "{n:?}")?.as_bytes()],
            )
        }
        ListCommand::RPop(key, n) => {
            line(
                alloc,
                "RPop",
                &[key.as_slice(), format!(in alloc; "{n:?}")?.as_bytes()],
            )
        }
        _ => line(alloc, "another", &[]),
    }
}

// Commands of a key, and numbers or elements.
fn place_line(alloc: Global, command: &ListCommand<'_>) -> Result<Vec<u8>, AllocError> {
    match command {
        ListCommand::LLen(key) => line(alloc, "LLen", &[key.as_slice()]),
        ListCommand::LIndex(key, index) => {
            line(
                alloc,
                "LIndex",
                &[key.as_slice(), format!(in alloc; "{index}")?.as_bytes()],
            )
        }
        ListCommand::LSet(key, index, own) => {
            let index = format!(in alloc; "{index}")?;
            line(
                alloc,
                "LSet",
                &[key.as_slice(), index.as_bytes(), own.as_slice()],
            )
        }
        ListCommand::LRange(key, a, b) => {
            line(
                alloc,
                "LRange",
                &[key.as_slice(), format!(in alloc; "{a} {b}")?.as_bytes()],
            )
        }
        ListCommand::LTrim(key, a, b) => {
            line(
                alloc,
                "LTrim",
                &[key.as_slice(), format!(in alloc; "{a} {b}")?.as_bytes()],
            )
        }
        ListCommand::LRem(key, n, own) => {
            let n = format!(in alloc; "{n}")?;
            line(
                alloc,
                "LRem",
                &[key.as_slice(), n.as_bytes(), own.as_slice()],
            )
        }
        _ => end_line(alloc, command),
    }
}

/// The command's name, and what it keeps.
pub fn words_line(alloc: Global, command: &ListCommand<'_>) -> Result<Vec<u8>, AllocError> {
    match command {
        ListCommand::LInsert(key, side, pivot, own) => {
            let side = format!(in alloc; "{side:?}")?;
            let words = [
                key.as_slice(),
                side.as_bytes(),
                pivot.as_slice(),
                own.as_slice(),
            ];
            line(alloc, "LInsert", &words)
        }
        ListCommand::LPos(key, own, options) => {
            let (rank, count, most) = (options.rank, options.count, options.most);
            let rest = format!(in alloc; "{rank} {count:?} {most}")?;
            line(
                alloc,
                "LPos",
                &[key.as_slice(), own.as_slice(), rest.as_bytes()],
            )
        }
        ListCommand::LMove(from, to, end, other) => {
            let ends = format!(in alloc; "{end:?} {other:?}")?;
            line(
                alloc,
                "LMove",
                &[from.as_slice(), to.as_slice(), ends.as_bytes()],
            )
        }
        ListCommand::RPopLPush(from, to) => {
            line(alloc, "RPopLPush", &[from.as_slice(), to.as_slice()])
        }
        _ => place_line(alloc, command),
    }
}
