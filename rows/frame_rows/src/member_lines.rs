//! Commands on sets and on hashes as lines of text.

use crate::command_lines::{line, list_line, pairs_line, scan_line};
use plain_model::{HashCommand, PairList, SetCommand, Word, WordList};
use std::alloc::{AllocError, Global};

/// The key of a command, and the words behind it.
pub fn keyed_line(
    alloc: Global,
    name: &str,
    key: &Word<'_>,
    own: &WordList<'_>,
) -> Result<Vec<u8>, AllocError> {
    let mut bytes = line(alloc, name, &[key.as_slice()])?;
    bytes.extend_from_slice(list_line(alloc, "", own)?.as_slice())?;
    Ok(bytes)
}

// The key of a command, and the pairs behind it.
fn fields_line(
    alloc: Global,
    name: &str,
    key: &Word<'_>,
    own: &PairList<'_>,
) -> Result<Vec<u8>, AllocError> {
    let mut bytes = line(alloc, name, &[key.as_slice()])?;
    bytes.extend_from_slice(pairs_line(alloc, "", own)?.as_slice())?;
    Ok(bytes)
}

// Commands that pick members, join sets or walk through one.
fn joined_line(alloc: Global, command: &SetCommand<'_>) -> Result<Vec<u8>, AllocError> {
    match command {
        SetCommand::SPop(key, n) => {
            let n = format!(in alloc; "{n:?}")?;
            line(alloc, "SPop", &[key.as_slice(), n.as_bytes()])
        }
        SetCommand::SRandMember(key, n) => {
            let n = format!(in alloc; "{n:?}")?;
            line(alloc, "SRandMember", &[key.as_slice(), n.as_bytes()])
        }
        SetCommand::SJoin(how, keys) => {
            list_line(alloc, format!(in alloc; "SJoin {how:?}")?.as_str(), keys)
        }
        SetCommand::SJoinStore(how, to, keys) => {
            keyed_line(
                alloc,
                format!(in alloc; "SJoinStore {how:?}")?.as_str(),
                to,
                keys,
            )
        }
        SetCommand::SInterCard(keys, limit) => {
            list_line(
                alloc,
                format!(in alloc; "SInterCard {limit}")?.as_str(),
                keys,
            )
        }
        SetCommand::SScan(key, from, options) => {
            scan_line(alloc, "SScan", &[key.as_slice()], *from, options)
        }
        _ => line(alloc, "another", &[]),
    }
}

/// The command's name, and what it keeps.
pub fn set_words_line(alloc: Global, command: &SetCommand<'_>) -> Result<Vec<u8>, AllocError> {
    match command {
        SetCommand::SAdd(key, own) => keyed_line(alloc, "SAdd", key, own),
        SetCommand::SRem(key, own) => keyed_line(alloc, "SRem", key, own),
        SetCommand::SMIsMember(key, own) => keyed_line(alloc, "SMIsMember", key, own),
        SetCommand::SIsMember(key, member) => {
            line(alloc, "SIsMember", &[key.as_slice(), member.as_slice()])
        }
        SetCommand::SMembers(key) => line(alloc, "SMembers", &[key.as_slice()]),
        SetCommand::SCard(key) => line(alloc, "SCard", &[key.as_slice()]),
        SetCommand::SMove(from, to, member) => {
            line(
                alloc,
                "SMove",
                &[from.as_slice(), to.as_slice(), member.as_slice()],
            )
        }
        _ => joined_line(alloc, command),
    }
}

// Commands of a key and one field, or of all or some fields.
fn field_line(alloc: Global, command: &HashCommand<'_>) -> Result<Vec<u8>, AllocError> {
    match command {
        HashCommand::HGet(key, field) => {
            line(alloc, "HGet", &[key.as_slice(), field.as_slice()])
        }
        HashCommand::HExists(key, field) => {
            line(alloc, "HExists", &[key.as_slice(), field.as_slice()])
        }
        HashCommand::HStrLen(key, field) => {
            line(alloc, "HStrLen", &[key.as_slice(), field.as_slice()])
        }
        HashCommand::HKeys(key) => line(alloc, "HKeys", &[key.as_slice()]),
        HashCommand::HVals(key) => line(alloc, "HVals", &[key.as_slice()]),
        HashCommand::HGetAll(key) => line(alloc, "HGetAll", &[key.as_slice()]),
        HashCommand::HRandField(key, n, with_values) => {
            let beside = format!(in alloc; "{n:?} {with_values}")?;
            line(alloc, "HRandField", &[key.as_slice(), beside.as_bytes()])
        }
        HashCommand::HScan(key, from, options) => {
            scan_line(alloc, "HScan", &[key.as_slice()], *from, options)
        }
        _ => line(alloc, "another", &[]),
    }
}

/// The command's name, and what it keeps.
pub fn hash_words_line(alloc: Global, command: &HashCommand<'_>) -> Result<Vec<u8>, AllocError> {
    match command {
        HashCommand::HSet(key, own) => fields_line(alloc, "HSet", key, own),
        HashCommand::HMSet(key, own) => fields_line(alloc, "HMSet", key, own),
        HashCommand::HMGet(key, own) => keyed_line(alloc, "HMGet", key, own),
        HashCommand::HDel(key, own) => keyed_line(alloc, "HDel", key, own),
        HashCommand::HLen(key) => line(alloc, "HLen", &[key.as_slice()]),
        HashCommand::HSetNx(key, field, value) => {
            line(
                alloc,
                "HSetNx",
                &[key.as_slice(), field.as_slice(), value.as_slice()],
            )
        }
        HashCommand::HIncrBy(key, field, n) => {
            let n = format!(in alloc; "{n}")?;
            line(
                alloc,
                "HIncrBy",
                &[key.as_slice(), field.as_slice(), n.as_bytes()],
            )
        }
        _ => field_line(alloc, command),
    }
}
