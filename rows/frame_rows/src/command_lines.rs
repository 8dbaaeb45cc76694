//! Commands as lines of text.

use plain_model::{
    ConnectionCommand, CopyOptions, ExpireOptions, KeyCommand, PairList, ScanOptions, SetOptions,
    StringCommand, Word, WordList,
};
use std::alloc::{AllocError, Global};

/// A command's name, and its words, each after a space.
pub fn line(alloc: Global, name: &str, words: &[&[u8]]) -> Result<Vec<u8>, AllocError> {
    let mut bytes = Vec::from_slice(alloc, name.as_bytes())?;
    for word in words {
        bytes.push(b' ')?;
        bytes.extend_from_slice(word)?;
    }
    Ok(bytes)
}

pub fn list_line(alloc: Global, name: &str, list: &WordList<'_>) -> Result<Vec<u8>, AllocError> {
    let mut bytes = Vec::from_slice(alloc, name.as_bytes())?;
    for word in list.as_slice() {
        bytes.push(b' ')?;
        bytes.extend_from_slice(word.as_slice())?;
    }
    Ok(bytes)
}

pub fn pairs_line(alloc: Global, name: &str, list: &PairList<'_>) -> Result<Vec<u8>, AllocError> {
    let mut bytes = Vec::from_slice(alloc, name.as_bytes())?;
    for (first, second) in list.as_slice() {
        bytes.push(b' ')?;
        bytes.extend_from_slice(first.as_slice())?;
        bytes.push(b'=')?;
        bytes.extend_from_slice(second.as_slice())?;
    }
    Ok(bytes)
}

fn number_line(alloc: Global, name: &str, key: &[u8], n: i64) -> Result<Vec<u8>, AllocError> {
    line(alloc, name, &[key, format!(in alloc; "{n}")?.as_bytes()])
}

// Commands of a key and a word or none.
fn plain_line(alloc: Global, command: &StringCommand<'_>) -> Result<Vec<u8>, AllocError> {
    match command {
        StringCommand::Get(key) => line(alloc, "Get", &[key.as_slice()]),
        StringCommand::SetNx(key, value) => {
            line(alloc, "SetNx", &[key.as_slice(), value.as_slice()])
        }
        StringCommand::GetSet(key, value) => {
            line(alloc, "GetSet", &[key.as_slice(), value.as_slice()])
        }
        StringCommand::GetDel(key) => line(alloc, "GetDel", &[key.as_slice()]),
        StringCommand::Append(key, tail) => {
            line(alloc, "Append", &[key.as_slice(), tail.as_slice()])
        }
        StringCommand::StrLen(key) => line(alloc, "StrLen", &[key.as_slice()]),
        StringCommand::Incr(key) => line(alloc, "Incr", &[key.as_slice()]),
        StringCommand::Decr(key) => line(alloc, "Decr", &[key.as_slice()]),
        _ => line(alloc, "another", &[]),
    }
}

fn set_line(
    alloc: Global,
    key: &[u8],
    value: &[u8],
    options: SetOptions,
) -> Result<Vec<u8>, AllocError> {
    let SetOptions {
        condition,
        get,
        lifetime,
    } = options;
    let rest = format!(in alloc; "{condition:?} {get} {lifetime:?}")?;
    line(alloc, "Set", &[key, value, rest.as_bytes()])
}

fn range_line(alloc: Global, key: &[u8], a: i64, b: i64) -> Result<Vec<u8>, AllocError> {
    let rest = format!(in alloc; "{a} {b}")?;
    line(alloc, "GetRange", &[key, rest.as_bytes()])
}

fn piece_line(alloc: Global, key: &[u8], at: u64, piece: &[u8]) -> Result<Vec<u8>, AllocError> {
    let at = format!(in alloc; "{at}")?;
    line(alloc, "SetRange", &[key, at.as_bytes(), piece])
}

fn time_line(
    alloc: Global,
    name: &str,
    key: &[u8],
    n: i64,
    value: &[u8],
) -> Result<Vec<u8>, AllocError> {
    let n = format!(in alloc; "{n}")?;
    line(alloc, name, &[key, n.as_bytes(), value])
}

// The command's name, and what it keeps.
pub fn string_line(alloc: Global, command: &StringCommand<'_>) -> Result<Vec<u8>, AllocError> {
    match command {
        StringCommand::Set(key, value, options) => {
            set_line(alloc, key.as_slice(), value.as_slice(), *options)
        }
        StringCommand::MGet(keys) => list_line(alloc, "MGet", keys),
        StringCommand::MSet(pairs) => pairs_line(alloc, "MSet", pairs),
        StringCommand::MSetNx(pairs) => pairs_line(alloc, "MSetNx", pairs),
        StringCommand::GetRange(key, a, b) => range_line(alloc, key.as_slice(), *a, *b),
        StringCommand::SetRange(key, at, piece) => {
            piece_line(alloc, key.as_slice(), *at, piece.as_slice())
        }
        StringCommand::SetEx(key, n, value) => {
            time_line(alloc, "SetEx", key.as_slice(), *n, value.as_slice())
        }
        StringCommand::PSetEx(key, n, value) => {
            time_line(alloc, "PSetEx", key.as_slice(), *n, value.as_slice())
        }
        StringCommand::GetEx(key, renewal) => {
            let rest = format!(in alloc; "{renewal:?}")?;
            line(alloc, "GetEx", &[key.as_slice(), rest.as_bytes()])
        }
        StringCommand::IncrBy(key, n) => number_line(alloc, "IncrBy", key.as_slice(), *n),
        StringCommand::DecrBy(key, n) => number_line(alloc, "DecrBy", key.as_slice(), *n),
        _ => plain_line(alloc, command),
    }
}

fn expire_line(
    alloc: Global,
    name: &str,
    key: &[u8],
    n: i64,
    options: ExpireOptions,
) -> Result<Vec<u8>, AllocError> {
    let ExpireOptions { nx, xx, gt, lt } = options;
    let rest = format!(in alloc; "{n} {nx} {xx} {gt} {lt}")?;
    line(alloc, name, &[key, rest.as_bytes()])
}

fn push_option(
    line: &mut Vec<u8>,
    name: &[u8],
    option: &Option<Word<'_>>,
) -> Result<(), AllocError> {
    if let Some(bytes) = option {
        line.extend_from_slice(name)?;
        line.extend_from_slice(bytes.as_slice())?;
    }
    Ok(())
}

/// A command's name and its words, a cursor, and what the options of SCAN say.
pub fn scan_line(
    alloc: Global,
    name: &str,
    words: &[&[u8]],
    cursor: u64,
    options: &ScanOptions<'_>,
) -> Result<Vec<u8>, AllocError> {
    let count = options.count;
    let mut bytes = line(alloc, name, words)?;
    bytes.extend_from_slice(format!(in alloc; " {cursor} {count}")?.as_bytes())?;
    push_option(&mut bytes, b" match=", &options.pattern)?;
    push_option(&mut bytes, b" type=", &options.type_name)?;
    Ok(bytes)
}

// Commands of one key or two.
fn plain_key_line(alloc: Global, command: &KeyCommand<'_>) -> Result<Vec<u8>, AllocError> {
    match command {
        KeyCommand::TypeOf(key) => line(alloc, "TypeOf", &[key.as_slice()]),
        KeyCommand::Ttl(key) => line(alloc, "Ttl", &[key.as_slice()]),
        KeyCommand::PTtl(key) => line(alloc, "PTtl", &[key.as_slice()]),
        KeyCommand::ExpireTime(key) => line(alloc, "ExpireTime", &[key.as_slice()]),
        KeyCommand::PExpireTime(key) => line(alloc, "PExpireTime", &[key.as_slice()]),
        KeyCommand::Persist(key) => line(alloc, "Persist", &[key.as_slice()]),
        KeyCommand::Rename(from, to) => line(alloc, "Rename", &[from.as_slice(), to.as_slice()]),
        KeyCommand::RenameNx(from, to) => {
            line(alloc, "RenameNx", &[from.as_slice(), to.as_slice()])
        }
        KeyCommand::RandomKey => line(alloc, "RandomKey", &[]),
        KeyCommand::ObjectEncoding(key) => line(alloc, "ObjectEncoding", &[key.as_slice()]),
        KeyCommand::KeysLike(pattern) => line(alloc, "KeysLike", &[pattern.as_slice()]),
        _ => line(alloc, "another", &[]),
    }
}

// The command's name, and what it keeps.
pub fn key_line(alloc: Global, command: &KeyCommand<'_>) -> Result<Vec<u8>, AllocError> {
    match command {
        KeyCommand::Del(keys) => list_line(alloc, "Del", keys),
        KeyCommand::Unlink(keys) => list_line(alloc, "Unlink", keys),
        KeyCommand::Exists(keys) => list_line(alloc, "Exists", keys),
        KeyCommand::Touch(keys) => list_line(alloc, "Touch", keys),
        KeyCommand::Expire(key, n, options) => {
            expire_line(alloc, "Expire", key.as_slice(), *n, *options)
        }
        KeyCommand::PExpire(key, n, options) => {
            expire_line(alloc, "PExpire", key.as_slice(), *n, *options)
        }
        KeyCommand::ExpireAt(key, n, options) => {
            expire_line(alloc, "ExpireAt", key.as_slice(), *n, *options)
        }
        KeyCommand::PExpireAt(key, n, options) => {
            expire_line(alloc, "PExpireAt", key.as_slice(), *n, *options)
        }
        KeyCommand::Copy(from, to, options) => {
            let CopyOptions { db, replace } = *options;
            let rest = format!(in alloc; "{db:?} {replace}")?;
            line(
                alloc,
                "Copy",
                &[from.as_slice(), to.as_slice(), rest.as_bytes()],
            )
        }
        KeyCommand::MoveKey(key, db) => {
            let db = format!(in alloc; "{db}")?;
            line(alloc, "MoveKey", &[key.as_slice(), db.as_bytes()])
        }
        KeyCommand::Scan(cursor, options) => scan_line(alloc, "Scan", &[], *cursor, options),
        _ => plain_key_line(alloc, command),
    }
}

// The command's name, and what it keeps.
pub fn connection_line(
    alloc: Global,
    command: &ConnectionCommand<'_>,
) -> Result<Vec<u8>, AllocError> {
    match command {
        ConnectionCommand::Ping(None) => line(alloc, "Ping", &[]),
        ConnectionCommand::Ping(Some(text)) => line(alloc, "Ping", &[text.as_slice()]),
        ConnectionCommand::Echo(text) => line(alloc, "Echo", &[text.as_slice()]),
        ConnectionCommand::Quit => line(alloc, "Quit", &[]),
        ConnectionCommand::Select(db) => {
            let db = format!(in alloc; "{db}")?;
            line(alloc, "Select", &[db.as_bytes()])
        }
        ConnectionCommand::DbSize => line(alloc, "DbSize", &[]),
        ConnectionCommand::FlushDb => line(alloc, "FlushDb", &[]),
        ConnectionCommand::FlushAll => line(alloc, "FlushAll", &[]),
        ConnectionCommand::MemorySlabs => line(alloc, "MemorySlabs", &[]),
        ConnectionCommand::DebugRehash(n) => {
            let n = format!(in alloc; "{n}")?;
            line(alloc, "DebugRehash", &[n.as_bytes()])
        }
        ConnectionCommand::DebugDefrag(n) => {
            let n = format!(in alloc; "{n}")?;
            line(alloc, "DebugDefrag", &[n.as_bytes()])
        }
    }
}
