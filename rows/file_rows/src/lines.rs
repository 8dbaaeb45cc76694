//! What each line answers.

ghost use Rattle.std.specs.Prelude.{◌<◌};

use crate::standing::{Given, Held, loaded};
use rdb_grammar::{check_header, next_item};
use row_text::{number, numbers, spelled};
use std::alloc::{AllocError, Global};

/// What the lines work on.
#[derive(Drop)]
pub struct State {
    given: Given,
    held: Held,
}

impl State {
    pub fn new(alloc: Global) -> Result<State, AllocError> {
        Ok(State {
            given: Given::new(alloc)?,
            held: Held::new(alloc)?,
        })
    }
}

// What a file's header is read as.
fn header(alloc: Global, rest: &str) -> Result<String, AllocError> {
    let bytes = spelled(alloc, rest)?;
    let answer = check_header(bytes.as_slice());
    format!(in alloc; "{answer:?}")
}

// The item at an offset of some bytes: `AT BYTES`.
fn item(alloc: Global, rest: &str) -> Result<String, AllocError> {
    let (at, text) = rest.split_once(' ').unwrap_or((rest, ""));
    let bytes = spelled(alloc, text)?;
    let at = number(at) as usize;
    if at > bytes.len() {
        return String::from_str(alloc, "?");
    }
    let answer = next_item(alloc, bytes.as_slice(), at);
    format!(in alloc; "{answer:?}")
}

// Loads a file, and says how many keys then stand in all databases.
fn load(state: &mut State, alloc: Global, rest: &str) -> Result<String, AllocError> {
    let bytes = spelled(alloc, rest)?;
    let (held, answer) = loaded(alloc, &state.given, bytes.as_slice())?;
    state.held = held;
    let keys = state.held.count_all();
    format!(in alloc; "{answer:?}, keys {keys}")
}

// The database of a word.
fn database(word: &str) -> usize
    ensures { result < 16 }
{
    number(word).min(15) as usize
}

// Whether bytes stand at a key, and its deadline: `DB KEY BYTES`.
fn has(held: &Held, alloc: Global, rest: &str) -> Result<String, AllocError> {
    let mut words = rest.splitn(3, ' ');
    match (words.next(), words.next(), words.next()) {
        (Some(db), Some(key), Some(bytes)) => {
            let db = database(db);
            let key = spelled(alloc, key)?;
            let bytes = spelled(alloc, bytes)?;
            let has = held.has(db, key.as_slice(), bytes.as_slice());
            let deadline = held.deadline(db, key.as_slice());
            format!(in alloc; "{has} {deadline:?}")
        }
        _ => String::from_str(alloc, "?"),
    }
}

// Puts bytes at a key: `KEY BYTES`.
fn set(held: &mut Held, alloc: Global, rest: &str) -> Result<String, AllocError> {
    let (key, text) = rest.split_once(' ').unwrap_or((rest, ""));
    held.set(key.as_bytes(), text.as_bytes())?;
    String::from_str(alloc, "ok")
}

// A line that says what loading is given.
fn give(given: &mut Given, alloc: Global, name: &str, rest: &str) -> Result<String, AllocError> {
    match name {
        "//" => {}
        "name" => given.name = String::from_str(alloc, rest)?,
        "failing" => given.failing = numbers(alloc, rest)?,
        "limit" => given.limit = number(rest),
        "moment" => given.moment = number(rest),
        _ => return String::from_str(alloc, "?"),
    }
    Ok(String::new(alloc))
}

/// What a line answers.
pub fn answer(state: &mut State, alloc: Global, line: &str) -> Result<String, AllocError> {
    let (name, rest) = line.split_once(' ').unwrap_or((line, ""));
    match name {
        "header" => header(alloc, rest),
        "item" => item(alloc, rest),
        "load" => load(state, alloc, rest),
        "has" => has(&state.held, alloc, rest),
        "set" => set(&mut state.held, alloc, rest),
        "encoding" => String::from_str(alloc, state.held.encoding(rest.as_bytes())),
        "count" => format!(in alloc; "{}", state.held.count(database(rest))),
        _ => give(&mut state.given, alloc, name, rest),
    }
}
