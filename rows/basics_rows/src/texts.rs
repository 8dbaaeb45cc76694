//! Words and answers as text.

use row_words::number;
use std::alloc::{AllocError, Global};

/// The word itself, and the empty text for `''`.
pub fn given(word: &str) -> &str {
    if word == "''" { "" } else { word }
}

/// Bytes as a list.
pub fn listed(alloc: Global, bytes: &[u8]) -> Result<String, AllocError> {
    format!(in alloc; "{bytes:?}")
}

/// A number with a sign, and `-` for none.
pub fn signed_shown(alloc: Global, value: Option<i64>) -> Result<String, AllocError> {
    match value {
        Some(value) => format!(in alloc; "{value}"),
        None => String::from_str(alloc, "-"),
    }
}

/// The numbers that words are.
pub fn numbers(alloc: Global, words: &[&str]) -> Result<Vec<u64>, AllocError> {
    let mut found = Vec::new(alloc);
    for word in words {
        found.push(number(word))?;
    }
    Ok(found)
}

/// What is told before the first call.
pub fn no_calls(alloc: Global) -> Result<String, AllocError> {
    String::from_str(alloc, "calls:")
}

/// A call more behind those that were told: a space, the answer and a semicolon.
pub fn add(told: &mut String, step: &str) -> Result<(), AllocError> {
    told.push_str(step)
}

/// Adds what a call answered, none for a fault, and the bytes that stand there then.
pub fn add_call(
    alloc: Global,
    told: &mut String,
    answer: Option<usize>,
    bytes: &[u8],
) -> Result<(), AllocError> {
    match answer {
        Some(count) => {
            let step = format!(in alloc; " {count} {bytes:?};")?;
            add(told, &step)
        }
        None => add(told, " fault;"),
    }
}
