//! Lines on patterns. Expected answers are worked out by hand from the rules of patterns in the Redis command reference (KEYS).

use crate::texts::given;
use glob::matches;
use row_words::{number, told, unknown};
use std::alloc::{AllocError, Global};

// Whether a pattern matches so many equal bytes.
fn matches_many(alloc: Global, pattern: &str, byte: u8, count: u64) -> Result<bool, AllocError> {
    let text = vec![in alloc; byte; count as usize]?;
    Ok(matches(pattern.as_bytes(), &text))
}

/// What a line of these words answers.
pub fn answer(alloc: Global, call: &str, words: &[&str]) -> Result<String, AllocError> {
    match (call, words) {
        ("matches", [pattern, text]) => {
            let holds = matches(given(pattern).as_bytes(), given(text).as_bytes());
            told(alloc, holds)
        }
        // A walk that tried every place of every star would not end.
        ("many", [pattern, count]) => {
            let holds = matches_many(alloc, pattern, b'a', number(count))?;
            told(alloc, holds)
        }
        _ => unknown(alloc),
    }
}
