//! Words and answers that lines of both kinds have.

use row_words::number;
use std::alloc::{AllocError, Global};

/// The word at an index, and the empty one where there are fewer.
pub fn at<'a>(words: &[&'a str], index: usize) -> &'a str {
    match words.get(index) {
        Some(word) => *word,
        None => "",
    }
}

/// The number that the word at an index is, and 0 where it is none.
pub fn nth(words: &[&str], index: usize) -> u64 {
    number(at(words, index))
}

/// The number with or without its sign that the word at an index is, 0 where it is none.
pub fn signed(words: &[&str], index: usize) -> i64 {
    at(words, index).parse::<i64>().unwrap_or(0)
}

/// A score, and `-` for none.
pub fn counted(alloc: Global, score: Option<i64>) -> Result<String, AllocError> {
    match score {
        Some(score) => format!(in alloc; "{score}"),
        None => String::from_str(alloc, "-"),
    }
}
