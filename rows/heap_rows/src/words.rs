//! The words of a line, each by its index.

use row_words::number;

/// The word at an index, and the empty one where there are fewer.
pub fn at<'a>(words: &[&'a str], index: usize) -> &'a str {
    match words.get(index) {
        Some(word) => *word,
        None => "",
    }
}

/// The number that the word at an index is, and 0 where it is none.
pub fn nth(words: &[&str], index: usize) -> u64 {
    number(at(words, index))
}
