//! Words and answers that lines of several kinds have.

use blocks::Moved;
use object_codec::Form;
use rev_cursor::BucketScan;
use row_words::{bytes_of, number, shown, unknown};
use scan_cursor::page;
use std::alloc::{AllocError, Global};

/// The word at an index, and the empty one where there are fewer.
pub fn at<'a>(words: &[&'a str], index: usize) -> &'a str {
    match words.get(index) {
        Some(word) => *word,
        None => "",
    }
}

/// The number that the word at an index is, and 0 where it is none.
pub fn nth(words: &[&str], index: usize) -> u64 {
    number(at(words, index))
}

/// The number below 2^32 that the word at an index is, and the greatest of them for every other.
pub fn small(words: &[&str], index: usize) -> u32 {
    u32::try_from(nth(words, index)).unwrap_or(u32::MAX)
}

/// The number with or without its sign that the word at an index is, 0 where it is none.
pub fn signed(words: &[&str], index: usize) -> i64 {
    at(words, index).parse::<i64>().unwrap_or(0)
}

/// The bytes that the word at an index stands for.
pub fn bytes_at(alloc: Global, words: &[&str], index: usize) -> Result<Vec<u8>, AllocError> {
    bytes_of(alloc, at(words, index))
}

/// The name of a form.
pub fn form_named(alloc: Global, form: Form) -> Result<String, AllocError> {
    format!(in alloc; "{form:?}")
}

/// Two forms and a number.
pub fn risen(alloc: Global, forms: [Form; 2], count: usize) -> Result<String, AllocError> {
    let [before, after] = forms;
    format!(in alloc; "{before:?} {after:?} {count}")
}

/// The next mark and how much was passed.
pub fn passed(alloc: Global, moved: Moved) -> Result<String, AllocError> {
    let (next, used) = (moved.next, moved.used);
    format!(in alloc; "{next:?} {used}")
}

/// A number, or `None`.
pub fn counted(alloc: Global, count: Option<usize>) -> Result<String, AllocError> {
    format!(in alloc; "{count:?}")
}

/// How many items a page of so many from a cursor on has, by the words of the line, and the next cursor before it where that is asked
/// for.
pub fn paged<S: BucketScan>(
    alloc: Global,
    target: &S,
    words: &[&str],
    whole: bool,
) -> Result<String, AllocError> {
    let count = nth(words, 3);
    if count == 0 {
        return unknown(alloc);
    }
    let given = page(alloc, target, nth(words, 2), count)?;
    page_shown(alloc, given.next, given.items.len(), whole)
}

// A page's next cursor and how many items it has.
fn page_shown(alloc: Global, next: u64, many: usize, whole: bool) -> Result<String, AllocError> {
    if whole {
        format!(in alloc; "{next} {many}")
    } else {
        shown(alloc, Some(many as u64))
    }
}
