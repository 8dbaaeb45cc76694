//! Lines on forms and encodings. Expected forms and names are those of the Redis documentation of OBJECT ENCODING and of the default
//! configuration.

use object_codec::{Form, Limits, hash_form, list_form, set_form, string_name, zset_form};
use row_words::number;
use std::alloc::{AllocError, Global};

// A count, or a length.
fn size(word: &str) -> usize {
    number(word) as usize
}

// The limits with another one of sets of numbers.
fn within(most: u64) -> Limits {
    Limits {
        set_intset: u32::try_from(most).unwrap_or(0),
        ..Limits::default()
    }
}

// The form that is asked for.
fn form(call: &str, words: &[&str]) -> Option<Form> {
    let limits = Limits::default();
    match (call, words) {
        ("set", [numbers, count, longest]) => Some(set_form(
            &limits,
            *numbers == "numbers",
            size(count),
            size(longest),
        )),
        // A set of numbers may be too large for an intset, and small enough for a listpack.
        ("set_within", [most, count, longest]) => Some(set_form(
            &within(number(most)),
            true,
            size(count),
            size(longest),
        )),
        ("hash", [count, longest]) => Some(hash_form(&limits, size(count), size(longest))),
        ("zset", [count, longest]) => Some(zset_form(&limits, size(count), size(longest))),
        ("list", [bytes]) => Some(list_form(number(bytes))),
        _ => None,
    }
}

// The name of the form that is asked for.
fn form_name(call: &str, words: &[&str]) -> &'static str {
    match form(call, words) {
        Some(form) => form.text(),
        None => "?",
    }
}

/// What a line of these words answers.
pub fn answer(alloc: Global, call: &str, words: &[&str]) -> Result<String, AllocError> {
    match (call, words) {
        ("string", [raw, text]) => {
            let name = string_name(text.as_bytes(), *raw == "raw");
            String::from_str(alloc, name.text())
        }
        _ => String::from_str(alloc, form_name(call, words)),
    }
}
