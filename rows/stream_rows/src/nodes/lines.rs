//! What each line answers.

use super::reading::{fault_of, first_of, pack_of, pairs_of};
use super::writing::{KEY, counted, mark_first, written};
use crate::words::{at, from, nth};
use row_words::{shown, told, unknown};
use std::alloc::Global;
use stream_node::{Entry, Id, Memory, Node, NodeFault, check};

// The entries of a node: the id of each, whether it is marked deleted, and how many fields it has.
fn listed(alloc: Global, node: &Node) -> Result<Vec<(u64, u64, bool, usize)>, Memory> {
    let mut found = Vec::new(alloc);
    for entry in node.entries() {
        let id = entry.id();
        found.push((id.ms, id.seq, entry.deleted(), entry.len()))?;
    }
    Ok(found)
}

// All fields and values of an entry.
fn pairs_shown(alloc: Global, entry: &Entry) -> Result<String, Memory> {
    let pairs = pairs_of(alloc, entry)?;
    format!(in alloc; "{pairs:?}")
}

// The first field of an entry and its value.
fn pair_shown(alloc: Global, entry: &Entry) -> Result<String, Memory> {
    let pair = first_of(alloc, entry)?;
    format!(in alloc; "{pair:?}")
}

// A line on the entry at an index of a node.
fn on_entry(alloc: Global, node: &Node, words: &[&str]) -> Result<String, Memory> {
    match node.entries().nth(nth(words, 2) as usize) {
        Some(entry) => match at(words, 1) {
            "pairs" => pairs_shown(alloc, &entry),
            _ => pair_shown(alloc, &entry),
        },
        None => unknown(alloc),
    }
}

// All entries of a node.
fn entries_shown(alloc: Global, node: &Node) -> Result<String, Memory> {
    let found = listed(alloc, node)?;
    format!(in alloc; "{found:?}")
}

// A line on a node.
fn with_node(alloc: Global, node: &Node, words: &[&str]) -> Result<String, Memory> {
    match at(words, 1) {
        "entries" => entries_shown(alloc, node),
        _ => on_entry(alloc, node, words),
    }
}

// A line on the node that a listpack is.
fn on_node(alloc: Global, pack: &[u8], words: &[&str]) -> Result<String, Memory> {
    match listpack::check(pack) {
        Ok(listed) => match check(KEY, &listed) {
            Ok(node) => with_node(alloc, &node, words),
            Err(_) => unknown(alloc),
        },
        Err(_) => unknown(alloc),
    }
}

// The fault of the listpack that these words are.
fn fault_shown(alloc: Global, words: &[&str]) -> Result<String, Memory> {
    let pack = pack_of(alloc, words)?;
    let fault = fault_of(&pack);
    format!(in alloc; "{fault:?}")
}

// The bytes of a node that is written, and marked where that is asked for.
fn bytes_written(alloc: Global, marks: bool, words: &[&str]) -> Result<String, Memory> {
    let mut pack = written(alloc, words)?;
    if marks {
        mark_first(&mut pack)?;
    }
    format!(in alloc; "{pack:?}")
}

// The id of two words.
fn id(words: &[&str], index: usize) -> Id {
    Id {
        ms: nth(words, index),
        seq: nth(words, index.wrapping_add(1)),
    }
}

// The node that the words from an index on are.
fn of_pack(alloc: Global, words: &[&str], index: usize) -> Result<String, Memory> {
    let pack = pack_of(alloc, from(words, index))?;
    on_node(alloc, &pack, words)
}

/// What a line of these words answers.
pub fn answer(alloc: Global, words: &[&str]) -> Result<String, Memory> {
    match at(words, 1) {
        "order" => shown(alloc, Some(u64::from(NodeFault::Order.number()))),
        "below" => told(alloc, id(words, 2).is_below(id(words, 4))),
        "fields" => {
            let count = counted(alloc, from(words, 2))?;
            shown(alloc, Some(count as u64))
        }
        "write" => bytes_written(alloc, false, from(words, 2)),
        "mark" => bytes_written(alloc, true, from(words, 2)),
        "check" => fault_shown(alloc, from(words, 2)),
        "entries" => of_pack(alloc, words, 2),
        _ => of_pack(alloc, words, 3),
    }
}
