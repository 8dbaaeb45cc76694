//! Nodes of a file, given by their elements.

ghost use Rattle.std.specs.Prelude.{◌↔◌, IsTrue};
ghost use Rattle.stream_object.specs.Loading.{IsFileNode};

use crate::held::Held;
use listpack::{check as check_pack, empty, fits};
use std::alloc::Global;
use stream_node::check;
use stream_object::{Id, Memory};

/// No node is longer than this.
const MOST_BYTES: usize = 536870000;

// Puts an element behind all others, where there is room for it.
fn put(pack: &mut Vec<u8>, text: &[u8]) -> Result<(), Memory> {
    if check_pack(pack).is_err() || !fits(pack, text) {
        return Ok(());
    }
    listpack::append(pack, text)
}

/// A listpack of these words.
pub fn pack_of(alloc: Global, words: &[&str]) -> Result<Vec<u8>, Memory> {
    let mut pack = empty(alloc)?;
    for word in words {
        put(&mut pack, word.as_bytes())?;
    }
    Ok(pack)
}

// Whether bytes are a node of a key.
fn is_node(key: Id, pack: &[u8]) -> bool
    ensures { IsTrue result ↔ IsFileNode key pack.now }
{
    match check_pack(pack) {
        Ok(listed) => check(key, &listed).is_ok() && pack.len() <= MOST_BYTES,
        Err(_) => false,
    }
}

/// Loads a node, and tells whether it is one and all its ids are above the last one.
pub fn load(held: &mut Held, key: Id, pack: &[u8]) -> Result<bool, Memory> {
    if !is_node(key, pack) || !held.stream.is_followed_by(key, pack) {
        return Ok(false);
    }
    held.stream.load_node(&mut held.store, key, pack)?;
    Ok(true)
}
