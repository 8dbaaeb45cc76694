//! Nodes that are written.

ghost use Rattle.std.specs.Prelude.{◌≡◌, OnOk, OnErr, IfOk, IsTrue, Some, None, if◌then◌else◌};
ghost use Rattle.listpack.specs.Pack.{IsPack, texts};
ghost use Rattle.stream_node.specs.Node.{last_id};
ghost use Rattle.stream_node.specs.Appended.{IsOpen, held};
ghost use Rattle.stream_node.specs.Marked.{CanMark};

use listpack::empty;
use row_words::number;
use std::alloc::Global;
use std::marker::Model;
use stream_node::{Id, Memory, Pairs, append, check, has_room, mark_deleted};

/// The key of the node.
pub const KEY: Id = Id { ms: 5, seq: 0 };

// Puts an entry behind the one of the id `last`, where there is one, and tells whether it could.
fn write(pack: &mut Vec<u8>, last: Option<Id>, id: Id, pairs: &Pairs) -> Result<bool, Memory>
    requires packed { IsPack pack.old.items }
    requires node { IsOpen KEY (texts pack.old.items) }
    requires last { last_id None (held KEY (texts pack.old.items)) ≡ last }
    ensures packed { OnOk result (IsPack pack.new.items) }
    ensures node { OnOk result (IsOpen KEY (texts pack.new.items)) }
    ensures last { IfOk result (λ written. last_id None (held KEY (texts pack.new.items)) ≡ (if written then Some id else last)) }
    ensures memory { OnErr result (pack.new.items ≡ pack.old.items) }
{
    if pairs.is_empty() {
        return Ok(false);
    }
    if !has_room(pack, pairs) {
        return Ok(false);
    }
    match last {
        Some(before) => {
            if !before.is_below(id) {
                return Ok(false);
            }
            append(pack, KEY, id, pairs)?;
        }
        None => append(pack, KEY, id, pairs)?,
    }
    Ok(true)
}

// Whether there is a first entry, not marked deleted.
fn can_mark(pack: &[u8]) -> bool
    ensures { IsTrue result → IsPack pack.now × CanMark KEY (texts pack.now) 0 }
{
    match listpack::check(pack) {
        Ok(listed) => match check(KEY, &listed) {
            Ok(node) => match node.entries().next() {
                Some(entry) => !entry.deleted(),
                None => false,
            },
            Err(_) => false,
        },
        Err(_) => false,
    }
}

/// Marks the first entry of a short node, and tells whether it could.
pub fn mark_first(pack: &mut Vec<u8>) -> Result<bool, Memory> {
    if pack.len() > 4096 {
        return Ok(false);
    }
    if !can_mark(pack) {
        return Ok(false);
    }
    mark_deleted(pack, 0)?;
    Ok(true)
}

// A node, or an empty listpack, and the id of its last entry.
#[derive(Drop)]
struct Writer {
    pack: Vec<u8>,
    last: Option<Id>,
}

impl Model for Writer {
    ghost use Rattle.stream_rows.specs.declared.nodes.writing.TheConstants.{KEY};
    ghost use Rattle.std.specs.Prelude.{ℕ, ◌≡◌, None};
    ghost use Rattle.listpack.specs.Pack.{IsPack, texts};
    ghost use Rattle.stream_node.specs.Node.{last_id};
    ghost use Rattle.stream_node.specs.Appended.{IsOpen, held};

    ghost Value = { ℕ };

    ghost view = { λ w. 0 };

    ghost invariant = { λ w. IsPack w.pack.items × IsOpen KEY (texts w.pack.items) × (last_id None (held KEY (texts w.pack.items)) ≡ w.last) };
}

impl Writer {
    fn new(alloc: Global) -> Result<Writer, Memory> {
        let pack = empty(alloc)?;
        Ok(Writer { pack, last: None })
    }

    // Puts an entry behind all others, where it can stand there.
    fn put(&mut self, id: Id, pairs: &Pairs) -> Result<(), Memory> {
        if write(&mut self.pack, self.last, id, pairs)? {
            self.last = Some(id);
        }
        Ok(())
    }
}

/// The node of these entries: four words for each, its milliseconds, its sequence number, a field and its value.
pub fn written(alloc: Global, words: &[&str]) -> Result<Vec<u8>, Memory> {
    let mut writer = Writer::new(alloc)?;
    for entry in words.chunks(4) {
        if let [ms, seq, field, value] = entry {
            let id = Id {
                ms: number(ms),
                seq: number(seq),
            };
            let mut pairs = Pairs::new(alloc);
            pairs.push(field.as_bytes(), value.as_bytes())?;
            writer.put(id, &pairs)?;
        }
    }
    Ok(writer.pack)
}

/// How many fields and values stand in these words, two for each, when they are put behind each other.
pub fn counted(alloc: Global, words: &[&str]) -> Result<usize, Memory> {
    let mut pairs = Pairs::new(alloc);
    for pair in words.chunks(2) {
        if let [field, value] = pair {
            pairs.push(field.as_bytes(), value.as_bytes())?;
        }
    }
    Ok(pairs.len())
}
