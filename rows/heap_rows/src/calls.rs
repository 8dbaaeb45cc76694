//! A heap and the blocks that lines name by their number, in the order in which they came.

use blocks::{BlockRef, BlockStore, Memory, put_block};
use class_heap::ClassHeap;
use std::alloc::Global;

/// A reference that no block has.
pub const NONE: BlockRef = BlockRef {
    slab: usize::MAX,
    slot: 0,
};

/// The name of a live block when it has been lengthened; `None` where it isn't live, or is longer already.
pub fn lengthened(
    heap: &mut ClassHeap,
    at: BlockRef,
    len: usize,
) -> Result<Option<BlockRef>, Memory> {
    if !heap.is_live(at) {
        return Ok(None);
    }
    if heap.bytes(at).len() > len {
        return Ok(None);
    }
    let longer = heap.lengthen(at, len)?;
    Ok(Some(longer))
}

/// Whether a live block has the length now, in its place.
pub fn stretched(heap: &mut ClassHeap, at: BlockRef, len: usize) -> bool {
    heap.is_live(at) && heap.stretch(at, len)
}

/// Puts bytes of a live block over others of it, where both places lie in it.
pub fn shifted(heap: &mut ClassHeap, at: BlockRef, from: usize, to: usize, count: usize) -> bool {
    if !heap.is_live(at) {
        return false;
    }
    let len = heap.bytes(at).len();
    if count > len || from > len - count || to > len - count {
        return false;
    }
    heap.shift(at, from, to, count);
    true
}

/// Ends a block, where it is live.
pub fn end(heap: &mut ClassHeap, at: BlockRef) -> bool {
    if !heap.is_live(at) {
        return false;
    }
    heap.give_back(at);
    true
}

/// Moves a live block that wants it.
pub fn moved(heap: &mut ClassHeap, at: BlockRef) -> Option<BlockRef> {
    if heap.is_live(at) {
        heap.move_block(at)
    } else {
        None
    }
}

/// The bytes of a live block.
pub fn bytes(heap: &ClassHeap, at: BlockRef) -> Option<&[u8]> {
    if heap.is_live(at) {
        Some(heap.bytes(at))
    } else {
        None
    }
}

/// A heap and its blocks by their numbers.
#[derive(Drop)]
pub struct Calls {
    pub heap: ClassHeap,
    named: Vec<BlockRef>,
}

impl Calls {
    pub fn new(alloc: Global) -> Calls {
        Calls {
            heap: ClassHeap::new(alloc),
            named: Vec::new(alloc),
        }
    }

    /// The block of a number.
    pub fn at(&self, number: usize) -> BlockRef {
        match self.named.get(number) {
            Some(at) => *at,
            None => NONE,
        }
    }

    // A block of a number stands elsewhere.
    fn name(&mut self, number: usize, at: BlockRef) {
        if let Some(place) = self.named.get_mut(number) {
            *place = at;
        }
    }

    /// Places a block, and answers its slab's number; `None` where memory is refused.
    pub fn place(&mut self, len: usize) -> Result<Option<usize>, Memory> {
        match self.heap.place(len) {
            Ok(at) => {
                self.named.push(at)?;
                Ok(Some(at.slab))
            }
            Err(_) => Ok(None),
        }
    }

    /// Places so many blocks, and answers the last one's number of a slab.
    pub fn place_many(&mut self, count: u64, len: usize) -> Result<Option<usize>, Memory> {
        let mut last = None;
        for _ in 0..count {
            last = self.place(len)?;
        }
        Ok(last)
    }

    /// Places a block of these bytes, and answers its slab's number.
    pub fn put(&mut self, bytes: &[u8]) -> Result<usize, Memory> {
        let at = put_block(&mut self.heap, bytes)?;
        self.named.push(at)?;
        Ok(at.slab)
    }

    /// Writes bytes over the first of a block, where it has as many.
    pub fn write(&mut self, number: usize, bytes: &[u8]) -> bool {
        let at = self.at(number);
        if !self.heap.is_live(at) || self.heap.bytes(at).len() < bytes.len() {
            return false;
        }
        self.heap.write(at, 0, bytes);
        true
    }

    /// Lengthens a block in steps of one byte, from one length to below another, and answers how many steps were made.
    pub fn grow(&mut self, number: usize, from: usize, to: usize) -> Result<u64, Memory> {
        let mut steps: u64 = 0;
        for len in from..to {
            let at = self.at(number);
            if let Some(longer) = lengthened(&mut self.heap, at, len)? {
                self.name(number, longer);
                steps = steps.saturating_add(1);
            }
        }
        Ok(steps)
    }
}

/// The slabs and the blocks of each class that has a slab or a block, behind its size.
pub fn uses(heap: &ClassHeap, alloc: Global) -> Result<Vec<(u32, u64, u64)>, Memory> {
    let mut found = Vec::new(alloc);
    for class in 0..36 {
        let in_use = heap.use_of(class);
        if in_use.slabs != 0 || in_use.used != 0 {
            found.push((in_use.size, in_use.slabs, in_use.used))?;
        }
    }
    Ok(found)
}

/// The runs of equal bytes: each byte, and how often it stands there.
pub fn runs(bytes: &[u8], alloc: Global) -> Result<Vec<(u8, usize)>, Memory> {
    let mut found: Vec<(u8, usize)> = Vec::new(alloc);
    for byte in bytes {
        match found.last_mut() {
            Some(run) if run.0 == *byte => run.1 = run.1.saturating_add(1),
            _ => found.push((*byte, 1))?,
        }
    }
    Ok(found)
}
