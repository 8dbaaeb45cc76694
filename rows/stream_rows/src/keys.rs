//! Keys of sixteen bytes, and a plain table of them.

use row_words::number;

pub type Key = [u8; 16];

/// The key of the id `ms-1`: both numbers in eight bytes, the highest first.
pub fn id(ms: u32) -> Key {
    let [a, b, c, d] = ms.to_be_bytes();
    [0, 0, 0, 0, a, b, c, d, 0, 0, 0, 0, 0, 0, 0, 1]
}

// The key that is 1 at a place, and 0 at all others.
fn one_at(place: usize) -> Key {
    let mut key = [0; 16];
    key[place % 16] = 1;
    key
}

/// The key that two words name: `all 7` is sixteen equal bytes, `one 7` is 1 at a place, and `id 7` is that of 7-1.
pub fn named(kind: &str, word: &str) -> Key {
    let n = number(word);
    match kind {
        "all" => [u8::try_from(n).unwrap_or(0); 16],
        "one" => one_at(n as usize),
        _ => id(u32::try_from(n).unwrap_or(0)),
    }
}

/// How many keys a table has.
pub const KEYS: usize = 96;

/// The key of a rank among ninety-six, which share long beginnings.
pub fn key_of(rank: usize) -> Key {
    let mut key = [7; 16];
    key[2] = (rank / 32 % 3) as u8;
    key[7] = (rank / 8 % 4 * 80) as u8;
    key[15] = (rank % 8 * 36) as u8;
    key
}

/// Values of the ninety-six keys, by their ranks.
#[derive(Drop)]
pub struct Table {
    values: [Option<u32>; KEYS],
}

impl Table {
    pub fn new() -> Table {
        Table {
            values: [None; KEYS],
        }
    }

    /// The value of a key.
    pub fn find(&self, rank: usize) -> Option<u32> {
        self.values[rank % KEYS]
    }

    /// Puts a value at a key, or takes the key out, and answers the value that stood there.
    pub fn put(&mut self, rank: usize, value: Option<u32>) -> Option<u32> {
        let old = self.values[rank % KEYS];
        self.values[rank % KEYS] = value;
        old
    }

    /// The first key that is this one or behind it.
    pub fn after(&self, rank: usize) -> Option<Key> {
        for other in rank..KEYS {
            if self.values[other].is_some() {
                return Some(key_of(other));
            }
        }
        None
    }

    /// The last key that is this one or before it.
    pub fn before(&self, rank: usize) -> Option<Key> {
        let mut found = None;
        for other in 0..KEYS {
            if other <= rank && self.values[other].is_some() {
                found = Some(key_of(other));
            }
        }
        found
    }
}
