//! A plain table of values by the numbers of their keys: what a dictionary should have.

// How many numbers a table has.
const SIZE: usize = 1024;

/// Values by the numbers of their keys, below 1,024.
#[derive(Drop)]
pub struct Plain {
    values: [Option<u64>; SIZE],
}

impl Plain {
    pub fn new() -> Plain {
        Plain {
            values: [None; SIZE],
        }
    }

    pub fn get(&self, n: u64) -> Option<u64> {
        self.values[n as usize % SIZE]
    }

    /// Gives the key this value, or takes it out, and answers what stood there.
    pub fn put(&mut self, n: u64, value: Option<u64>) -> Option<u64> {
        let at = n as usize % SIZE;
        let old = self.values[at];
        self.values[at] = value;
        old
    }

    /// How many of the numbers below one have a value.
    pub fn count(&self, below: u64) -> usize {
        let mut count: usize = 0;
        for n in 0..below {
            if self.get(n).is_some() {
                count = count.saturating_add(1);
            }
        }
        count
    }

    /// Takes those out whose values are below one.
    pub fn keep_from(&mut self, least: u64) {
        for n in 0..SIZE as u64 {
            if let Some(value) = self.get(n) {
                if value < least {
                    self.put(n, None);
                }
            }
        }
    }
}
