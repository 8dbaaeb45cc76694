//! A thousand members, of which each hundred have one score.

use super::held::Held;
use score_table::Memory;

// The member m000 to m999 of a number below 1,000.
fn numbered(n: u32) -> [u8; 4] {
    [
        b'm',
        b'0' + (n / 100 % 10) as u8,
        b'0' + (n / 10 % 10) as u8,
        b'0' + (n % 10) as u8,
    ]
}

impl Held {
    /// Puts m000 to m999 in, each with its last digit as its score, and tells whether each is new.
    pub fn takes_thousand(&mut self) -> Result<bool, Memory> {
        for n in 0..1000u32 {
            if !self.set(i64::from(n % 10), &numbered(n))? {
                return Ok(false);
            }
        }
        Ok(true)
    }

    /// Whether each of them stands behind those of lower digits, and among those of its own by its bytes.
    pub fn ranks_thousand(&self) -> bool {
        for n in 0..1000u32 {
            let rank = (n % 10 * 100 + n / 10) as usize;
            if !self.ranks(rank, i64::from(n % 10), &numbered(n)) {
                return false;
            }
        }
        self.ends_at(1000) && self.walked() == 1000
    }

    /// How many of those with the last digit 1 are taken out.
    pub fn lose_ones(&mut self) -> usize {
        let mut count: usize = 0;
        for n in 0..100u32 {
            let was = self.take_out(&numbered(n * 10 + 1)) == Some(1);
            count = count.saturating_add(usize::from(was));
        }
        count
    }
}
