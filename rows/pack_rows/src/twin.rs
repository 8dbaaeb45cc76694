//! A packed set of numbers beside a sorted list.

use crate::numbers::Numbers;
use intset::Memory;
use rand_core::Rng;
use rand_pcg::Pcg32;
use std::alloc::Global;

// Numbers at which a set has to widen.
const EDGES: [i64; 7] = [
    0,
    32760,
    -32772,
    2147483640,
    -2147483652,
    i64::MAX - 7,
    i64::MIN,
];

// An edit of both, and whether they answer the same.
fn edit(numbers: &mut Numbers, list: &mut Vec<i64>, n: i64, puts: bool) -> Result<bool, Memory> {
    match list.binary_search(&n) {
        Ok(place) => {
            if puts {
                return Ok(!numbers.add(n)?);
            }
            list.remove(place);
            Ok(numbers.remove(n))
        }
        Err(place) => {
            if !puts {
                return Ok(!numbers.remove(n));
            }
            list.insert(place, n)?;
            numbers.add(n)
        }
    }
}

// Whether every answer of a set is that of the list.
fn same(numbers: &Numbers, list: &[i64]) -> bool {
    for index in 0..=list.len() {
        if numbers.at(index) != list.get(index).copied() {
            return false;
        }
    }
    numbers.len() == list.len() && numbers.is_empty() == list.is_empty()
}

/// Whether so many edits answer as a sorted list does, and leave the same numbers.
pub fn agree(alloc: Global, rounds: u64) -> Result<bool, Memory> {
    let mut rng = Pcg32::new(7, 54);
    let mut numbers = Numbers::new(alloc)?;
    let mut list = Vec::new(alloc);
    for round in 0..rounds {
        let most = (1 + (round / 600) as usize).min(EDGES.len());
        let edge = EDGES[rng.next_u32() as usize % most];
        let n = edge.wrapping_add(i64::from(rng.next_u32() % 8));
        let puts = rng.next_u32() % 2 == 0;
        if !edit(&mut numbers, &mut list, n, puts)?
            || numbers.contains(n) != puts
            || !same(&numbers, list.as_slice())
        {
            return Ok(false);
        }
    }
    Ok(true)
}
