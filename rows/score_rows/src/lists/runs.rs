//! Longer runs of a list, most of them beside a plain table of the scores that it should have.

use super::held::Held;
use blocks::{PlainStore, put_block};
use rand_core::Rng;
use rand_pcg::Pcg32;
use score_list::{Memory, Scores};
use std::alloc::Global;

// How many scores a plain table has room for.
const SIZE: usize = 900;

// Which of the scores from -450 to 449 stand.
#[derive(Drop)]
struct Plain {
    stands: [bool; SIZE],
}

// The score of a place in the table.
fn score_of(place: usize) -> i64 {
    (place % SIZE) as i64 - 450
}

impl Plain {
    fn new() -> Plain {
        Plain {
            stands: [false; SIZE],
        }
    }

    fn has(&self, place: usize) -> bool {
        self.stands[place % SIZE]
    }

    // Lets a score stand or not, and tells whether it stood before.
    fn put(&mut self, place: usize, stands: bool) -> bool {
        let stood = self.stands[place % SIZE];
        self.stands[place % SIZE] = stands;
        stood
    }

    // How many stand before a place.
    fn below(&self, place: usize) -> usize {
        let mut count: usize = 0;
        for other in 0..place {
            if self.has(other) {
                count = count.saturating_add(1);
            }
        }
        count
    }

    // The first score that stands from a place on.
    fn first_from(&self, place: usize) -> Option<i64> {
        for other in place..SIZE {
            if self.has(other) {
                return Some(score_of(other));
            }
        }
        None
    }
}

// A place that is drawn.
fn drawn(rng: &mut Pcg32) -> usize {
    rng.next_u32() as usize % SIZE
}

// Whether every call that only looks answers what the plain table says.
fn compare(held: &Held, plain: &Plain, place: usize) -> bool {
    let score = score_of(place);
    let before = plain.below(place);
    let rank = if plain.has(place) { Some(before) } else { None };
    held.scores.len() == plain.below(SIZE)
        && held.scores.first_in_range(score) == before
        && held.score_at(before) == plain.first_from(place)
        && held.rank(score) == rank
}

// Whether a walk from a rank on meets just the scores from there, each at its rank.
fn walk(scores: &Scores, plain: &Plain, from: usize) -> bool {
    let mut cursor = scores.cursor(from);
    let mut rank: usize = 0;
    for place in 0..SIZE {
        if plain.has(place) {
            if rank >= from {
                match cursor {
                    None => return false,
                    Some(at) => {
                        if at.rank() != rank || at.get().0 != score_of(place) {
                            return false;
                        }
                        cursor = at.next();
                    }
                }
            }
            rank = rank.saturating_add(1);
        }
    }
    cursor.is_none()
}

// Whether walks from each rank on meet just the scores from there.
fn walk_all(scores: &Scores, plain: &Plain) -> bool {
    for from in 0..=plain.below(SIZE) {
        if !walk(scores, plain, from) {
            return false;
        }
    }
    true
}

/// Whether walks along each range of more than 50 scores meet just these, behind each of so many scores that come.
pub fn walks(alloc: Global, count: u64) -> Result<bool, Memory> {
    let mut rng = Pcg32::new(12, 54);
    let mut held = Held::new(alloc)?;
    let mut plain = Plain::new();
    for _ in 0..count {
        if !walk_all(&held.scores, &plain) {
            return Ok(false);
        }
        let place = drawn(&mut rng);
        held.insert(score_of(place))?;
        plain.put(place, true);
    }
    Ok(plain.below(SIZE) > 50)
}

// Puts a score into both or takes it out of both, and tells whether the answer is right.
fn edit(held: &mut Held, plain: &mut Plain, place: usize, comes: bool) -> Result<bool, Memory> {
    let score = score_of(place);
    let stood = plain.put(place, comes);
    if comes {
        Ok(held.insert(score)? != stood)
    } else {
        Ok(held.remove(score) == stood)
    }
}

/// Whether so many edits, by which the list grows, shrinks and grows again, answer as a plain table does.
pub fn agree(alloc: Global, count: u64) -> Result<bool, Memory> {
    let mut rng = Pcg32::new(11, 54);
    let mut held = Held::new(alloc)?;
    let mut plain = Plain::new();
    for round in 0..count {
        let place = drawn(&mut rng);
        let comes = u64::from(rng.next_u32() % 8) < 2 + round / 1000 % 2 * 4;
        if !edit(&mut held, &mut plain, place, comes)? || !compare(&held, &plain, place) {
            return Ok(false);
        }
    }
    Ok(true)
}

/// Puts so many scores in from below and as many from above, each of which falls into the middle, so that no sorted vector of the pairs
/// could take them. None where one of them isn't new.
pub fn middle(alloc: Global, half: u64) -> Result<Option<Held>, Memory> {
    let mut held = Held::new(alloc)?;
    for n in 0..half.min(1_000_000) {
        let from_the_end = n as i64;
        if !held.insert(1 + from_the_end)? || !held.insert(1_200_000 - from_the_end)? {
            return Ok(None);
        }
    }
    Ok(Some(held))
}

// Puts the next lower score in front of those up to below an end, and tells whether a refused call left them.
fn takes_again(held: &mut Held, score: i64, end: i64) -> Result<bool, Memory> {
    match held.insert(score) {
        Ok(is_new) => Ok(is_new),
        Err(_) => {
            let is_left = held.spans(score.wrapping_add(1), end);
            Ok(held.insert(score)? && is_left)
        }
    }
}

/// Whether the scores from 40 down come, where an insert that is refused leaves the list and goes through when it is asked again.
pub fn spares(alloc: Global) -> Result<bool, Memory> {
    let mut held = Held::new(alloc)?;
    for n in 0..40u32 {
        let score = 40 - i64::from(n);
        if !takes_again(&mut held, score, 41)? || !held.spans(score, 41) {
            return Ok(false);
        }
    }
    Ok(true)
}

/// Whether the only member stands under its block, and under another one that then names it.
pub fn renames(alloc: Global) -> Result<bool, Memory> {
    let mut store = PlainStore::new(alloc);
    let other = put_block(&mut store, b"m")?;
    let member = put_block(&mut store, b"m")?;
    let mut scores = Scores::new(alloc, 7);
    scores.insert(&store, 5, member)?;
    if scores.at_rank(0) != Some((5, member)) || scores.len() != 1 {
        return Ok(false);
    }
    scores.swap_ref(0, other);
    Ok(scores.at_rank(0) == Some((5, other)) && scores.at_rank(1).is_none())
}
