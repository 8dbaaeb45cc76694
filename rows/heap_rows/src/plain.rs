//! A plain model of slabs: which number a block gets, and what a pass keeps.

use blocks::CLASS_SIZES;
use std::alloc::{AllocError, Global};

/// A slab: its class, its blocks, and whether it is kept.
#[derive(Clone, Copy)]
pub struct PlainSlab {
    class: usize,
    used: u64,
    kept: bool,
}

/// What stands at a number.
#[derive(Clone, Copy)]
enum Stands {
    Nothing,
    Alone,
    Slab(PlainSlab),
}

/// The slabs by number.
#[derive(Drop)]
pub struct Slabs {
    passing: bool,
    numbers: Vec<Stands>,
}

/// How many blocks of a class a slab has room for.
pub fn per_slab(class: usize) -> u64 {
    match CLASS_SIZES.get(class) {
        Some(size) if *size > 0 => 65_536 / u64::from(*size),
        _ => 1,
    }
}

// The first class that holds so many bytes.
fn class_of(len: usize) -> Option<usize> {
    for (class, size) in CLASS_SIZES.iter().enumerate() {
        if len <= *size as usize {
            return Some(class);
        }
    }
    None
}

impl Slabs {
    pub fn new(alloc: Global) -> Slabs {
        Slabs {
            passing: false,
            numbers: Vec::new(alloc),
        }
    }

    /// Whether a slab stands at the number whose class is the first that holds so many bytes.
    pub fn is_slab_for(&self, number: usize, len: usize) -> bool {
        match self.slab(number) {
            Some(slab) => class_of(len) == Some(slab.class),
            None => false,
        }
    }

    // The slab at a number.
    fn slab(&self, number: usize) -> Option<PlainSlab> {
        match self.numbers.get(number) {
            Some(Stands::Slab(slab)) => Some(*slab),
            _ => None,
        }
    }

    // The slab at a number, where it is of the class.
    fn slab_of(&self, number: usize, class: usize) -> Option<PlainSlab> {
        match self.slab(number) {
            Some(slab) if slab.class == class => Some(slab),
            _ => None,
        }
    }

    fn set(&mut self, number: usize, stands: Stands) {
        if let Some(place) = self.numbers.get_mut(number) {
            *place = stands;
        }
    }

    // Puts this at the least number with nothing.
    fn put(&mut self, stands: Stands) -> Result<usize, AllocError> {
        for number in 0..self.numbers.len() {
            if let Stands::Nothing = self.numbers[number] {
                self.numbers[number] = stands;
                return Ok(number);
            }
        }
        let number = self.numbers.len();
        self.numbers.push(stands)?;
        Ok(number)
    }

    // Changes how many blocks stand at a number.
    fn add(&mut self, number: usize, more: u64) {
        if let Some(slab) = self.slab(number) {
            let used = slab.used.wrapping_add(more);
            self.set(number, Stands::Slab(PlainSlab { used, ..slab }));
        }
    }

    // The lowest-numbered slab that takes a block of the class.
    fn first(&self, class: usize) -> Option<usize> {
        for number in 0..self.numbers.len() {
            if let Some(slab) = self.slab_of(number, class) {
                if slab.used < per_slab(class) && (slab.kept || !self.passing) {
                    return Some(number);
                }
            }
        }
        None
    }

    // The free places of a class's kept slabs, and the blocks in its others.
    fn spare_and_waiting(&self, class: usize) -> (u64, u64) {
        let mut spare: u64 = 0;
        let mut waiting: u64 = 0;
        for number in 0..self.numbers.len() {
            if let Some(slab) = self.slab_of(number, class) {
                if slab.kept {
                    spare = spare.wrapping_add(per_slab(class).wrapping_sub(slab.used));
                } else {
                    waiting = waiting.wrapping_add(slab.used);
                }
            }
        }
        (spare, waiting)
    }

    /// How many slabs a class has, and how many blocks.
    pub fn use_of(&self, class: usize) -> (u64, u64) {
        let mut slabs: u64 = 0;
        let mut used: u64 = 0;
        for number in 0..self.numbers.len() {
            if let Some(slab) = self.slab_of(number, class) {
                slabs = slabs.wrapping_add(1);
                used = used.wrapping_add(slab.used);
            }
        }
        (slabs, used)
    }

    /// The number that a new block of so many bytes gets.
    pub fn place(&mut self, len: usize) -> Result<usize, AllocError> {
        let Some(class) = class_of(len) else {
            return self.put(Stands::Alone);
        };
        let (spare, waiting) = self.spare_and_waiting(class);
        match self.first(class) {
            Some(number) if !self.passing || spare > waiting => {
                self.add(number, 1);
                Ok(number)
            }
            _ => self.put(Stands::Slab(PlainSlab {
                class,
                used: 1,
                kept: self.passing,
            })),
        }
    }

    /// A block at the number comes back.
    pub fn give_back(&mut self, number: usize) {
        match self.slab(number) {
            Some(slab) if slab.used > 1 || slab.kept => self.add(number, u64::MAX),
            _ => self.set(number, Stands::Nothing),
        }
    }

    /// Whether a block at the number wants to move.
    pub fn wants_move(&self, number: usize) -> bool {
        match self.slab(number) {
            Some(slab) => self.passing && !slab.kept,
            None => false,
        }
    }

    /// Whether no block wants to move.
    pub fn is_calm(&self) -> bool {
        for number in 0..self.numbers.len() {
            if self.wants_move(number) {
                return false;
            }
        }
        true
    }

    /// Moves a block that wants it; the answer is its new number.
    pub fn move_block(&mut self, number: usize) -> Option<usize> {
        let slab = self.slab(number)?;
        let target = self.first(slab.class)?;
        self.add(target, 1);
        self.give_back(number);
        Some(target)
    }

    // Keeps the fullest slab of the class that isn't kept, the lowest-numbered among equals.
    fn keep_one(&mut self, class: usize) {
        let mut best: Option<(usize, PlainSlab)> = None;
        for number in 0..self.numbers.len() {
            if let Some(slab) = self.slab_of(number, class) {
                let fuller = match best {
                    Some((_, other)) => slab.used > other.used,
                    None => true,
                };
                if !slab.kept && fuller {
                    best = Some((number, slab));
                }
            }
        }
        if let Some((number, slab)) = best {
            self.set(number, Stands::Slab(PlainSlab { kept: true, ..slab }));
        }
    }

    pub fn begin_pass(&mut self) {
        self.end_pass();
        self.passing = true;
        for class in 0..36 {
            let (_, used) = self.use_of(class);
            for _ in 0..used.div_ceil(per_slab(class).max(1)) {
                self.keep_one(class);
            }
        }
    }

    pub fn end_pass(&mut self) {
        self.passing = false;
        for number in 0..self.numbers.len() {
            match self.slab(number) {
                Some(slab) if slab.used == 0 => self.set(number, Stands::Nothing),
                Some(slab) => self.set(
                    number,
                    Stands::Slab(PlainSlab {
                        kept: false,
                        ..slab
                    }),
                ),
                None => {}
            }
        }
    }
}
