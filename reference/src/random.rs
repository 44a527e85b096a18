//! Numbers from a seed, by splitmix64. For test material only; keys need
//! randomness that nobody can repeat.
//!
//! - `Random`: the generator
//! - `Random::draw`, `below`, `chance`, `pick`, `shuffle`: plain draws
//! - `Random::up_to`: from 0 to a largest number, both ends drawn often
//! - `Random::around`: from either side of zero, both ends and zero drawn often
//! - `Random::element`, `elements`: elements, drawn so

use crate::field::{Element, LARGEST};

const STEP: u64 = 0x9E37_79B9_7F4A_7C15;
const FIRST_FACTOR: u64 = 0xBF58_476D_1CE4_E5B9;
const SECOND_FACTOR: u64 = 0x94D0_49BB_1331_11EB;

/// One draw in this many is 0, another one is the largest number.
const ENDS_EVERY: u64 = 8;

pub struct Random(u64);

impl Random {
    pub fn new(seed: u64) -> Random {
        Random(seed)
    }

    pub fn draw(&mut self) -> u64 {
        self.0 = self.0.wrapping_add(STEP);
        let mixed = (self.0 ^ self.0 >> 30).wrapping_mul(FIRST_FACTOR);
        let mixed = (mixed ^ mixed >> 27).wrapping_mul(SECOND_FACTOR);
        mixed ^ mixed >> 31
    }

    /// From 0 to `bound` - 1.
    pub fn below(&mut self, bound: usize) -> usize {
        (self.draw() % bound as u64) as usize
    }

    /// True this many times in a hundred.
    pub fn chance(&mut self, percent: usize) -> bool {
        self.below(100) < percent
    }

    pub fn pick<T: Copy>(&mut self, values: &[T]) -> T {
        values[self.below(values.len())]
    }

    pub fn shuffle<T>(&mut self, values: &mut [T]) {
        for last in (1..values.len()).rev() {
            values.swap(last, self.below(last + 1));
        }
    }

    pub fn up_to(&mut self, largest: Element) -> Element {
        match self.draw() % ENDS_EVERY {
            0 => 0,
            1 => largest,
            _ => self.below(usize::from(largest) + 1) as Element,
        }
    }

    pub fn around(&mut self, largest: Element) -> i32 {
        let size = i32::from(self.up_to(largest));
        self.pick(&[size, -size])
    }

    pub fn element(&mut self) -> Element {
        self.up_to(LARGEST)
    }

    pub fn elements(&mut self, length: usize) -> Vec<Element> {
        (0..length).map(|_| self.element()).collect()
    }
}
