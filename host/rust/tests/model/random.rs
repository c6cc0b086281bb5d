//! Random numbers that are the same in every run (splitmix64), and random cells.

use super::codes::{self, Cell, DEEPEST};
use super::solids;

/// The digits of the two children that have a part of a side of their parent, by the side's direction.
pub const ALONG: [[u64; 2]; 3] = [[0b00, 0b01], [0b00, 0b11], [0b01, 0b11]];

pub struct Random {
    state: u64,
}

impl Random {
    pub fn with_seed(seed: u64) -> Random {
        Random { state: seed }
    }

    /// Any number of 64 bits.
    pub fn number(&mut self) -> u64 {
        self.state = self.state.wrapping_add(0x9e37_79b9_7f4a_7c15);
        let mixed = (self.state ^ (self.state >> 30)).wrapping_mul(0xbf58_476d_1ce4_e5b9);
        let mixed = (mixed ^ (mixed >> 27)).wrapping_mul(0x94d0_49bb_1331_11eb);
        mixed ^ (mixed >> 31)
    }

    pub fn below(&mut self, limit: u64) -> u64 {
        self.number() % limit
    }

    pub fn one_of<T: Copy>(&mut self, choices: &[T]) -> T {
        choices[self.below(choices.len() as u64) as usize]
    }

    /// A cell of any solid, face and depth.
    pub fn cell(&mut self) -> Cell {
        let depth = self.below(DEEPEST + 1);
        self.cell_of_depth(depth)
    }

    /// A cell of any solid and face.
    pub fn cell_of_depth(&mut self, depth: u64) -> Cell {
        let solid = self.one_of(&solids::SOLIDS);
        let face = self.below(solids::number_of_faces(solid));
        let digits = (0..depth).map(|_| self.below(4)).collect();
        Cell { solid, face, digits }
    }

    /// A cell of any solid and face, at a side of its face: all its digits are along that side.
    pub fn cell_at_side(&mut self, direction: u64, depth: u64) -> Cell {
        self.cell_with_run(direction, depth, depth)
    }

    /// A cell of any solid and face of which exactly so many last digits are along a side.
    pub fn cell_with_run(&mut self, direction: u64, depth: u64, run: u64) -> Cell {
        let mut cell = self.cell_of_depth(depth);
        let (before, along) = cell.digits.split_at_mut((depth - run) as usize);
        along.iter_mut().for_each(|digit| *digit = self.one_of(&ALONG[direction as usize]));
        if let Some(last) = before.last_mut() {
            *last = self.digit_that_is_not_along(direction);
        }
        cell
    }

    fn digit_that_is_not_along(&mut self, direction: u64) -> u64 {
        loop {
            let digit = self.below(4);
            if !ALONG[direction as usize].contains(&digit) {
                return digit;
            }
        }
    }

    /// Mostly one of the leaves; else a cell near one, any cell, or a number that may be no code.
    pub fn code_for(&mut self, leaves: &[u64]) -> u64 {
        let leaf = self.one_of(leaves);
        let digit = self.below(4);
        match self.below(16) {
            0 | 1 => codes::parent(leaf).unwrap_or(leaf),
            2 => codes::parent(leaf).and_then(codes::parent).unwrap_or(leaf),
            3 => codes::child(leaf, digit).unwrap_or(leaf),
            4 => codes::code_of(&self.cell()),
            5 => codes::code_of(&self.cell_of_depth(DEEPEST)),
            6 => self.with_a_wrong_bit(leaf),
            7 => self.with_another_part(leaf),
            8 => self.number_at_an_edge(),
            9 => self.number(),
            _ => leaf,
        }
    }

    /// The number with one of its bits wrong.
    pub fn with_a_wrong_bit(&mut self, number: u64) -> u64 {
        number ^ (1 << self.below(64))
    }

    /// The code with another solid, face, path or depth in its place, well formed or not.
    pub fn with_another_part(&mut self, code: u64) -> u64 {
        let (place, room) = self.one_of(&[(62, 1 << 2), (57, 1 << 5), (5, 1 << 52), (0, 1 << 5)]);
        let old = (code >> place) % room;
        let new = self.below(room);
        code - (old << place) + (new << place)
    }

    /// A number at or near the places where a limit, a field or a machine word ends.
    pub fn number_at_an_edge(&mut self) -> u64 {
        let power = 1 << self.below(64);
        let offset = self.below(33);
        match self.below(4) {
            0 => offset,
            1 => power,
            2 => u64::wrapping_add(power, offset),
            _ => u64::wrapping_sub(power, offset),
        }
    }
}
