//! Lent space with guards on both sides, and what a call must leave there.

use std::fmt::Debug;

use crate::facts::Rule;
use crate::random::Random;

/// How many items stand before and after a lent space.
const GUARD: usize = 16;

/// An item of a lent list.
pub trait Item: Copy + PartialEq + Debug {
    /// The item in the low bits.
    fn from_bits(bits: u64) -> Self;
}

impl Item for u8 {
    fn from_bits(bits: u64) -> u8 {
        bits as u8
    }
}

impl Item for u16 {
    fn from_bits(bits: u64) -> u16 {
        bits as u16
    }
}

impl Item for u64 {
    fn from_bits(bits: u64) -> u64 {
        bits
    }
}

/// Lent space of some room between guards, all filled with random items.
pub struct Space<T> {
    cells: Vec<T>,
}

impl<T: Item> Space<T> {
    /// A space of `room` items.
    pub fn new(room: usize, random: &mut Random) -> Space<T> {
        let all = room + 2 * GUARD;
        Space { cells: (0..all).map(|_| T::from_bits(random.bits())).collect() }
    }

    /// A space that holds just these items: what is read beyond them is random.
    pub fn holding(items: &[T], random: &mut Random) -> Space<T> {
        let mut space = Space::new(items.len(), random);
        space.lent().copy_from_slice(items);
        space
    }

    /// The items between the guards.
    pub fn held(&self) -> &[T] {
        &self.cells[GUARD..self.cells.len() - GUARD]
    }

    /// The part that is lent.
    pub fn lent(&mut self) -> &mut [T] {
        let end = self.cells.len() - GUARD;
        &mut self.cells[GUARD..end]
    }

    /// What a call with this answer must return and leave, guards included; rule 17 where the room is short.
    pub fn expected(&self, answer: &Result<Vec<T>, Rule>) -> (i32, Vec<T>) {
        let mut cells = self.cells.clone();
        let room = cells.len() - 2 * GUARD;
        let number = match answer {
            Err(rule) => -i32::from(*rule),
            Ok(items) if items.len() > room => -17,
            Ok(items) => {
                cells[GUARD..GUARD + items.len()].copy_from_slice(items);
                items.len() as i32
            }
        };
        (number, cells)
    }

    /// The whole space with its guards.
    pub fn cells(&self) -> &[T] {
        &self.cells
    }
}

/// The rooms to try for an answer: around the length needed and beyond; two for a refusal.
pub fn rooms<T>(answer: &Result<Vec<T>, Rule>, random: &mut Random) -> Vec<usize> {
    match answer {
        Err(_) => vec![0, random.between(1, 64)],
        Ok(items) => {
            let needed = items.len();
            let mut rooms = vec![0, needed.saturating_sub(1), needed, needed + 1, needed + random.between(2, 40)];
            rooms.push(random.below(needed + 1));
            rooms
        }
    }
}
