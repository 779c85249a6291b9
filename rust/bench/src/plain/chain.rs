//! The chain from one element to another: outwards from the end by elements, then forwards by the lowest cluster.

use super::plan::merges_of;
use super::sheet::{read, Sheet};

/// How "none" is told.
const NO_RUN: i32 = -100;

/// The numbers of the chain's clusters into lent space: their count, minus the rule, or that there is none.
pub fn chain(bytes: &[u8], from: usize, to: usize, out: &mut [u16]) -> i32 {
    let mut sheet = Sheet::blank();
    if let Err(rule) = read(bytes, &mut sheet) {
        return -i32::from(rule);
    }
    let merging = match merges_of(&sheet) {
        Ok(merging) => merging,
        Err(_) => return -11,
    };
    if from.max(to) >= sheet.n {
        return -25;
    }
    if from == to {
        return 0;
    }
    let sets = merging.sets();
    let (start, end) = (1 << from, 1 << to);
    let mut near = [0; 65];
    let count = match spread(sets, start, end, &mut near) {
        Some(count) => count,
        None => return NO_RUN,
    };
    let space = match out.get_mut(..count) {
        Some(space) => space,
        None => return -17,
    };
    let mut set: u64 = start;
    for (number, near) in space.iter_mut().zip(near[..count].iter().rev()) {
        let next = sets.iter().position(|other| other & set != 0 && other & near != 0).unwrap_or(0);
        *number = next as u16;
        set = sets[next];
    }
    count as i32
}

/// The elements from which at most t clusters lead to the end, for each t until the start is among them; how many that takes.
fn spread(sets: &[u64], start: u64, end: u64, near: &mut [u64; 65]) -> Option<usize> {
    let mut reach = [0; 64];
    for &set in sets {
        let mut rest = set;
        while rest != 0 {
            reach[rest.trailing_zeros() as usize & 63] |= set;
            rest &= rest - 1;
        }
    }
    let (mut all, mut last, mut count) = (end, end, 0);
    near[0] = end;
    while all & start == 0 {
        let mut next = 0;
        while last != 0 {
            next |= reach[last.trailing_zeros() as usize & 63];
            last &= last - 1;
        }
        last = next & !all;
        if last == 0 {
            return None;
        }
        all |= next;
        count += 1;
        near[count] = all;
    }
    Some(count)
}
