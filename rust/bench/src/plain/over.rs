//! The search for an over set by freedoms (the pebble game), after elements with at most two constraints are peeled off: the proved
//! search, in plain Rust.

use super::sheet::{read, Sheet};

/// For each element, two entries: the element itself while the freedom is free, else the other end of the constraint that uses it.
pub type Freedoms = [[u8; 2]; 64];

/// The first constraint that makes those up to it over, and the smallest set.
pub struct Over {
    pub first: usize,
    pub set: u64,
}

/// The answer of an over sheet.
pub fn find(sheet: &Sheet) -> Option<Over> {
    let core = peel(sheet).left;
    if core == 0 {
        return None;
    }
    let mut own: Freedoms = std::array::from_fn(|x| [x as u8; 2]);
    let (mut queue, mut from) = ([0; 64], [0; 64]);
    let (mut once, mut twice) = (0, 0);
    for (first, constraint) in sheet.constraints[..sheet.e].iter().enumerate() {
        let ends = (constraint.first & 63, constraint.second & 63);
        let pair = 1u64 << ends.0 | 1 << ends.1;
        if pair & core != pair {
            continue;
        }
        // an end that has one constraint at most takes the next without a search
        if pair & twice == pair {
            while free(&own, ends.0) + free(&own, ends.1) < 4 {
                match seek(&own, &mut queue, &mut from, ends) {
                    Ok(place) => release(&mut own, &queue, &from, place),
                    Err(set) => return Some(Over { first, set }),
                }
            }
        }
        place(&mut own, ends);
        twice |= once & pair;
        once |= pair;
    }
    None
}

/// What is left when elements with at most two constraints are taken off in turn, and whether one that had two made three lines with its neighbours.
pub struct Peeling {
    pub left: u64,
    pub angle: bool,
}

/// Takes elements with at most two constraints off in turn.
pub fn peel(sheet: &Sheet) -> Peeling {
    let mut near = [0u64; 64];
    for constraint in &sheet.constraints[..sheet.e] {
        let (a, b) = (constraint.first & 63, constraint.second & 63);
        near[usize::from(a)] |= 1 << b;
        near[usize::from(b)] |= 1 << a;
    }
    let mut left = u64::MAX;
    let mut angle = false;
    let mut todo = 0;
    for (x, &mask) in near.iter().enumerate() {
        todo |= u64::from(light(mask)) << x;
    }
    while todo != 0 {
        let x = todo.trailing_zeros();
        let around = near[x as usize] & left | 1 << x;
        angle |= around & !sheet.lines == 0 && around.count_ones() == 3;
        todo &= todo - 1;
        left &= !(1 << x);
        let mut who = near[x as usize] & left;
        while who != 0 {
            let y = who.trailing_zeros();
            who &= who - 1;
            todo |= u64::from(light(near[y as usize] & left)) << y;
        }
    }
    Peeling { left, angle }
}

/// Whether a set has two elements at most.
fn light(mask: u64) -> bool {
    let rest = mask & mask.wrapping_sub(1);
    rest & rest.wrapping_sub(1) == 0
}

/// How many entries of an element are free.
pub fn free(own: &Freedoms, x: u8) -> usize {
    own[usize::from(x & 63)].iter().filter(|&&entry| entry == x).count()
}

/// The place in the queue of an element with a free entry that is reached from the ends, or the set that was searched.
pub fn seek(own: &Freedoms, queue: &mut [u8; 64], from: &mut [u8; 64], ends: (u8, u8)) -> Result<usize, u64> {
    let mut seen: u64 = 1 << ends.0 | 1 << ends.1;
    (queue[0], queue[1]) = ends;
    let (mut next, mut count) = (0, 2);
    while next < count {
        let x = queue[next & 63];
        let entries = own[usize::from(x & 63)];
        if next >= 2 && entries.contains(&x) {
            return Ok(next);
        }
        for y in entries {
            if seen >> (y & 63) & 1 == 0 {
                seen |= 1 << (y & 63);
                queue[count & 63] = y;
                from[count & 63] = next as u8;
                count += 1;
            }
        }
        next += 1;
    }
    Err(seen)
}

/// Turns freedoms along the way from a place in the queue back to one of the ends.
pub fn release(own: &mut Freedoms, queue: &[u8; 64], from: &[u8; 64], mut place: usize) {
    while place >= 2 {
        let back = usize::from(from[place & 63]);
        let (x, y) = (queue[back & 63], queue[place & 63]);
        change(own, x, y, x);
        change(own, y, y, x);
        place = back;
    }
}

/// Uses a free entry of an end for the constraint between the two.
pub fn place(own: &mut Freedoms, ends: (u8, u8)) {
    if own[usize::from(ends.0)].contains(&ends.0) {
        change(own, ends.0, ends.0, ends.1);
    } else {
        change(own, ends.1, ends.1, ends.0);
    }
}

/// Changes the first entry of x that holds `old`.
fn change(own: &mut Freedoms, x: u8, old: u8, new: u8) {
    let entries = &mut own[usize::from(x & 63)];
    let place = usize::from(entries[0] != old);
    entries[place] = new;
}

/// First and set of an over sheet into lent space: the count of items, or minus the rule.
pub fn over(bytes: &[u8], out: &mut [u64]) -> i32 {
    let mut sheet = Sheet::blank();
    if let Err(rule) = read(bytes, &mut sheet) {
        return -i32::from(rule);
    }
    let over = match find(&sheet) {
        Some(over) => over,
        None => return 0,
    };
    let space = match out.get_mut(..2) {
        Some(space) => space,
        None => return -17,
    };
    space.copy_from_slice(&[over.first as u64, over.set]);
    2
}
