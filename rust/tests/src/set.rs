//! Sets of elements as bit masks: element i is bit i.

/// A set of elements.
pub type Set = u64;

/// The set of one element.
pub fn one(element: usize) -> Set {
    1 << element
}

/// How many elements a set has.
pub fn size(set: Set) -> usize {
    set.count_ones() as usize
}

/// Whether every element of `part` is in `whole`.
pub fn within(part: Set, whole: Set) -> bool {
    part & whole == part
}

/// The elements of a set, ascending.
pub fn elements(set: Set) -> impl Iterator<Item = usize> {
    (0..64).filter(move |&i| set >> i & 1 == 1)
}
