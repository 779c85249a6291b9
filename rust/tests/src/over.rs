//! Over (document 01, "Verdict names"), by looking at every set: for few elements.

use crate::facts::{Constraint, Sheet};
use crate::set::{size, within, Set};

/// What an over sheet's answer names.
#[derive(Clone, Copy, PartialEq, Eq, Debug)]
pub struct Over {
    /// The first constraint that makes those up to it over.
    pub first: usize,
    /// The smallest set that holds both its ends and carries exactly 2m-3 earlier constraints.
    pub set: Set,
}

/// How many of the constraints have both ends in the set.
pub fn carried(constraints: &[Constraint], set: Set) -> usize {
    constraints.iter().filter(|c| within(c.ends(), set)).count()
}

/// The answer of an over sheet, found among all sets of two or more elements.
pub fn by_subsets(sheet: &Sheet) -> Option<Over> {
    let sets: Vec<Set> = (0..1 << sheet.n()).filter(|&set| size(set) >= 2).collect();
    let over = |listed: &[Constraint]| sets.iter().any(|&set| carried(listed, set) > 2 * size(set) - 3);
    let first = (0..sheet.e()).find(|&i| over(&sheet.constraints[..=i]))?;
    let (ends, earlier) = (sheet.constraints[first].ends(), &sheet.constraints[..first]);
    let tight = |set: Set| within(ends, set) && carried(earlier, set) == 2 * size(set) - 3;
    let set = sets.iter().copied().filter(|&set| tight(set)).min_by_key(|&set| size(set))?;
    Some(Over { first, set })
}
