//! Over by matching: for any number of elements.
//!
//! Each element has two places, and each constraint takes one at one of its ends. By Hall's theorem all find a
//! place if and only if no set of m elements carries more than 2m. So, where the earlier constraints are not over,
//! the next makes them over if and only if four copies of it do not find places beside them; and all that the
//! search for the fourth copy's place reaches is then the smallest set.

use crate::facts::{Constraint, Sheet};
use crate::over::Over;
use crate::set::{elements, one, Set};

/// The constraints that sit at each element.
struct Places<'a> {
    constraints: &'a [Constraint],
    taken: Vec<Vec<usize>>,
}

impl Places<'_> {
    /// Finds constraint c a place at an end that is not yet in `reached`, moving others on where it must.
    fn seat(&mut self, c: usize, reached: &mut Set) -> bool {
        elements(self.constraints[c].ends()).any(|end| self.seat_at(c, end, reached))
    }

    /// Finds constraint c a place at one end.
    fn seat_at(&mut self, c: usize, end: usize, reached: &mut Set) -> bool {
        if *reached & one(end) != 0 {
            return false;
        }
        *reached |= one(end);
        if self.taken[end].len() < 2 {
            self.taken[end].push(c);
            return true;
        }
        let leaves = (0..2).find(|&i| self.seat(self.taken[end][i], reached));
        if let Some(i) = leaves {
            self.taken[end][i] = c;
        }
        leaves.is_some()
    }

    /// Takes every copy of constraint c away but one, which sits at its first end.
    fn keep_one(&mut self, c: usize) {
        self.taken.iter_mut().for_each(|places| places.retain(|&sits| sits != c));
        self.taken[usize::from(self.constraints[c].first)].push(c);
    }
}

/// The answer of an over sheet, found by giving the constraints places in listed order.
pub fn by_matching(sheet: &Sheet) -> Option<Over> {
    let mut places = Places { constraints: &sheet.constraints, taken: vec![Vec::new(); sheet.n()] };
    for first in 0..sheet.e() {
        for _copy in 0..4 {
            let mut reached = 0;
            if !places.seat(first, &mut reached) {
                return Some(Over { first, set: reached });
            }
        }
        places.keep_one(first);
    }
    None
}
