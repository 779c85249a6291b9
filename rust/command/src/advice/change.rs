//! A change of a sheet: constraints left out, a point put in, pairs measured.

use pattern::{Verdict, UNMEASURED};

use super::Pair;
use crate::sheet::{Constraint, Dimension, Kind, Sheet};

/// A change of a sheet, and the verdict that it gives.
#[derive(Clone, PartialEq, Eq, Debug)]
pub struct Change {
    /// The constraints that are left out, ascending.
    pub out: Vec<usize>,
    /// The two lines on which a new point is put; its number is the first that is free.
    pub point: Option<[usize; 2]>,
    /// The pairs to be measured, in the order in which they are advised.
    pub measure: Vec<Pair>,
    /// What measuring them costs.
    pub price: usize,
    /// The verdict of the sheet after the change.
    pub verdict: Verdict,
}

impl Change {
    /// How far a change goes: constraints out, points in, then the price.
    pub fn cost(&self) -> (usize, usize, usize) {
        (self.out.len(), usize::from(self.point.is_some()), self.price)
    }

    /// The sheet after the change. What is to be measured has a size of 0.1 mm: no verdict looks at it.
    pub fn made(&self, sheet: &Sheet) -> Sheet {
        let mut changed = without(sheet, &self.out);
        if let Some(lines) = self.point {
            put_point(&mut changed, lines);
        }
        changed.constraints.extend(self.measure.iter().copied().map(measured));
        changed
    }
}

/// A sheet without some of its constraints.
pub fn without(sheet: &Sheet, out: &[usize]) -> Sheet {
    let mut kept = vec![true; sheet.constraints.len()];
    out.iter().for_each(|&k| kept[k] = false);
    let constraints = sheet.constraints.iter().zip(kept).filter(|(_, kept)| *kept).map(|(c, _)| *c).collect();
    Sheet { opening: sheet.opening, elements: sheet.elements.clone(), constraints }
}

/// Puts a new point on two lines.
pub fn put_point(sheet: &mut Sheet, lines: [usize; 2]) {
    let point = sheet.elements.len();
    sheet.elements.push(Kind::Point);
    sheet.constraints.extend(lines.map(|first| Constraint { first, second: point, dimension: Dimension::On }));
}

/// The constraint of a pair whose size is not known yet.
pub fn measured((first, second): Pair) -> Constraint {
    Constraint { first, second, dimension: Dimension::Size(1) }
}

/// What the pairs of some elements cost to measure.
#[derive(Clone, Debug)]
pub struct Costs {
    count: usize,
    /// Pairs in dictionary order, as the engine takes them.
    pub prices: Vec<u16>,
}

impl Costs {
    /// The prices of so many elements' pairs in dictionary order; where the list is not so long, every pair costs
    /// nothing.
    pub fn of(count: usize, prices: &[u16]) -> Costs {
        let pairs = count * count.saturating_sub(1) / 2;
        let prices = if prices.len() == pairs { prices.to_vec() } else { vec![0; pairs] };
        Costs { count, prices }
    }

    /// The same with one element more, whose pairs cost nothing.
    pub fn with_one_more(&self) -> Costs {
        let row = |a: usize| (a + 1..self.count).map(move |b| self.at((a, b))).chain([0]);
        Costs { count: self.count + 1, prices: (0..self.count).flat_map(row).collect() }
    }

    /// The same with a pair that may not be measured.
    pub fn forbidding(&self, pair: Pair) -> Costs {
        let mut costs = self.clone();
        costs.prices[self.place(pair)] = UNMEASURED;
        costs
    }

    /// The place of a pair in dictionary order.
    fn place(&self, (a, b): Pair) -> usize {
        a * (2 * self.count - a - 1) / 2 + b - a - 1
    }

    /// The price of a pair as the engine takes it.
    fn at(&self, pair: Pair) -> u16 {
        self.prices[self.place(pair)]
    }

    /// The price of a pair that may be measured.
    pub fn of_pair(&self, pair: Pair) -> Option<usize> {
        Some(self.at(pair)).filter(|&price| price != UNMEASURED).map(usize::from)
    }

    /// The price of some pairs in all.
    pub fn in_all(&self, pairs: &[Pair]) -> usize {
        pairs.iter().filter_map(|&pair| self.of_pair(pair)).sum()
    }
}

/// The pairs that could be measured in a sheet: not held yet, not two lines, not forbidden by their price.
pub fn open_pairs<'a>(sheet: &'a Sheet, costs: &'a Costs) -> impl Iterator<Item = Pair> + 'a {
    let n = sheet.elements.len();
    let mut held = vec![0u64; n];
    for c in &sheet.constraints {
        held[c.first] |= 1 << c.second;
    }
    let is_line = move |i: usize| sheet.elements[i].is_line();
    let pairs = (0..n).flat_map(move |a| (a + 1..n).map(move |b| (a, b)));
    pairs.filter(move |&(a, b)| held[a] >> b & 1 == 0 && !(is_line(a) && is_line(b)) && costs.of_pair((a, b)).is_some())
}
