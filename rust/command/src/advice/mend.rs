//! Changes that bring a sheet to "well": as few dimensions left out as can be found, then the least price.

use pattern::{Verdict, MOST_ELEMENTS};

use super::change::{put_point, without, Change, Costs};
use super::complete::{complete, grow};
use super::tries::Tries;
use super::Pair;
use crate::sheet::{members, Sheet};

/// The most calls for one dimension left out, for building anew, and for a new point.
const MOST_MOVES: usize = 8_000;
const MOST_POINTS: usize = 2_000;
/// The most parts around which a sheet is built anew, the largest first.
const MOST_BEGINNINGS: usize = 32;

/// A sheet that is not over, what is left out of it, what may be left out first, and what measuring costs.
pub struct Task<'a> {
    pub sheet: &'a Sheet,
    /// What is left out in any case: without it the sheet is not over.
    pub out: &'a [usize],
    /// The constraints that are tried first where one more is left out.
    pub first: &'a [usize],
    pub costs: &'a Costs,
}

impl Task<'_> {
    /// The sheet without what is left out in any case, and some more.
    fn rest(&self, more: &[usize]) -> Sheet {
        without(self.sheet, &[self.out, more].concat())
    }

    /// The change that leaves some more out and measures some pairs.
    fn change(&self, more: &[usize], measure: Vec<Pair>) -> Change {
        Change { price: self.costs.in_all(&measure), ..self.changed(more, measure) }
    }

    /// The same without its price.
    fn changed(&self, more: &[usize], measure: Vec<Pair>) -> Change {
        let mut out = [self.out, more].concat();
        out.sort_unstable();
        Change { out, point: None, measure, price: 0, verdict: Verdict::Well }
    }

    /// The constraints that may be left out beside, those that come first in front.
    fn candidates(&self) -> Vec<usize> {
        let rest = (0..self.sheet.constraints.len()).filter(|k| !self.first.contains(k));
        self.first.iter().copied().chain(rest).filter(|k| !self.out.contains(k)).collect()
    }

    /// The change that gives "well": nothing more left out, one more, or as many as it takes; else with a new point
    /// where two lines meet.
    pub fn mend(&self, tries: &mut Tries) -> Option<Change> {
        if let Some(pairs) = complete(&self.rest(&[]), self.costs, usize::MAX, tries) {
            return Some(self.change(&[], pairs));
        }
        let rebuilt = tries.share(MOST_MOVES, |tries| self.rebuilt(tries));
        let least = (self.out.len() + 1, 0, 0);
        if rebuilt.as_ref().map_or(false, |change| change.cost() == least) {
            return rebuilt;
        }
        let moved = tries.share(MOST_MOVES, |tries| self.one_moved(tries));
        let changes = moved.into_iter().chain(rebuilt).min_by_key(Change::cost);
        changes.or_else(|| tries.share(MOST_POINTS, |tries| self.with_point(tries)))
    }

    /// The cheapest change that leaves one more constraint out, of those that are found.
    fn one_moved(&self, tries: &mut Tries) -> Option<Change> {
        let mut best: Option<Change> = None;
        for k in self.candidates() {
            let below = best.as_ref().map_or(usize::MAX, |change| change.price);
            let rest = self.rest(&[k]);
            // its own pair measured again would be no change
            let own = (self.sheet.constraints[k].first, self.sheet.constraints[k].second);
            let costs = self.costs.forbidding(own);
            let lacking = 2 * rest.elements.len() - 3 - rest.constraints.len();
            let found =
                if lacking == 1 { grow(&rest, &costs, below, tries) } else { complete(&rest, &costs, below, tries) };
            best = found.map(|pairs| self.change(&[k], pairs)).or(best);
            if tries.stopped() || best.as_ref().map_or(false, |change| change.price == 0) {
                break;
            }
        }
        best
    }

    /// A sheet built anew around a part: each element outside is held by two dimensions from what is built, those that
    /// the sheet has first. Of all parts to begin with, the one that changes least; what need not be left out is put
    /// back.
    fn rebuilt(&self, tries: &mut Tries) -> Option<Change> {
        let rest = self.rest(&[]);
        let mut parts = tries.parts(&rest)?;
        parts.sort_by_key(|part| u32::MAX - part.count_ones());
        parts.extend((0..rest.elements.len()).filter(|&i| !rest.elements[i].is_line()).map(|i| 1 << i));
        let changes = parts.iter().take(MOST_BEGINNINGS).filter_map(|&part| self.built_around(part));
        let mut changes: Vec<Change> = changes.collect();
        changes.sort_by_key(Change::cost);
        for change in changes {
            if tries.verdict(&change.made(self.sheet))? == Verdict::Well {
                return Some(self.reduced(change, tries));
            }
        }
        None
    }

    /// The change that builds the sheet around a part.
    fn built_around(&self, part: u64) -> Option<Change> {
        let n = self.sheet.elements.len();
        let (mut built, mut out, mut measure) = (part, Vec::new(), Vec::new());
        while built.count_ones() < n as u32 {
            let outside = (0..n).filter(|i| built >> i & 1 == 0);
            let next = outside.filter_map(|i| self.hold(i, built)).min_by_key(Hold::cost)?;
            out.extend(next.out);
            measure.extend(next.measure);
            built |= 1 << next.element;
        }
        Some(self.change(&out, measure))
    }

    /// How an element is held by two dimensions from what is built: those that the sheet has, from points first, then
    /// the cheapest pairs. A line is held by one angle at most, since angles fix no distance.
    fn hold(&self, element: usize, built: u64) -> Option<Hold> {
        let is_line = |i: usize| self.sheet.elements[i].is_line();
        let mut held = 0u64;
        let mut links = Vec::new();
        for (k, c) in self.sheet.constraints.iter().enumerate().filter(|(k, _)| !self.out.contains(k)) {
            let other = if c.first == element { c.second } else { c.first };
            if c.first == element || c.second == element {
                held |= 1 << other;
                if built >> other & 1 == 1 {
                    links.push((is_line(other), k));
                }
            }
        }
        links.sort_unstable();
        let mut angles = 0;
        let (mut kept, mut out) = (0, Vec::new());
        for (line, k) in links {
            let angle = line && is_line(element);
            if kept == 2 || angle && angles == 1 {
                out.push(k);
            } else {
                kept += 1;
                angles += usize::from(angle);
            }
        }
        // beside a single element one dimension is all
        let wanted = (built.count_ones() as usize).min(2).saturating_sub(kept);
        let mut pairs = Vec::new();
        if wanted > 0 {
            let others = members(built & !held).filter(|&i| !(is_line(i) && is_line(element)));
            let open = others.map(|i| (i.min(element), i.max(element)));
            pairs.extend(open.filter_map(|pair| Some((self.costs.of_pair(pair)?, pair))));
            pairs.sort_unstable();
        }
        let measure: Vec<Pair> = pairs.into_iter().take(wanted).map(|(_, pair)| pair).collect();
        (measure.len() == wanted).then_some(Hold { element, out, measure })
    }

    /// A change without what need not be left out: a constraint is put back, and one of the pairs is not measured.
    fn reduced(&self, mut change: Change, tries: &mut Tries) -> Change {
        'again: loop {
            for &k in change.out.iter().filter(|k| !self.out.contains(k)) {
                for place in 0..change.measure.len() {
                    let out: Vec<usize> =
                        change.out.iter().copied().filter(|&o| o != k && !self.out.contains(&o)).collect();
                    let measure = [&change.measure[..place], &change.measure[place + 1..]].concat();
                    let less = self.change(&out, measure);
                    match tries.verdict(&less.made(self.sheet)) {
                        Some(Verdict::Well) => {
                            change = less;
                            continue 'again;
                        }
                        Some(_) => {}
                        None => return change,
                    }
                }
            }
            return change;
        }
    }

    /// A change with a new point where two lines meet: for lines that only distances from a point can hold.
    fn with_point(&self, tries: &mut Tries) -> Option<Change> {
        if self.sheet.elements.len() == MOST_ELEMENTS {
            return None;
        }
        let costs = self.costs.with_one_more();
        let none = [Vec::new()];
        let outs = none.into_iter().chain(self.candidates().into_iter().map(|k| vec![k]));
        for more in outs {
            let rest = self.rest(&more);
            let parts = tries.parts(&rest)?;
            let is_line = |i: &usize| rest.elements[*i].is_line();
            let corners = parts.iter().filter_map(|&part| {
                let mut lines = members(part).filter(is_line);
                Some([lines.next()?, lines.next()?])
            });
            for lines in corners {
                let mut pointed = rest.clone();
                put_point(&mut pointed, lines);
                if let Some(pairs) = complete(&pointed, &costs, usize::MAX, tries) {
                    let price = costs.in_all(&pairs);
                    return Some(Change { point: Some(lines), price, ..self.changed(&more, pairs) });
                }
                if tries.stopped() {
                    return None;
                }
            }
        }
        None
    }
}

/// How an element is held: what is left out for it, and what is measured.
struct Hold {
    element: usize,
    out: Vec<usize>,
    measure: Vec<Pair>,
}

impl Hold {
    /// What changes least comes first.
    fn cost(&self) -> (usize, usize, usize) {
        (self.measure.len(), self.out.len(), self.element)
    }
}
