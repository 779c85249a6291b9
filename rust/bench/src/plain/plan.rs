//! The engine's plan and the verdict, by links between elements.
//!
//! Two elements are linked if a living cluster holds both. On a sheet that is not over two living clusters share at
//! most one element, so a cluster takes part in an open merge if and only if an element outside it is linked to two of
//! its own. The union of each block of clusters tells where to look for one that meets a set.

use super::over::{self, Over, Peeling};
use super::sheet::{read, Rule, Sheet};

/// Clusters in a block.
const BLOCK: usize = 8;
/// The most clusters of a sheet that is not over, 125 constraints and 62 steps, in whole blocks.
const MOST_CLUSTERS: usize = (187 + BLOCK - 1) / BLOCK * BLOCK;
/// The most steps of a plan.
const MOST_STEPS: usize = 62;

/// A step: its parts ascending, and the joint.
#[derive(Clone, Copy)]
pub struct Step {
    pub parts: [usize; 3],
    pub joint: u64,
}

/// The clusters of a sheet while they are merged, and the steps so far.
pub struct Merging {
    /// The elements of each cluster; 0 where it was merged away.
    sets: [u64; MOST_CLUSTERS],
    /// How many clusters have a number.
    made: usize,
    /// The union of each block of clusters.
    sums: [u64; MOST_CLUSTERS / BLOCK],
    /// For each element those that are linked to it, and itself.
    links: [u64; 64],
    steps: [Step; MOST_STEPS],
    count: usize,
}

impl Merging {
    /// The initial clusters of a sheet that is not over.
    fn initial(sheet: &Sheet) -> Merging {
        let none = Step { parts: [0; 3], joint: 0 };
        let mut merging = Merging {
            sets: [0; MOST_CLUSTERS],
            made: sheet.e,
            sums: [0; MOST_CLUSTERS / BLOCK],
            links: [0; 64],
            steps: [none; MOST_STEPS],
            count: 0,
        };
        for (i, (set, c)) in merging.sets.iter_mut().zip(&sheet.constraints[..sheet.e]).enumerate() {
            *set = 1 << c.first | 1 << c.second;
            merging.sums[i / BLOCK] |= *set;
            merging.links[usize::from(c.first & 63)] |= *set;
            merging.links[usize::from(c.second & 63)] |= *set;
        }
        merging
    }

    /// The elements outside a set that are linked to two of its own. The loop is for sets of more than two.
    fn outside(&self, set: u64) -> u64 {
        let (mut once, mut twice, mut rest) = (0, 0, set);
        while rest != 0 {
            let links = self.links[rest.trailing_zeros() as usize & 63];
            twice |= once & links;
            once |= links;
            rest &= rest - 1;
        }
        twice & !set
    }

    /// The lowest number from `from` on and below `to` whose block meets both sets; `to` if there is none.
    fn skip(&self, from: usize, to: usize, a: u64, b: u64) -> usize {
        let mut i = from;
        while i < to {
            let sum = self.sums[i / BLOCK];
            if sum & a != 0 && sum & b != 0 {
                return i;
            }
            i = (i / BLOCK + 1) * BLOCK;
        }
        to
    }

    /// The lowest cluster from `from` on and below `to` that meets both sets and passes a test.
    fn lowest(&self, from: usize, to: usize, a: u64, b: u64, test: impl Fn(u64) -> bool) -> Option<usize> {
        let mut i = self.skip(from, to, a, b);
        while i < to {
            let set = self.sets[i];
            if set & a != 0 && set & b != 0 && test(set) {
                return Some(i);
            }
            i = self.skip(i + 1, to, a, b);
        }
        None
    }

    /// The lowest cluster from `from` on that meets both sets.
    fn lowest_meeting(&self, from: usize, a: u64, b: u64) -> Option<usize> {
        self.lowest(from, self.made, a, b, |_| true)
    }

    /// The lowest cluster that reaches an element outside it, below `from` only among those that meet `last`.
    fn lowest_reaching(&self, from: usize, last: u64) -> Option<usize> {
        let reaches = |set| self.outside(set) != 0;
        self.lowest(0, from, last, last, reaches).or_else(|| (from..self.made).find(|&i| reaches(self.sets[i])))
    }

    /// The first open merge, where below `from` only clusters that meet `last` take part in any.
    #[inline(always)]
    fn first_open(&self, from: usize, last: u64) -> Option<[usize; 3]> {
        let i = self.lowest_reaching(from, last)?;
        let a = self.sets[i];
        let j = self.lowest_meeting(i + 1, a, self.outside(a))?;
        let b = self.sets[j];
        let k = self.lowest_meeting(j + 1, a & !b, b & !a)?;
        open(a, b, self.sets[k]).then_some([i, j, k])
    }

    /// Makes an open merge; the union.
    #[inline(always)]
    fn merge(&mut self, parts: [usize; 3]) -> u64 {
        let [a, b, c] = parts.map(|i| std::mem::take(&mut self.sets[i]));
        let union = a | b | c;
        let mut rest = union;
        while rest != 0 {
            self.links[rest.trailing_zeros() as usize & 63] |= union;
            rest &= rest - 1;
        }
        self.sets[self.made] = union;
        for i in [parts[0], parts[1], parts[2], self.made] {
            let block = i / BLOCK;
            self.sums[block] = self.sets[block * BLOCK..(block + 1) * BLOCK].iter().fold(0, |sum, set| sum | set);
        }
        self.steps[self.count] = Step { parts, joint: a & b | a & c | b & c };
        self.made += 1;
        self.count += 1;
        union
    }

    /// Makes a step of a saved plan, by rules 13 and 15.
    fn take(&mut self, mut parts: [usize; 3]) -> Result<(), Rule> {
        parts.sort_unstable();
        let living = parts.iter().all(|&part| part < self.made && self.sets[part] != 0);
        if !living || parts[0] == parts[1] || parts[1] == parts[2] {
            return Err(13);
        }
        let [a, b, c] = parts.map(|part| self.sets[part]);
        if !open(a, b, c) {
            return Err(15);
        }
        self.merge(parts);
        Ok(())
    }

    /// The steps made.
    pub fn steps(&self) -> &[Step] {
        &self.steps[..self.count]
    }

    /// The clusters by number; 0 where one was merged away.
    pub fn sets(&self) -> &[u64] {
        &self.sets[..self.made]
    }
}

/// Whether each two share exactly one element, three different ones in all. It may fail on an over sheet alone.
fn open(a: u64, b: u64, c: u64) -> bool {
    let shared = [a & b, b & c, a & c];
    shared.iter().all(|set| set.is_power_of_two()) && (shared[0] | shared[1] | shared[2]).count_ones() == 3
}

/// The merges of a sheet, or what makes it over. Where there are 2n-3 constraints, merges that leave one cluster show that it is not.
pub fn merges_of(sheet: &Sheet) -> Result<Merging, Over> {
    let merged = (sheet.e + 3 == 2 * sheet.n).then(|| merge_all(sheet));
    match merged {
        Some(merging) if sheet.e == 2 * merging.count + 1 => Ok(merging),
        _ => over::find(sheet).map_or_else(|| Ok(merged.unwrap_or_else(|| merge_all(sheet))), Err),
    }
}

/// The merges of a saved plan, three numbers a step, or the rule that refuses it. Where there are 2n-3 constraints, steps that leave one cluster
/// show that the sheet is not over.
pub fn saved(sheet: &Sheet, plan: &[u16]) -> Result<Merging, Rule> {
    let taken = (sheet.e + 3 == 2 * sheet.n).then(|| take_all(sheet, plan));
    match taken {
        Some(Ok(merging)) if sheet.e == 2 * merging.count + 1 => Ok(merging),
        _ if sheet.e + 3 > 2 * sheet.n || over::find(sheet).is_some() => Err(11),
        _ => taken.unwrap_or_else(|| take_all(sheet, plan)),
    }
}

/// Takes the steps of a saved plan, by rules 12, 13, 15 and 16.
fn take_all(sheet: &Sheet, plan: &[u16]) -> Result<Merging, Rule> {
    if plan.len() % 3 != 0 {
        return Err(12);
    }
    let mut merging = Merging::initial(sheet);
    for step in plan.chunks_exact(3) {
        merging.take([step[0], step[1], step[2]].map(usize::from))?;
    }
    let whole = sheet.e == 2 * merging.count + 1;
    if whole || merging.first_open(0, 0).is_none() {
        Ok(merging)
    } else {
        Err(16)
    }
}

/// Takes the first open merge until there is none.
fn merge_all(sheet: &Sheet) -> Merging {
    let mut merging = Merging::initial(sheet);
    let (mut from, mut last) = (0, 0);
    while let Some(parts) = merging.first_open(from, last) {
        last = merging.merge(parts);
        from = parts[0];
    }
    merging
}

/// The verdict's number: 0 over, 1 angle, 2 well, 3 stuck, 4 under.
pub fn verdict_of(sheet: &Sheet, merging: &Merging) -> i32 {
    let joint = merging.steps().iter().any(|step| step.joint & !sheet.lines == 0);
    let angle = joint || has_ring(&merging.sets[..merging.made], sheet.lines);
    let left = sheet.e - 2 * merging.count;
    match (angle, sheet.e == 2 * sheet.n - 3, left) {
        (true, _, _) => 1,
        (_, true, 1) => 2,
        (_, true, _) => 3,
        _ => 4,
    }
}

/// Whether clusters make a ring of lines: lines in fewer than two of the clusters that hold two of them are stripped off.
fn has_ring(clusters: &[u64], mut lines: u64) -> bool {
    while lines != 0 {
        let (mut once, mut twice) = (0, 0);
        for &cluster in clusters {
            let held = cluster & lines;
            if held & held.wrapping_sub(1) != 0 {
                twice |= once & held;
                once |= held;
            }
        }
        if twice == lines {
            return true;
        }
        lines = twice;
    }
    false
}

/// The verdict on a sheet's bytes, or minus the rule.
pub fn verdict(bytes: &[u8]) -> i32 {
    let mut sheet = Sheet::blank();
    if let Err(rule) = read(bytes, &mut sheet) {
        return -i32::from(rule);
    }
    judge(&sheet)
}

/// The verdict on a sheet.
pub fn judge(sheet: &Sheet) -> i32 {
    short_verdict(sheet).unwrap_or_else(|| merges_of(sheet).map_or(0, |merging| verdict_of(sheet, &merging)))
}

/// The verdict where counts, peeling or the search for an over set decide it. Two lines make no joint of three.
fn short_verdict(sheet: &Sheet) -> Option<i32> {
    let (used, freedoms) = (sheet.e + 3, 2 * sheet.n);
    if used > freedoms {
        return Some(0);
    }
    if used == freedoms {
        let Peeling { left, angle } = over::peel(sheet);
        return (left == 0).then_some(if angle { 1 } else { 2 });
    }
    (sheet.lines.count_ones() <= 2).then(|| if over::find(sheet).is_some() { 0 } else { 4 })
}

/// The engine's plan into lent space: the count of numbers, or minus the rule.
pub fn plan(bytes: &[u8], out: &mut [u16]) -> i32 {
    let mut sheet = Sheet::blank();
    if let Err(rule) = read(bytes, &mut sheet) {
        return -i32::from(rule);
    }
    let merging = match merges_of(&sheet) {
        Ok(merging) => merging,
        Err(_) => return 0,
    };
    let space = match out.get_mut(..3 * merging.count) {
        Some(space) => space,
        None => return -17,
    };
    for (numbers, step) in space.chunks_exact_mut(3).zip(merging.steps()) {
        numbers.copy_from_slice(&step.parts.map(|part| part as u16));
    }
    space.len() as i32
}
