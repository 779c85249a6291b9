//! Places of the elements from a plan: each step puts three parts together by the triangle of their joint.
//!
//! A step may have two placements, and what comes after it may close with the one or the other. The search for
//! placements in which all steps close goes back from a step that does not close to the last one on which its triangle
//! rests (conflict-directed backjumping).

use pattern::Step;

use super::clear;
use super::fit::fit;
use super::math;
use super::place::{between, distance, length, wrapped, Motion, Place};
use super::system::wanted;
use crate::sheet::{members, Constraint, Sheet};

/// How near two lengths are where they count as one, for a drawing of size 1.
const NEAR: f64 = 1e-7;
/// How much three sides may lack and still count as a flat triangle: sizes are written to a tenth of a millimetre.
const SLACK: f64 = 0.16;
/// Where a triangle lacks less than this, or than this part of its largest side, rounding in what it rests on may be
/// the cause.
const DOUBT: f64 = 1.0;
const DOUBT_PART: f64 = 0.05;
/// The most merges that are tried before the search gives up.
const MOST_MERGES: usize = 20_000;
/// The most merges for which pictures are compared; later ones go by the spread of their points alone.
const MOST_LOOKS: usize = 400;
/// The most steps that are turned to make the whole clearer.
const MOST_TURNS: usize = 400;

/// A rigid part: the places of its elements in a plane of its own.
pub type Part = Vec<Option<Place>>;

/// Which of two placements is tried first.
#[derive(Clone, Copy)]
pub enum Taste<'a> {
    /// The one that makes the clearer picture.
    Clear,
    /// The same, but that the whole is not looked at again.
    Soon,
    /// The one that is nearer to rough places.
    Near(&'a [Option<Place>], f64),
}

/// How a search for placements ended.
#[derive(Clone, Copy, PartialEq, Eq, Debug)]
pub enum Outcome {
    /// All steps close.
    Closed,
    /// In no placement of the steps before it does a step close, by its place in the plan.
    Open(usize),
    /// The search gave up at a step.
    GaveUp(usize),
}

/// The parts of a plan by cluster number, as far as the steps close, and how the search ended.
pub struct Built {
    pub parts: Vec<Option<Part>>,
    pub outcome: Outcome,
}

/// The part of one constraint.
pub fn start(sheet: &Sheet, constraint: &Constraint) -> Part {
    let mut part = vec![None; sheet.elements.len()];
    let &Constraint { first, second, .. } = constraint;
    let size = wanted(sheet, constraint);
    let places = match [first, second].map(|end| sheet.elements[end].is_line()) {
        [true, true] => [[0.0, 0.0], [size, 0.0]],
        [true, false] => [[0.0, 0.0], [0.0, size]],
        [false, true] => [[0.0, size], [0.0, 0.0]],
        [false, false] => [[0.0, 0.0], [size, 0.0]],
    };
    part[first] = Some(places[0]);
    part[second] = Some(places[1]);
    part
}

/// A plan that is being built.
struct Build<'a> {
    sheet: &'a Sheet,
    steps: &'a [Step],
    taste: Taste<'a>,
    lines: Vec<bool>,
    /// The elements of each cluster.
    sets: Vec<u64>,
    parts: Vec<Option<Part>>,
    /// Which of its placements each step has taken.
    taken: Vec<usize>,
    merges: usize,
    /// Whether a step has more placements than are tried, or lacked so little that rounding before it may be the cause.
    doubtful: bool,
}

impl Build<'_> {
    /// The steps on which the places of some elements of a cluster beside each other rest: step i as bit i.
    fn rests(&self, cluster: usize, set: u64) -> u128 {
        let step = match cluster.checked_sub(self.sheet.constraints.len()) {
            Some(step) if set.count_ones() > 1 => step,
            _ => return 0,
        };
        let Step { parts, joint, .. } = self.steps[step];
        if let Some(&whole) = parts.iter().find(|&&part| set & !self.sets[part] == 0) {
            return self.rests(whole, set);
        }
        let below = parts.map(|part| self.rests(part, (set | joint) & self.sets[part]));
        below.iter().fold(1 << step, |all, rests| all | rests)
    }

    /// The steps on which it rests whether a step closes.
    fn blame(&self, step: usize) -> u128 {
        let Step { parts, joint, .. } = self.steps[step];
        parts.iter().fold(0, |all, &part| all | self.rests(part, joint & self.sets[part]))
    }

    /// The placements of a step, each with its number, the one to be tried first last.
    fn merge(&mut self, step: usize) -> Vec<(usize, Part)> {
        self.merges += 1;
        let Step { parts, joint, .. } = self.steps[step];
        let Merged { mut found, doubtful } = match parts.map(|part| self.parts[part].as_ref()) {
            [Some(a), Some(b), Some(c)] => merge(self.sheet, [a, b, c], joint),
            _ => return Vec::new(),
        };
        self.doubtful |= doubtful;
        if found.len() > 1 {
            match self.taste {
                Taste::Near(rough, scale) => {
                    let far = |(_, part): &(usize, Part)| fit(&self.lines, part, rough, scale).1;
                    found.sort_by(|a, b| far(b).total_cmp(&far(a)));
                }
                Taste::Clear | Taste::Soon => {
                    let sets = parts.map(|part| self.sets[part]);
                    clear::sort(self.sheet, &mut found, sets, self.merges <= MOST_LOOKS);
                }
            }
        }
        found
    }

    /// Searches for placements in which all steps close.
    fn search(&mut self) -> Outcome {
        let mut left: Vec<Vec<(usize, Part)>> = vec![Vec::new(); self.steps.len()];
        let mut blames = vec![0u128; self.steps.len()];
        let (mut step, mut furthest, mut fresh) = (0, 0, true);
        while step < self.steps.len() {
            furthest = furthest.max(step);
            if fresh {
                if self.merges >= MOST_MERGES {
                    return Outcome::GaveUp(furthest);
                }
                left[step] = self.merge(step);
                blames[step] = self.blame(step);
            }
            if let Some((number, part)) = left[step].pop() {
                self.parts[self.steps[step].made] = Some(part);
                self.taken[step] = number;
                step += 1;
                fresh = true;
                continue;
            }
            let blame = blames[step];
            if blame == 0 {
                return if self.doubtful { Outcome::GaveUp(furthest) } else { Outcome::Open(furthest) };
            }
            let back = 127 - blame.leading_zeros() as usize;
            blames[back] |= blame & !(1 << back);
            step = back;
            fresh = false;
        }
        Outcome::Closed
    }

    /// Turns single steps to their other placement as long as that makes the picture of the whole clearer.
    fn tidy(&mut self) {
        let (first, last) = (self.sheet.constraints.len(), self.parts.len() - 1);
        let look = |part: &Option<Part>| part.as_ref().map(|part| clear::Whole::of(self.sheet, part));
        let mut best = look(&self.parts[last]);
        let (mut step, mut idle, mut turns) = (0, 0, 0);
        while idle < self.steps.len() && turns < MOST_TURNS {
            let (kept, taken) = (self.parts[first + step..].to_vec(), self.taken[step]);
            self.taken[step] = 1 - taken.min(1);
            let turned = if self.again(step) { look(&self.parts[last]) } else { None };
            let clearer = match (&turned, &best) {
                (Some(turned), Some(best)) => turned.clearer(best),
                _ => false,
            };
            if clearer {
                best = turned;
                idle = 0;
            } else {
                self.taken[step] = taken;
                self.parts.splice(first + step.., kept);
                idle += 1;
            }
            turns += 1;
            step = (step + 1) % self.steps.len();
        }
    }

    /// Makes the parts of the steps from one on again, in the placements that they have taken: whether all close.
    fn again(&mut self, from: usize) -> bool {
        (from..self.steps.len()).all(|step| {
            let Step { made, parts, joint, .. } = self.steps[step];
            let found = match parts.map(|part| self.parts[part].as_ref()) {
                [Some(a), Some(b), Some(c)] => merge(self.sheet, [a, b, c], joint).found,
                _ => Vec::new(),
            };
            let part = found.into_iter().find(|(number, _)| *number == self.taken[step]).map(|(_, part)| part);
            let closes = part.is_some();
            self.parts[made] = part;
            closes
        })
    }
}

/// Builds a plan.
pub fn build(sheet: &Sheet, steps: &[Step], taste: Taste) -> Built {
    let lines: Vec<bool> = sheet.elements.iter().map(|kind| kind.is_line()).collect();
    let mut sets: Vec<u64> = sheet.constraints.iter().map(|c| 1 << c.first | 1 << c.second).collect();
    for step in steps {
        sets.push(step.parts.iter().fold(0, |set, &part| set | sets[part]));
    }
    let starts = sheet.constraints.iter().map(|constraint| Some(start(sheet, constraint)));
    let parts = starts.chain(steps.iter().map(|_| None)).collect();
    let taken = vec![0; steps.len()];
    let mut build = Build { sheet, steps, taste, lines, sets, parts, taken, merges: 0, doubtful: false };
    let outcome = build.search();
    let whole = steps.last().map_or(false, |step| build.sets[step.made].count_ones() as usize == sheet.elements.len());
    if outcome == Outcome::Closed && whole && matches!(taste, Taste::Clear) {
        build.tidy();
    }
    if outcome != Outcome::Closed {
        // what closes with the first placements all the same
        for (i, step) in steps.iter().enumerate() {
            build.parts[step.made] = build.merge(i).pop().map(|(_, part)| part);
        }
    }
    Built { parts: build.parts, outcome }
}

/// The placements in which three parts close.
struct Merged {
    /// Each with its number.
    found: Vec<(usize, Part)>,
    /// Whether there are more than these, or may be but for rounding.
    doubtful: bool,
}

/// Three parts in one plane.
fn merge(sheet: &Sheet, parts: [&Part; 3], joint: u64) -> Merged {
    let mut joint: Vec<usize> = members(joint).collect();
    joint.sort_by_key(|&i| sheet.elements[i].is_line());
    let lines = [0, 1, 2].map(|i| sheet.elements[joint[i]].is_line());
    // the part that holds each two of the joint
    let sides = [(0, 1), (0, 2), (1, 2)].map(|(a, b)| {
        let holds = |part: &&&Part| part[joint[a]].is_some() && part[joint[b]].is_some();
        parts.iter().find(holds).and_then(|part| Some((*part, (a, b), [part[joint[a]]?, part[joint[b]]?])))
    });
    let sides = match sides {
        [Some(x), Some(y), Some(z)] => [x, y, z],
        _ => return Merged { found: Vec::new(), doubtful: false },
    };
    let sizes = sides.map(|(_, (a, b), ends)| measure([lines[a], lines[b]], ends));
    let placed = |(number, triangle): (usize, [Place; 3])| {
        let mut union: Part = vec![None; sheet.elements.len()];
        for (part, (a, b), from) in sides {
            let motion = Motion::onto([lines[a], lines[b]], from, [triangle[a], triangle[b]]);
            // where a motion can't bring both ends home the parts do not close
            if [(a, from[0]), (b, from[1])]
                .iter()
                .any(|&(end, place)| !same(motion.apply(place, lines[end]), triangle[end], lines[end]))
            {
                return None;
            }
            for (i, place) in part.iter().enumerate() {
                union[i] = union[i].or_else(|| place.map(|place| motion.apply(place, sheet.elements[i].is_line())));
            }
        }
        Some((number, union))
    };
    let scale = sizes.iter().fold(0.0, |most, size| f64::max(most, size.abs()));
    let triangles = triangles(lines, sizes);
    // the height of a triangle that is nearly flat is not known from rounded sides
    let near = triangles.lacking > -2.0 * SLACK && triangles.lacking < DOUBT.max(DOUBT_PART * scale);
    let found: Vec<(usize, Part)> = triangles.found.into_iter().enumerate().rev().filter_map(placed).collect();
    Merged { doubtful: near || triangles.sampled && !found.is_empty(), found }
}

/// The placements in which three parts close, each as one part.
pub fn placements(sheet: &Sheet, parts: [&Part; 3], joint: u64) -> Vec<Part> {
    merge(sheet, parts, joint).found.into_iter().map(|(_, part)| part).collect()
}

/// The distance or angle between two elements of one plane.
fn measure(lines: [bool; 2], ends: [Place; 2]) -> f64 {
    match lines {
        [false, false] => length(between(ends[0], ends[1])),
        [false, true] => distance(ends[0], ends[1]),
        [true, false] => distance(ends[1], ends[0]),
        [true, true] => wrapped(ends[1][0] - ends[0][0]),
    }
}

/// The placements of a joint.
struct Triangles {
    found: Vec<[Place; 3]>,
    /// How much the sides lack to close, if they do not.
    lacking: f64,
    /// Whether there are more placements than these.
    sampled: bool,
}

/// The placements of a joint, points before lines, from the sizes of its pairs (0,1), (0,2) and (1,2).
fn triangles(lines: [bool; 3], [a, b, c]: [f64; 3]) -> Triangles {
    let scale = a.abs().max(b.abs()).max(c.abs());
    // both signs of a side from its square, one where it is 0 but for rounding
    let sides = |square: f64, lacking: f64| {
        if square > NEAR * scale * scale {
            vec![square.sqrt(), -square.sqrt()]
        } else if square > -NEAR * scale * scale || lacking < SLACK {
            vec![0.0]
        } else {
            Vec::new()
        }
    };
    match lines {
        [false, false, false] => {
            let lacking = (a - b - c).max(b - a - c).max(c - a - b);
            let x = if a > 0.0 { (a * a + b * b - c * c) / (2.0 * a) } else { b };
            let flat = if lacking > 0.0 { x.max(-b).min(b) } else { x };
            let heights = sides(b * b - x * x, lacking).into_iter();
            let found = heights.map(|y| [[0.0, 0.0], [a, 0.0], [flat, y]]).collect();
            Triangles { found, lacking, sampled: false }
        }
        [false, false, true] => {
            let (up, lacking) = (b - c, (b - c).abs() - a);
            let widths = sides(a * a - up * up, lacking).into_iter();
            Triangles { found: widths.map(|x| [[0.0, b], [x, c], [0.0, 0.0]]).collect(), lacking, sampled: false }
        }
        [false, true, true] => {
            // between parallel lines the point may stand anywhere: here, or to one side
            let parallel = math::sin(c).abs() < NEAR;
            let asides = if parallel { vec![0.0, a.abs() + b.abs()] } else { vec![0.0] };
            let found = asides.into_iter().map(|x| [[x, a], [0.0, 0.0], [c, math::cos(c) * a - b]]).collect();
            Triangles { found, lacking: f64::NEG_INFINITY, sampled: parallel }
        }
        _ => Triangles { found: Vec::new(), lacking: f64::INFINITY, sampled: false },
    }
}

/// Whether two places are one, but for rounding.
fn same(a: Place, b: Place, is_line: bool) -> bool {
    let scale = 1.0 + a[1].abs() + if is_line { 0.0 } else { a[0].abs() };
    let first = if is_line { wrapped(a[0] - b[0]) * scale } else { a[0] - b[0] };
    first.abs().max((a[1] - b[1]).abs()) < 1e-5 * scale + SLACK
}
