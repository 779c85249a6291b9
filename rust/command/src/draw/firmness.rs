//! How firmly the steps of a plan hold what they join, at one layout: how far a tenth of a millimetre moves it.

use pattern::Step;

use super::linear;
use super::place::{between, direction, dot, length, normal, Place};
use super::system::System;
use crate::document::Document;
use crate::sheet::{members, Sheet};
use crate::text::millimetres;

/// The change of a size that is looked at, in millimetres.
const TENTH: f64 = 0.1;
/// What moves by less than this, in millimetres, is held firmly enough.
const FIRM: f64 = 2.0;
/// What would move by more than this is held by nothing.
const LOOSE: f64 = 10_000.0;

/// A step that does not hold firmly what it joins.
#[derive(Clone, Copy, PartialEq, Eq, Debug)]
pub struct Weak {
    /// The three elements that its parts share: element i as bit i.
    pub joint: u64,
    /// The pair whose size is off by a tenth of a millimetre.
    pub pair: [usize; 2],
    /// The element that moves farthest.
    pub moves: usize,
    /// How far, in tenths of a millimetre; none where nothing holds it.
    pub by: Option<u32>,
}

impl Weak {
    /// What is weak, in words.
    pub fn words(&self, document: &Document) -> String {
        let name = |i: usize| document.names[i].as_str();
        let moves = name(self.moves);
        let by = match self.by {
            Some(by) => by,
            None => return format!("special position: {}, so that nothing holds {moves} firmly", self.cause(document)),
        };
        let [a, b] = self.pair;
        let held = document.sheet.constraints.iter().position(|c| [c.first, c.second] == self.pair);
        let size = held.map_or_else(|| format!("between {} and {}", name(a), name(b)), |k| document.statement(k));
        format!("near a special position: 0.1 mm in {size} moves {moves} by {}", millimetres(by.into()))
    }

    /// Why nothing holds it: what the three elements of the joint have in common.
    fn cause(&self, document: &Document) -> String {
        let is_line = |i: &usize| document.sheet.elements[*i].is_line();
        let (lines, points): (Vec<usize>, Vec<usize>) = members(self.joint).partition(is_line);
        let names = |set: &[usize]| set.iter().map(|&i| document.names[i].as_str()).collect::<Vec<_>>().join(" and ");
        match lines.len() {
            0 => format!("{} lie in one line", names(&points)),
            1 => format!("{} stand square to {}", names(&points), names(&lines)),
            _ => format!("{} are parallel", names(&lines)),
        }
    }
}

/// The first step of a plan that does not hold firmly what it joins, where the elements are at these places. What comes
/// after it is its consequence.
pub fn weak(sheet: &Sheet, steps: &[Step], places: &[Place]) -> Option<Weak> {
    let mut sets: Vec<u64> = sheet.constraints.iter().map(|c| 1 << c.first | 1 << c.second).collect();
    for step in steps {
        sets.push(step.parts.iter().fold(0, |set, &part| set | sets[part]));
    }
    let plane = Plane { sheet, places, reach: System::of(sheet).scale() };
    steps.iter().find_map(|step| plane.weak(step.parts.map(|part| sets[part]), step.joint))
}

/// A small motion of a part: by how much it turns, as a length at the reach of the sheet, and its shift.
type Drift = [f64; 3];

/// A sheet at some places.
struct Plane<'a> {
    sheet: &'a Sheet,
    places: &'a [Place],
    /// The largest length of the sheet.
    reach: f64,
}

impl Plane<'_> {
    /// Whether an element is a line.
    fn is_line(&self, i: usize) -> bool {
        self.sheet.elements[i].is_line()
    }

    /// How an element moves with a drift: a point along both axes; a line by its turn and across.
    fn motion(&self, i: usize) -> [Drift; 2] {
        let place = self.places[i];
        if self.is_line(i) {
            let across = normal(place[0]);
            [[1.0, 0.0, 0.0], [0.0, across[0], across[1]]]
        } else {
            [[-place[1] / self.reach, 1.0, 0.0], [place[0] / self.reach, 0.0, 1.0]]
        }
    }

    /// How an element moves where its distance from another grows by a tenth; none of two lines, which have no
    /// distance.
    fn grown(&self, from: usize, i: usize) -> Option<[f64; 2]> {
        let (a, b) = (self.places[from], self.places[i]);
        let way = match (self.is_line(from), self.is_line(i)) {
            (true, true) => return None,
            (false, true) => [0.0, -1.0],
            (true, false) => normal(a[0]),
            (false, false) => {
                let far = length(between(a, b)).max(f64::MIN_POSITIVE);
                between(a, b).map(|x| x / far)
            }
        };
        Some(way.map(|x| TENTH * x))
    }

    /// How far a drift moves an element: a point itself, a line where points are held to it.
    fn moved(&self, i: usize, drift: Drift) -> f64 {
        let by = self.motion(i).map(|row| row.iter().zip(drift).map(|(x, y)| x * y).sum::<f64>());
        if !self.is_line(i) {
            return length(by);
        }
        let others = self.sheet.constraints.iter().filter(|c| c.first == i || c.second == i);
        let others =
            others.map(|c| if c.first == i { c.second } else { c.first }).filter(|&other| !self.is_line(other));
        let feet = others.map(|other| dot(direction(self.places[i][0]), self.places[other]));
        feet.map(|foot| (by[1] + by[0] * foot / self.reach).abs()).fold(by[1].abs(), f64::max)
    }

    /// What three parts do not hold firmly at their joint: the largest stands still, and the two others hang on it.
    fn weak(&self, parts: [u64; 3], joint: u64) -> Option<Weak> {
        // of parts as large the first stands still
        let still = (0..3).max_by_key(|&i| (parts[i].count_ones(), 3 - i))?;
        let hung: Vec<u64> = (0..3).filter(|&i| i != still).map(|i| parts[i]).collect();
        let shared = |a: u64, b: u64| members(a & b & joint).next();
        let kept = [shared(parts[still], hung[0])?, shared(parts[still], hung[1])?];
        let common = shared(hung[0], hung[1])?;
        // each part keeps what it shares with the one that stands still, and both agree on what they share
        let own = |part: usize, row: Drift| if part == 0 { [row, [0.0; 3]].concat() } else { [[0.0; 3], row].concat() };
        let mut rows: Vec<Vec<f64>> = Vec::new();
        for part in [0, 1] {
            rows.extend(self.motion(kept[part]).iter().map(|&row| own(part, row)));
        }
        rows.extend(self.motion(common).iter().map(|&row| [row, row.map(|x| -x)].concat()));
        let mut worst: Option<(f64, Weak)> = None;
        for part in [0, 1] {
            let grown = match self.grown(kept[part], common) {
                Some(grown) => grown,
                None => continue,
            };
            let sign = if part == 0 { -1.0 } else { 1.0 };
            let right = vec![0.0, 0.0, 0.0, 0.0, sign * grown[0], sign * grown[1]];
            let pair = [kept[part].min(common), kept[part].max(common)];
            let found = |moves: usize, by: Option<u32>| Weak { joint, pair, moves, by };
            let drifts = match linear::solve(rows.clone(), right) {
                Some(drifts) => drifts,
                None => return Some(found(common, None)),
            };
            for (i, part) in hung.iter().enumerate() {
                let drift = [drifts[3 * i], drifts[3 * i + 1], drifts[3 * i + 2]];
                for element in members(part & !parts[still]) {
                    let by = self.moved(element, drift);
                    // what moves as far but for rounding does not count as farther
                    if by >= FIRM && worst.map_or(true, |(most, _)| by > most * (1.0 + 1e-6)) {
                        let tenths = Some((by * 10.0).round() as u32).filter(|_| by < LOOSE);
                        worst = Some((by, found(element, tenths)));
                    }
                }
            }
        }
        worst.map(|(_, weak)| if weak.by.is_none() { Weak { moves: common, ..weak } } else { weak })
    }
}
