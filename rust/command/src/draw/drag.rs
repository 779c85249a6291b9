//! Dragging: where everything is when some elements are pulled, with the dimensions held. What one part holds moves as
//! one; of the rest as little moves as can be, and what nothing holds to it stays.

use super::fit::fit;
use super::layout::{layout, moved, How, Layout, Plan};
use super::place::{along, distance, foot, length, Motion, Place, Vector};
use super::scene::line_ends;
use super::system::System;
use super::{alone, clear, origin};
use crate::document::Document;
use crate::sheet::Sheet;
use crate::text::Rough;

/// How strongly an element is pulled to where it is wanted, and how strongly it is kept where it was, beside an equation.
const PULLED: f64 = 1e-3;
const KEPT: f64 = 1e-8;
/// The most steps of a search on the way, and the most pieces of the way.
const MOST_TRIES: usize = 12;
const MOST_PIECES: usize = 24;

/// A sheet after a drag: its layout, and all rough places.
pub struct Dragged {
    pub layout: Layout,
    pub places: Vec<Rough>,
}

/// A sheet some of whose elements, i as bit i, are pulled by so much.
pub fn drag(document: &Document, pulled: u64, by: Vector) -> Dragged {
    let plan = Plan::of(document);
    let start = begin(document, &plan.sheet);
    let whole = connected(&plan.sheet, pulled);
    let one = whole & !pulled == 0 || plan.clusters.iter().any(|cluster| whole & !cluster.elements == 0);
    let ends = ends(document, &start.places);
    let places = if one {
        shifted(&plan.sheet, &start.places, whole, by)
    } else {
        let parts = plan.clusters.iter().map(|cluster| cluster.elements).filter(|set| set & !whole == 0).collect();
        let scale = System::of(&plan.sheet).scale();
        Pull { sheet: &plan.sheet, start: &start.places, ends: &ends, pulled, parts, scale }.along(by)
    };
    let shift = |i: usize| if pulled >> i & 1 == 1 || one && whole >> i & 1 == 1 { by } else { [0.0; 2] };
    let rough = rough(&plan.sheet, &places, |i| ends[i].map(|ends| ends.map(|end| along(end, 1.0, shift(i)))));
    let unmet = System::of(&document.sheet).unmet(&places);
    Dragged { layout: Layout { places, unmet, ..start }, places: rough }
}

/// Where everything is before: near its rough places where all have one, else in the layout of a picture.
fn begin(document: &Document, sheet: &Sheet) -> Layout {
    if sheet.elements.len() > 1 && !document.places.iter().all(Option::is_some) {
        let found = layout(document);
        let [x, y] = origin(document, &found);
        return Layout { places: moved(sheet, found.places, Motion { turn: 0.0, shift: [-x, -y] }), ..found };
    }
    let given = alone(sheet, &document.places);
    let system = System::of(sheet);
    if system.met(&given.places) {
        return given;
    }
    let settled = system.settle(given.places.clone());
    let how = if system.met(&settled) { How::Near } else { How::GaveUp };
    let [from, to] = [&settled, &given.places].map(|places| places.iter().copied().map(Some).collect::<Vec<_>>());
    let lines: Vec<bool> = sheet.elements.iter().map(|kind| kind.is_line()).collect();
    let home = fit(&lines, &from, &to, system.scale()).0;
    Layout { places: moved(sheet, settled, home), how, ..given }
}

/// The elements that constraints lead to from some.
fn connected(sheet: &Sheet, from: u64) -> u64 {
    let mut found = from;
    loop {
        let more = sheet.constraints.iter().map(|c| 1 << c.first | 1 << c.second).filter(|pair| pair & found != 0);
        let next = more.fold(found, |set, pair| set | pair);
        if next == found {
            return found;
        }
        found = next;
    }
}

/// The places with some elements shifted.
fn shifted(sheet: &Sheet, places: &[Place], which: u64, by: Vector) -> Vec<Place> {
    let motion = Motion { turn: 0.0, shift: by };
    let place = |(i, place): (usize, &Place)| match which >> i & 1 {
        1 => motion.apply(*place, sheet.elements[i].is_line()),
        _ => *place,
    };
    places.iter().enumerate().map(place).collect()
}

/// The ends of the lines: those of the text, else those that are drawn.
fn ends(document: &Document, places: &[Place]) -> Vec<Option<[Place; 2]>> {
    let drawn = line_ends(document, places);
    let end = |(given, drawn): (&Option<Rough>, Option<[Place; 2]>)| match given {
        Some(Rough::Along(ends)) => Some(*ends),
        _ => drawn,
    };
    document.places.iter().zip(drawn).map(end).collect()
}

/// Places as the text has them: a line between the outermost points on it, else where its ends come to lie.
fn rough(sheet: &Sheet, places: &[Place], ends: impl Fn(usize) -> Option<[Place; 2]>) -> Vec<Rough> {
    let part: Vec<Option<Place>> = places.iter().copied().map(Some).collect();
    let apart = |ends: &[Place; 2]| length(along(ends[1], -1.0, ends[0])) > 1e-3;
    let place = |i: usize| match ends(i) {
        Some(ends) => {
            let outermost = clear::stretch(sheet, &part, i).filter(apart);
            Rough::Along(outermost.unwrap_or_else(|| ends.map(|end| foot(end, places[i]))))
        }
        None => Rough::At(places[i]),
    };
    (0..places.len()).map(place).collect()
}

/// A pull at some elements of a sheet.
struct Pull<'a> {
    sheet: &'a Sheet,
    start: &'a [Place],
    ends: &'a [Option<[Place; 2]>],
    pulled: u64,
    /// The parts that move as one.
    parts: Vec<u64>,
    scale: f64,
}

impl Pull<'_> {
    /// Where everything is after the whole way: at once, or piece by piece where that turns a part over.
    fn along(&self, by: Vector) -> Vec<Place> {
        let (mut places, mut done, mut piece) = (self.start.to_vec(), 0.0, 1.0);
        for _ in 0..MOST_PIECES {
            let next = f64::min(done + piece, 1.0);
            let found = self.search(&places, [by[0] * next, by[1] * next]);
            if self.holds(&found) {
                (places, done) = (found, next);
            } else {
                piece /= 2.0;
            }
            if done >= 1.0 {
                break;
            }
        }
        places
    }

    /// Whether places meet the dimensions no worse than those before did, and each part is as it was.
    fn holds(&self, places: &[Place]) -> bool {
        let system = System::of(self.sheet);
        if !system.met(self.start) {
            return system.squares(places) <= system.squares(self.start) * 1.01;
        }
        let lines: Vec<bool> = self.sheet.elements.iter().map(|kind| kind.is_line()).collect();
        let within = |places: &[Place], set: u64| -> Vec<Option<Place>> {
            places.iter().enumerate().map(|(i, place)| (set >> i & 1 == 1).then_some(*place)).collect()
        };
        let as_it_was = |&set: &u64| {
            let far = fit(&lines, &within(self.start, set), &within(places, set), self.scale).1;
            far <= (1e-3 * self.scale).powi(2)
        };
        system.met(places) && self.parts.iter().all(as_it_was)
    }

    /// The places nearest to those of the start in which the pulled elements are where they are wanted, by a search from
    /// some near them.
    fn search(&self, from: &[Place], by: Vector) -> Vec<Place> {
        let system = System::of(self.sheet);
        let mut places = from.to_vec();
        for _ in 0..MOST_TRIES {
            let (mut square, mut right) = system.squared(&places);
            for i in 0..places.len() {
                let (weight, by) = if self.pulled >> i & 1 == 1 { (PULLED, by) } else { (KEPT, [0.0; 2]) };
                match self.ends[i] {
                    Some(ends) => {
                        for end in ends.map(|end| along(end, 1.0, by)) {
                            let row = system.line_row(end, places[i]);
                            let entries = [(2 * i, row[0]), (2 * i + 1, row[1])];
                            square.add_row(&entries, weight);
                            let far = weight * distance(end, places[i]);
                            entries.iter().for_each(|(at, x)| right[*at] -= x * far);
                        }
                    }
                    None => {
                        let far = along(along(self.start[i], 1.0, by), -1.0, places[i]);
                        for axis in [0, 1] {
                            square.add(2 * i + axis, 2 * i + axis, weight);
                            right[2 * i + axis] += weight * far[axis];
                        }
                    }
                }
            }
            (0..right.len()).for_each(|i| square.add(i, i, 1e-14));
            let step = match square.solve(right) {
                Some(step) => step,
                None => break,
            };
            places = system.moved(&places, &step);
            if step.iter().all(|x| x.abs() < 1e-5 * self.scale) {
                break;
            }
        }
        system.settle(places)
    }
}
