//! Places of all elements of a sheet: near the rough places of its text, or from its plan where that gives a
//! construction, else by a search. Where no places meet the sizes, those that come nearest.

use std::f64::consts::{PI, TAU};

use pattern::Step;

use super::clear;
use super::construct::{self, Outcome, Part, Taste};
use super::fit::{fit, line_through};
use super::math::{angle, cos, ln, sin};
use super::place::{along, between, direction, dot, length, meeting, normal, wrapped, Motion, Place};
use super::system::System;
use crate::document::Document;
use crate::engine::{self, Cluster};
use crate::sheet::{Constraint, Dimension, Kind, Sheet};
use crate::text::Rough;

/// How many times a search begins again a little aside of rough places.
const MOST_ASIDE: u32 = 40;
/// The most elements of a sheet for which no search is too long.
const MOST_SMALL: usize = 24;

/// How places were found.
#[derive(Clone, Copy, PartialEq, Eq, Debug)]
pub enum How {
    /// By a search from rough places.
    Near,
    /// By the steps of the plan.
    Plan,
    /// By a search for places that meet the constraints.
    Search,
    /// Not at all: these are the nearest that were seen, and do not meet every size.
    GaveUp,
}

impl How {
    /// The word for a program.
    pub fn name(self) -> &'static str {
        match self {
            How::Near => "near",
            How::Plan => "plan",
            How::Search => "search",
            How::GaveUp => "gave up",
        }
    }
}

/// Why no places were found, with the step of the plan at which it was seen: the number of the cluster that it makes.
#[derive(Clone, Copy, PartialEq, Eq, Debug)]
pub enum Stop {
    /// Every placement of the steps before it was tried, and its parts do not close in any.
    Open(usize),
    /// The search gave up there.
    GaveUp(usize),
}

/// Where the elements are drawn.
#[derive(Clone, Debug)]
pub struct Layout {
    pub places: Vec<Place>,
    pub how: How,
    /// Why the plan gives no places, where it gives none.
    pub stop: Option<Stop>,
    /// The constraints that the places do not meet.
    pub unmet: Vec<usize>,
}

/// A sheet that is to be laid out, without the constraints that are too many.
pub struct Plan {
    pub sheet: Sheet,
    steps: Vec<Step>,
    pub clusters: Vec<Cluster>,
}

impl Plan {
    /// The plan of a document.
    pub fn of(document: &Document) -> Plan {
        let (mut sheet, mut bytes) = (document.sheet.clone(), document.bytes.clone());
        while let Ok(Some(over)) = pattern::over(&bytes) {
            sheet.constraints.remove(over.first);
            bytes = engine::write(&sheet).unwrap_or_default();
        }
        let steps = pattern::steps(&bytes).unwrap_or_default();
        let clusters = engine::clusters(&bytes, sheet.constraints.len(), &steps).unwrap_or_default();
        Plan { sheet, steps, clusters }
    }

    /// The parts that are left when it is built, whether they are one that holds all elements, and why not.
    fn built(&self, taste: Taste) -> (Vec<Part>, bool, Option<Stop>) {
        let built = construct::build(&self.sheet, &self.steps, taste);
        let stop = match built.outcome {
            Outcome::Closed => None,
            Outcome::Open(step) => Some(Stop::Open(self.steps[step].made)),
            Outcome::GaveUp(step) => Some(Stop::GaveUp(self.steps[step].made)),
        };
        let mut parts = built.parts;
        let finished = match stop {
            None => self.clusters.iter().filter_map(|cluster| parts[cluster.number].take()).collect(),
            Some(_) => largest(parts),
        };
        let whole = matches!(&finished[..], [whole] if whole.iter().all(Option::is_some));
        (finished, whole, stop)
    }
}

/// The parts that no other one holds, of those that were built.
fn largest(mut parts: Vec<Option<Part>>) -> Vec<Part> {
    let holds = |a: &Part, b: &Part| a.iter().zip(b).all(|(a, b)| a.is_some() || b.is_none());
    let mut found: Vec<Part> = Vec::new();
    while let Some(part) = parts.pop() {
        if let Some(part) = part.filter(|part| !found.iter().any(|larger| holds(larger, part))) {
            found.push(part);
        }
    }
    found.reverse();
    found
}

/// Lays a sheet out for a picture.
pub fn layout(document: &Document) -> Layout {
    lay_out(document, Taste::Clear)
}

/// Lays a sheet out to look whether it closes.
pub fn any_layout(document: &Document) -> Layout {
    lay_out(document, Taste::Soon)
}

/// Lays a sheet out; what it says of placements is followed where its text has no places.
fn lay_out(document: &Document, taste: Taste) -> Layout {
    let plan = Plan::of(document);
    let place = |rough: &Option<Rough>| {
        rough.map(|rough| match rough {
            Rough::At(place) => place,
            Rough::Along(ends) => line_through(ends),
        })
    };
    let rough: Vec<Option<Place>> = document.places.iter().map(place).collect();
    let (mut places, how, stop) =
        if rough.iter().any(Option::is_some) { near(&plan, &rough, taste) } else { free(&plan, taste) };
    let system = System::of(&document.sheet);
    let mut unmet = system.unmet(&places);
    if plan.sheet.constraints.len() < document.sheet.constraints.len() && !unmet.is_empty() {
        // what is too many may agree with the rest
        let settled = system.settle(places.clone());
        if system.met(&settled) {
            places = settled;
            unmet = Vec::new();
        }
    }
    Layout { places, how, stop, unmet }
}

/// A layout of a sheet without rough places.
fn free(plan: &Plan, taste: Taste) -> (Vec<Place>, How, Option<Stop>) {
    let sheet = &plan.sheet;
    let system = System::of(sheet);
    let (parts, whole, stop) = plan.built(taste);
    if whole {
        if let Some(places) = system.solve(parts[0].iter().flatten().copied().collect()) {
            return (upright(sheet, places), How::Plan, None);
        }
    }
    let turns = if sheet.elements.len() > MOST_SMALL { 3 } else { 9 };
    let circles = (0..turns).map(|turn| circle(sheet, system.scale(), f64::from(turn)));
    let starts = [joined(sheet, &parts, system.scale())].into_iter().chain(circles);
    let settled: Vec<Vec<Place>> = starts.map(|start| system.settle(start)).collect();
    // a later one must be clearer by more than rounding
    let scored = settled.iter().filter(|places| system.met(places)).map(|places| (clearness(sheet, places), places));
    match scored.reduce(|a, b| if b.0 > a.0 + 1e-6 { b } else { a }) {
        Some((_, places)) => (upright(sheet, places.clone()), How::Search, None),
        None => {
            let nearest = settled.into_iter().min_by(|a, b| system.squares(a).total_cmp(&system.squares(b)));
            (upright(sheet, nearest.unwrap_or_default()), How::GaveUp, stop)
        }
    }
}

/// A layout of a sheet from rough places of some of its elements. To look whether a large one closes, places aside of
/// them are not tried.
fn near(plan: &Plan, rough: &[Option<Place>], taste: Taste) -> (Vec<Place>, How, Option<Stop>) {
    let sheet = &plan.sheet;
    let system = System::of(sheet);
    let lines: Vec<bool> = sheet.elements.iter().map(|kind| kind.is_line()).collect();
    let home = |places: Vec<Place>| {
        let known: Vec<Option<Place>> = places.iter().copied().map(Some).collect();
        moved(sheet, places, fit(&lines, &known, rough, system.scale()).0)
    };
    if rough.iter().all(Option::is_some) {
        if let Some(places) = system.solve(rough.iter().flatten().copied().collect()) {
            return (home(places), How::Near, None);
        }
    }
    let (parts, whole, stop) = plan.built(Taste::Near(rough, system.scale()));
    // what has no place of its own and is held by no plan begins where it stands in a clear picture
    let given = rough.iter().all(Option::is_some);
    let base = home(if whole || given { joined(sheet, &parts, system.scale()) } else { free(plan, Taste::Clear).0 });
    let start = begun(sheet, rough, &base);
    let first = if whole { vec![start.clone(), base] } else { vec![start.clone()] };
    let mut nearest: Option<(f64, Vec<Place>)> = None;
    let turns = if matches!(taste, Taste::Soon) && sheet.elements.len() > MOST_SMALL { 0 } else { MOST_ASIDE };
    for start in first.into_iter().chain((1..=turns).map(|turn| aside(&system, &start, turn))) {
        let places = system.settle(start);
        if system.met(&places) {
            return (home(places), How::Near, None);
        }
        let squares = system.squares(&places);
        if nearest.as_ref().map_or(true, |(least, _)| squares < *least) {
            nearest = Some((squares, places));
        }
    }
    (home(nearest.map_or(start, |(_, places)| places)), How::GaveUp, stop)
}

/// Rough places of all elements: those that are given; a line through the outermost given points on it, in the
/// direction that it has in a base; else the base's own.
fn begun(sheet: &Sheet, rough: &[Option<Place>], base: &[Place]) -> Vec<Place> {
    let place = |i: usize| {
        rough[i].unwrap_or_else(|| match clear::stretch(sheet, &based(rough, base, i), i) {
            Some([a, b]) if length(between(a, b)) > 1e-6 => line_through([a, b]),
            _ => base[i],
        })
    };
    (0..base.len()).map(place).collect()
}

/// The rough places, and for one element the base's.
fn based(rough: &[Option<Place>], base: &[Place], element: usize) -> Part {
    let mut part = rough.to_vec();
    part[element] = Some(base[element]);
    part
}

/// Places moved a little aside, farther with each turn, the same in every run.
fn aside(system: &System, places: &[Place], turn: u32) -> Vec<Place> {
    let far = system.scale() * 0.01 * f64::from(1 + turn % 10);
    let by = |k: usize| far * sin((k * k) as f64 * 0.7 + f64::from(turn) * (1.3 + k as f64));
    system.moved(places, &(0..2 * places.len()).map(by).collect::<Vec<f64>>())
}

/// How clear a picture is: its points, and the places where lines meet at a given angle, far apart, and few strokes
/// that cross.
fn clearness(sheet: &Sheet, places: &[Place]) -> f64 {
    let is_line = |i: usize| sheet.elements[i].is_line();
    let angles = sheet.constraints.iter().filter(|c| is_line(c.first) && is_line(c.second));
    let meetings = angles.filter_map(|c| meeting(places[c.first], places[c.second]));
    let spots: Vec<Place> = (0..places.len()).filter(|&i| !is_line(i)).map(|i| places[i]).chain(meetings).collect();
    let pairs = spots.iter().enumerate().flat_map(|(i, a)| spots[..i].iter().map(|b| length(between(*a, *b))));
    let (apart, widest) =
        pairs.fold((0.0, 1e-9), |(sum, widest): (f64, f64), far| (sum + ln(far.max(1e-9)), widest.max(far)));
    let count = (spots.len() * spots.len().saturating_sub(1) / 2).max(1) as f64;
    let part: Part = places.iter().copied().map(Some).collect();
    apart / count - ln(widest) - 0.5 * clear::crossings(&clear::spans(sheet, &part, 0)) as f64
}

/// Places on a circle: points on it, lines across it there. A turn other than 0 moves them about.
fn circle(sheet: &Sheet, radius: f64, turn: f64) -> Vec<Place> {
    let n = sheet.elements.len() as f64;
    let place = |(i, kind): (usize, &Kind)| {
        let angle = PI / 2.0 - TAU * i as f64 / n + turn * sin(1.0 + (i * i) as f64);
        let far = radius * (1.0 + 0.3 * sin(turn) * cos(i as f64 * 2.4));
        let at = along([0.0; 2], far, direction(angle));
        if kind.is_line() {
            [angle - PI / 2.0, dot(normal(angle - PI / 2.0), at)]
        } else {
            at
        }
    };
    sheet.elements.iter().enumerate().map(place).collect()
}

/// Parts put side by side, each on the elements that those before it have placed.
fn joined(sheet: &Sheet, parts: &[Part], scale: f64) -> Vec<Place> {
    let mut placed: Part = vec![None; sheet.elements.len()];
    let single = |i: usize| {
        let mut part: Part = vec![None; sheet.elements.len()];
        part[i] = Some([0.0, 0.0]);
        part
    };
    let lonely: Vec<Part> =
        (0..placed.len()).filter(|&i| parts.iter().all(|part| part[i].is_none())).map(single).collect();
    let mut rest: Vec<&Part> = parts.iter().chain(&lonely).collect();
    rest.sort_by_key(|part| usize::MAX - part.iter().flatten().count());
    let (mut first, mut right) = (true, 0.0);
    while !rest.is_empty() {
        let shared = |part: &Part| part.iter().zip(&placed).filter(|(a, b)| a.is_some() && b.is_some()).count();
        let most = rest.iter().map(|part| shared(part)).max().unwrap_or(0);
        let next = if first { 0 } else { rest.iter().position(|part| shared(part) == most).unwrap_or(0) };
        let part = rest.remove(next);
        let motion = if first {
            Motion { turn: 0.0, shift: [0.0; 2] }
        } else {
            beside(sheet, part, &placed, [right + scale * 0.4, 0.0])
        };
        for (i, place) in part.iter().enumerate() {
            placed[i] = placed[i].or_else(|| place.map(|place| motion.apply(place, sheet.elements[i].is_line())));
        }
        let points =
            placed.iter().enumerate().filter(|(i, _)| !sheet.elements[*i].is_line()).filter_map(|(_, place)| *place);
        right = points.map(|point| point[0]).fold(0.0, f64::max);
        first = false;
    }
    placed.into_iter().flatten().collect()
}

/// The motion that brings a part to what is placed: on two elements in common, on one and turned outwards, or to a free
/// place.
fn beside(sheet: &Sheet, part: &Part, placed: &Part, free: Place) -> Motion {
    let is_line = |i: usize| sheet.elements[i].is_line();
    let common: Vec<(usize, Place, Place)> = (0..part.len()).filter_map(|i| Some((i, part[i]?, placed[i]?))).collect();
    match common[..] {
        [] => Motion { turn: 0.0, shift: free },
        [(i, from, to)] => {
            // of some motions that keep the one element, the one that brings the others farthest from what is placed
            let motions = (0..12).map(|k| {
                let by = f64::from(k);
                if is_line(i) {
                    let turned = Motion { turn: to[0] - from[0], shift: [0.0; 2] };
                    let across = along([0.0; 2], to[1] - from[1], normal(to[0]));
                    Motion { shift: along(across, (by - 6.0) * length(free) / 6.0, direction(to[0])), ..turned }
                } else {
                    let turned = Motion { turn: TAU * (by + 0.5) / 12.0, shift: [0.0; 2] };
                    Motion { shift: between(turned.apply(from, false), to), ..turned }
                }
            });
            let points =
                |part: &Part| (0..part.len()).filter(|&i| !is_line(i)).filter_map(|i| part[i]).collect::<Vec<_>>();
            let (moving, standing) = (points(part), points(placed));
            let room = |motion: &Motion| {
                let apart = moving
                    .iter()
                    .map(|&point| motion.apply(point, false))
                    .flat_map(|point| standing.iter().map(move |&other| length(between(point, other))));
                apart.map(f64::sqrt).sum::<f64>()
            };
            motions.max_by(|a, b| room(a).total_cmp(&room(b))).unwrap_or(Motion { turn: 0.0, shift: free })
        }
        [(i, from, to), (j, from2, to2), ..] => Motion::onto([is_line(i), is_line(j)], [from, from2], [to, to2]),
    }
}

/// The places turned so that the first line, or else the first two points that are held together, lie level, and
/// shifted to the middle.
fn upright(sheet: &Sheet, places: Vec<Place>) -> Vec<Place> {
    let places = forward(sheet, places);
    let line = (0..places.len()).find(|&i| sheet.elements[i].is_line()).map(|i| places[i][0]);
    let level = line.or_else(|| {
        let pair = sheet.constraints.first()?;
        let apart = between(places[pair.first], places[pair.second]);
        Some(angle(apart))
    });
    let turned = Motion { turn: -level.unwrap_or(0.0), shift: [0.0; 2] };
    let mut places = centred(sheet, moved(sheet, places, turned));
    // without lines there are no signs, and the picture may be turned over to stand on its first dimension
    let below = sheet.constraints.first().map_or(false, |pair| places[pair.first][1] > 1e-6);
    if line.is_none() && below {
        places.iter_mut().for_each(|place| place[1] = -place[1]);
    }
    places
}

/// The places with every line turned round, where no sign stands in the way and the first points on the first line
/// would run against its arrow.
fn forward(sheet: &Sheet, mut places: Vec<Place>) -> Vec<Place> {
    let is_line = |i: usize| sheet.elements[i].is_line();
    let signed = |c: &Constraint| is_line(c.first) != is_line(c.second) && c.dimension != Dimension::On;
    let part: Part = places.iter().copied().map(Some).collect();
    let first = (0..places.len()).find(|&i| is_line(i)).map(|line| (line, clear::on_line(sheet, &part, line)));
    if let Some((line, on)) = first {
        let backward = on.len() > 1 && dot(direction(places[line][0]), between(on[0].1, on[1].1)) < 0.0;
        if backward && !sheet.constraints.iter().any(signed) {
            for (_, place) in places.iter_mut().enumerate().filter(|(i, _)| is_line(*i)) {
                *place = [wrapped(place[0] + PI), -place[1]];
            }
        }
    }
    places
}

/// The places shifted so that the middle of the points is the origin.
pub fn centred(sheet: &Sheet, places: Vec<Place>) -> Vec<Place> {
    let points: Vec<Place> = (0..places.len()).filter(|&i| !sheet.elements[i].is_line()).map(|i| places[i]).collect();
    let middle = [0, 1].map(|axis| points.iter().map(|point| point[axis]).sum::<f64>() / points.len().max(1) as f64);
    moved(sheet, places, Motion { turn: 0.0, shift: [-middle[0], -middle[1]] })
}

/// All places after a motion.
pub fn moved(sheet: &Sheet, places: Vec<Place>, motion: Motion) -> Vec<Place> {
    places.into_iter().enumerate().map(|(i, place)| motion.apply(place, sheet.elements[i].is_line())).collect()
}
