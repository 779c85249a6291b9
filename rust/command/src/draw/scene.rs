//! What a picture shows: places on the canvas, lines cut to a length, colours.

use std::ops::Range;

use pattern::Verdict;

use super::clear;
use super::layout::{How, Layout};
use super::place::{along, between, direction, dot, foot, length, measured, meeting, normal, wrapped, Place};
use super::steps::{Role, View};
use crate::document::Document;
use crate::finding::Finding;
use crate::sheet::{Constraint, Kind};
use crate::text::Rough;

/// The room around a drawing, in pixels.
pub const MARGIN: f64 = 80.0;
/// The radius of the arc of an angle, in pixels.
pub const ARC: f64 = 30.0;
/// The sizes that may be asked for, in pixels.
pub const SIZES: Range<f64> = 300.0..20_001.0;

/// Which labels a picture has.
#[derive(Clone, Copy, PartialEq, Eq, Debug)]
pub enum Labels {
    All,
    Names,
    Sizes,
    None,
}

/// A window on the plane: its upper left corner in millimetres, and how many pixels a millimetre has.
#[derive(Clone, Copy, PartialEq, Debug)]
pub struct Window {
    pub corner: Place,
    pub scale: f64,
}

/// What is asked of a picture.
#[derive(Clone, Copy, PartialEq, Debug)]
pub struct Options {
    /// The width and height of the picture without its legend, in pixels: the most that it takes.
    pub size: [f64; 2],
    pub labels: Labels,
    /// What is seen; all where it is not said.
    pub window: Option<Window>,
}

impl Default for Options {
    fn default() -> Options {
        Options { size: [800.0, 600.0], labels: Labels::All, window: None }
    }
}

/// Colours that are told apart by most eyes (Okabe and Ito), red left to what is over.
const COLOURS: [&str; 7] = ["#0072b2", "#009e73", "#cc79a7", "#b87700", "#56b4e9", "#7a5195", "#6b6b00"];
const RED: &str = "#d00000";
const GREY: &str = "#808080";
const DARK: &str = "#333333";
const PALE: &str = "#a8a8a8";

/// How something is drawn.
#[derive(Clone, Copy, PartialEq, Eq, Debug)]
pub struct Paint {
    pub colour: &'static str,
    pub dashed: bool,
    pub heavy: bool,
    /// Whether it stands back.
    pub faint: bool,
}

impl Paint {
    /// A paint of a colour.
    fn of(colour: &'static str, dashed: bool) -> Paint {
        Paint { colour, dashed, heavy: false, faint: false }
    }
}

/// A sheet with places on a canvas: x to the right, y down.
pub struct Scene<'a> {
    pub document: &'a Document,
    pub finding: &'a Finding,
    pub how: How,
    pub unmet: Vec<usize>,
    pub options: Options,
    /// The step that is shown, if one is.
    pub step: Option<View>,
    pub size: [f64; 2],
    places: Vec<Place>,
    /// Lines cut to a length, by element.
    segments: Vec<Option<[Place; 2]>>,
    scale: f64,
    corner: Place,
    /// The least and the greatest coordinates of what is drawn.
    pub frame: [Place; 2],
}

impl<'a> Scene<'a> {
    /// The scene of a layout.
    pub fn of(document: &'a Document, finding: &'a Finding, layout: &Layout, options: Options) -> Scene<'a> {
        let Layout { places, how, unmet, .. } = layout.clone();
        let seen = seen(document, &places);
        let segments = segments(document, &places, &seen);
        let ends = segments.iter().flatten().flatten().copied();
        let all: Vec<Place> = seen.iter().copied().chain(ends).collect();
        let low = [0, 1].map(|axis| all.iter().map(|p| p[axis]).fold(f64::INFINITY, f64::min));
        let high = [0, 1].map(|axis| all.iter().map(|p| p[axis]).fold(f64::NEG_INFINITY, f64::max));
        let extent = [0, 1].map(|axis| (high[axis] - low[axis]).max(0.0));
        let room = options.size.map(|size| size - 2.0 * MARGIN);
        let scale = (room[0] / extent[0].max(1e-6)).min(room[1] / extent[1].max(1e-6));
        let size = [0, 1].map(|axis| (extent[axis] * scale).max(120.0));
        let slack = [0, 1].map(|axis| (size[axis] - extent[axis] * scale) / 2.0 / scale);
        let corner = [low[0] - slack[0], high[1] + slack[1]];
        let frame = [low, high];
        let mut scene =
            Scene { document, finding, how, unmet, options, step: None, size, places, segments, scale, corner, frame };
        if let Some(Window { corner, scale }) = options.window {
            let aside = MARGIN / scale;
            (scene.size, scene.scale, scene.corner) = (room, scale, [corner[0] + aside, corner[1] - aside]);
        }
        scene
    }

    /// The place in the plane of a place on the canvas.
    pub fn under(&self, [x, y]: Place) -> Place {
        [self.corner[0] + (x - MARGIN) / self.scale, self.corner[1] - (y - MARGIN) / self.scale]
    }

    /// A place on the canvas.
    pub fn at(&self, place: Place) -> Place {
        [MARGIN + (place[0] - self.corner[0]) * self.scale, MARGIN + (self.corner[1] - place[1]) * self.scale]
    }

    /// A length on the canvas.
    pub fn long(&self, length: f64) -> f64 {
        length * self.scale
    }

    /// The place of an element in the plane: a line's is the middle of what is drawn of it.
    pub fn anchor(&self, element: usize) -> Place {
        self.segments[element].map_or(self.places[element], |[a, b]| [(a[0] + b[0]) / 2.0, (a[1] + b[1]) / 2.0])
    }

    /// The place of an element as the layout has it.
    pub fn place(&self, element: usize) -> Place {
        self.places[element]
    }

    /// What is drawn of a line.
    pub fn segment(&self, element: usize) -> Option<[Place; 2]> {
        self.segments[element]
    }

    /// The radius of a circle on the canvas.
    pub fn radius(&self, element: usize) -> Option<f64> {
        match self.document.sheet.elements[element] {
            Kind::Circle(radius) => Some(self.long(f64::from(radius) / 10.0)),
            _ => None,
        }
    }

    /// What a constraint measures as it is drawn: millimetres, or degrees.
    pub fn drawn(&self, c: &Constraint) -> String {
        let lines = [c.first, c.second].map(|end| self.document.sheet.elements[end].is_line());
        let measured = measured(lines, [self.places[c.first], self.places[c.second]]);
        if lines == [true, true] {
            format!("{measured:.2}°")
        } else {
            format!("{measured:.1}")
        }
    }

    /// The final clusters that an element is in, by place in the list of them.
    pub fn parts_of(&self, element: usize) -> Vec<usize> {
        let clusters = self.finding.clusters.iter().enumerate();
        clusters.filter(|(_, cluster)| cluster.elements >> element & 1 == 1).map(|(p, _)| p).collect()
    }

    /// The final cluster that rests on a constraint, by place in the list of them.
    pub fn part_on(&self, constraint: usize) -> Option<usize> {
        self.finding.clusters.iter().position(|cluster| constraint < 128 && cluster.rests >> constraint & 1 == 1)
    }

    /// The colour of a final cluster.
    pub fn colour(&self, part: usize) -> &'static str {
        COLOURS[part % COLOURS.len()]
    }

    /// Whether a final cluster can still move: all but the largest of a sheet that lacks dimensions.
    pub fn free(&self, part: usize) -> bool {
        let clusters = &self.finding.clusters;
        let size = |p: &usize| (clusters[*p].elements.count_ones(), clusters.len() - p);
        let base = (0..clusters.len()).max_by_key(size);
        matches!(self.finding.verdict, Verdict::Under | Verdict::Angle) && base != Some(part)
    }

    /// How an element is drawn.
    pub fn element_paint(&self, element: usize) -> Paint {
        if let Some(view) = &self.step {
            return step_paint(view.element(element));
        }
        if let Some(over) = &self.finding.over {
            let inside = over.part >> element & 1 == 1;
            return Paint::of(if inside { RED } else { GREY }, false);
        }
        match self.parts_of(element)[..] {
            [] => Paint::of(GREY, true),
            [part] => Paint::of(self.colour(part), self.free(part)),
            _ => Paint::of(DARK, false),
        }
    }

    /// How a constraint is drawn.
    pub fn constraint_paint(&self, constraint: usize) -> Paint {
        if let Some(view) = &self.step {
            return step_paint(view.constraint(constraint));
        }
        if let Some(over) = &self.finding.over {
            let extra = over.constraint == constraint;
            let colour = if extra || over.earlier.contains(&constraint) { RED } else { GREY };
            return Paint { heavy: extra, ..Paint::of(colour, extra) };
        }
        let part = self.part_on(constraint);
        Paint::of(part.map_or(GREY, |part| self.colour(part)), part.map_or(false, |part| self.free(part)))
    }

    /// From where to where a constraint measures: between points, from a point to its foot on a line, or between the
    /// middles of what is drawn.
    pub fn span(&self, constraint: &Constraint) -> [Place; 2] {
        let &Constraint { first, second, .. } = constraint;
        let lines = [first, second].map(|end| self.document.sheet.elements[end].is_line());
        let (a, b) = (self.places[first], self.places[second]);
        match lines {
            [false, false] => [a, b],
            [false, true] => [a, foot(a, b)],
            [true, false] => [b, foot(b, a)],
            [true, true] => [self.anchor(first), self.anchor(second)],
        }
    }

    /// Whether there are so many elements that names are small.
    pub fn dense(&self) -> bool {
        self.places.len() > 20
    }

    /// Where two lines meet, if that is on the canvas.
    pub fn meeting(&self, constraint: &Constraint) -> Option<Place> {
        let at = meeting(self.places[constraint.first], self.places[constraint.second])?;
        let [x, y] = self.at(at);
        let inside = |v: f64, size: f64| (MARGIN / 2.0..size + 1.5 * MARGIN).contains(&v);
        (inside(x, self.size[0]) && inside(y, self.size[1])).then_some(at)
    }

    /// The constraints of an element.
    pub fn constraints_of(&self, element: usize) -> Vec<usize> {
        let all = self.document.sheet.constraints.iter().enumerate();
        all.filter(|(_, c)| c.first == element || c.second == element).map(|(k, _)| k).collect()
    }

    /// The direction from which an angle turns, and by how much.
    pub fn angle_of(&self, constraint: &Constraint) -> (f64, f64) {
        let from = self.places[constraint.first][0];
        (from, wrapped(self.places[constraint.second][0] - from))
    }

    /// Places along the arc of an angle about a place.
    pub fn arc(&self, constraint: &Constraint, meeting: Place) -> Vec<Place> {
        let ((from, turn), radius) = (self.angle_of(constraint), ARC / self.scale);
        (0..=16).map(|i| along(meeting, radius, direction(from + turn * f64::from(i) / 16.0))).collect()
    }

    /// Two small strokes across the lines of an angle that meet nowhere near.
    pub fn marks(&self, constraint: &Constraint) -> [[Place; 2]; 2] {
        [constraint.first, constraint.second].map(|line| {
            let across = 7.0 / self.scale;
            let (at, way) = (self.anchor(line), direction(self.places[line][0] + 1.2));
            [along(at, -across, way), along(at, across, way)]
        })
    }

    /// Where the two elements of a contact touch.
    pub fn touching(&self, c: &Constraint) -> Place {
        let kinds = [c.first, c.second].map(|end| self.document.sheet.elements[end]);
        let (a, b) = (self.places[c.first], self.places[c.second]);
        if kinds[0].is_line() {
            return foot(b, a);
        }
        if kinds[1].is_line() {
            return foot(a, b);
        }
        // on the edge of the larger circle, on the side of the other centre
        let radii = kinds.map(|kind| f64::from(kind.radius()) / 10.0);
        let (large, other, radius) = if radii[0] >= radii[1] { (a, b, radii[0]) } else { (b, a, radii[1]) };
        let apart = between(large, other);
        along(large, radius / length(apart).max(1e-9), apart)
    }

    /// The direction in which the label of an element leaves the middle.
    pub fn outward(&self, place: Place) -> Place {
        let middle = along(self.corner, 0.5 / self.scale, [self.size[0], -self.size[1]]);
        let out = between(middle, place);
        let far = length(out);
        if far * self.scale < 1.0 {
            [0.6, 0.8]
        } else {
            [out[0] / far, out[1] / far]
        }
    }
}

/// The paint of something in a picture of a step.
fn step_paint(role: Role) -> Paint {
    match role {
        Role::Joined(part) => Paint::of(COLOURS[part], false),
        Role::Shared => Paint { heavy: true, ..Paint::of(DARK, false) },
        Role::Built => Paint::of(GREY, false),
        Role::Open => Paint { faint: true, ..Paint::of(PALE, true) },
    }
}

/// The places that must be seen: points, edges of circles, feet of points on lines, meetings of lines that are not far
/// off.
fn seen(document: &Document, places: &[Place]) -> Vec<Place> {
    let sheet = &document.sheet;
    let is_line = |i: usize| sheet.elements[i].is_line();
    let mut seen: Vec<Place> = (0..places.len()).filter(|&i| !is_line(i)).map(|i| places[i]).collect();
    for (i, kind) in sheet.elements.iter().enumerate() {
        let radius = f64::from(kind.radius()) / 10.0;
        if radius > 0.0 {
            seen.extend([[1.0, 0.0], [-1.0, 0.0], [0.0, 1.0], [0.0, -1.0]].map(|way| along(places[i], radius, way)));
        }
    }
    for c in &sheet.constraints {
        match [is_line(c.first), is_line(c.second)] {
            [false, true] => seen.push(foot(places[c.first], places[c.second])),
            [true, false] => seen.push(foot(places[c.second], places[c.first])),
            _ => {}
        }
    }
    let reach = seen.iter().map(|&place| length(place)).fold(0.0, f64::max);
    let angles = sheet.constraints.iter().filter(|c| is_line(c.first) && is_line(c.second));
    let meetings = angles.filter_map(|c| meeting(places[c.first], places[c.second]));
    seen.extend(meetings.filter(|&place| reach == 0.0 || length(place) < 1.6 * reach));
    if seen.is_empty() {
        // lines alone: where the text says, or else near the middle
        seen.extend((0..places.len()).flat_map(|i| match document.places[i] {
            Some(Rough::Along(ends)) => ends.map(|end| foot(end, places[i])).to_vec(),
            _ => vec![along([0.0; 2], places[i][1], normal(places[i][0]))],
        }));
    }
    seen
}

/// The ends of each line: the outermost points on it, or else what is drawn of it.
pub fn line_ends(document: &Document, places: &[Place]) -> Vec<Option<[Place; 2]>> {
    let drawn = segments(document, places, &seen(document, places));
    let stretched = stretches(document, places);
    drawn.into_iter().zip(stretched).map(|(drawn, on)| drawn.map(|drawn| on.unwrap_or(drawn))).collect()
}

/// The outermost points on each line, where there are two apart.
fn stretches(document: &Document, places: &[Place]) -> Vec<Option<[Place; 2]>> {
    let part: Vec<Option<Place>> = places.iter().copied().map(Some).collect();
    let apart = |ends: &[Place; 2]| length(between(ends[0], ends[1])) > 1e-3;
    let is_line = |i: &usize| document.sheet.elements[*i].is_line();
    let stretch = |i: usize| Some(i).filter(is_line).and_then(|i| clear::stretch(&document.sheet, &part, i));
    (0..places.len()).map(|i| stretch(i).filter(apart)).collect()
}

/// What is drawn of each line: from the first to the last place that matters on it, and a little more.
fn segments(document: &Document, places: &[Place], seen: &[Place]) -> Vec<Option<[Place; 2]>> {
    let sheet = &document.sheet;
    let is_line = |i: usize| sheet.elements[i].is_line();
    let spans = [0, 1].map(|axis| {
        seen.iter().map(|p| p[axis]).fold(f64::NEG_INFINITY, f64::max)
            - seen.iter().map(|p| p[axis]).fold(f64::INFINITY, f64::min)
    });
    let span = spans[0].max(spans[1]).max(1.0);
    let stretched = stretches(document, places);
    let segment = |i: usize| {
        let (way, line) = (direction(places[i][0]), places[i]);
        let nearest = along([0.0; 2], line[1], normal(line[0]));
        let ends = sheet.constraints.iter().filter(|c| c.first == i || c.second == i);
        let on = ends.filter_map(|c| {
            let other = if c.first == i { c.second } else { c.first };
            if is_line(other) {
                meeting(line, places[other]).filter(|&place| length(place) < 2.0 * span)
            } else {
                Some(foot(places[other], line))
            }
        });
        let at: Vec<f64> = on.map(|place| dot(way, place)).collect();
        let (low, high) =
            (at.iter().copied().fold(f64::INFINITY, f64::min), at.iter().copied().fold(f64::NEG_INFINITY, f64::max));
        let said = match document.places[i] {
            Some(Rough::Along(ends)) if stretched[i].is_none() => Some(ends.map(|end| dot(way, end))),
            _ => None,
        };
        let reach = if low <= high {
            let more = span * if high - low < 0.2 * span { 0.22 } else { 0.1 };
            [low - more, high + more]
        } else {
            said.unwrap_or([-0.22 * span, 0.22 * span])
        };
        // where no two points on it say how far it reaches, the text does
        let [a, b] = said.unwrap_or(reach);
        [along(nearest, reach[0].min(a), way), along(nearest, reach[1].max(b), way)]
    };
    (0..places.len()).map(|i| is_line(i).then(|| segment(i))).collect()
}
