//! Where the labels of a scene stand: names of elements, sizes of constraints.

use super::labels::{self, Frame, Shelf};
use super::place::{along, between, direction, length};
use super::scene::{Labels, Scene, ARC, MARGIN};
use crate::sheet::{Constraint, Dimension};
use crate::text::{degrees, millimetres};

/// Where labels stand on the canvas.
pub struct Spots {
    /// The middle of each element's name.
    pub names: Vec<Option<[f64; 2]>>,
    /// The frame of each constraint's size.
    pub sizes: Vec<Option<Frame>>,
    /// The order in which sizes found their places.
    pub order: Vec<usize>,
    /// How many sizes had no room.
    pub left_out: usize,
}

impl Spots {
    /// Places the labels of a scene: points, lines, then sizes, the shortest first, which have the least choice.
    pub fn of(scene: &Scene) -> Spots {
        let sheet = &scene.document.sheet;
        let (n, e) = (sheet.elements.len(), sheet.constraints.len());
        let (lines, points): (Vec<usize>, Vec<usize>) = (0..n).partition(|&i| sheet.elements[i].is_line());
        let mut order: Vec<usize> = (0..e).collect();
        let long =
            |k: usize| length(between(scene.span(&sheet.constraints[k])[0], scene.span(&sheet.constraints[k])[1]));
        order.sort_by(|&a, &b| long(a).total_cmp(&long(b)));
        let mut shelf = shelf(scene);
        let mut spots = Spots { names: vec![None; n], sizes: vec![None; e], order, left_out: 0 };
        for i in points.into_iter().chain(lines) {
            spots.names[i] = name(scene, &mut shelf, i);
        }
        for &k in &spots.order {
            match size(scene, &mut shelf, k) {
                Some(found) => spots.sizes[k] = found,
                None => spots.left_out += 1,
            }
        }
        spots
    }
}

/// The font size of names, and that of sizes.
pub fn fonts(scene: &Scene) -> [f64; 2] {
    if scene.dense() {
        [10.0, 9.0]
    } else {
        [13.0, 11.0]
    }
}

/// The canvas with its points and strokes, before labels are put on it.
fn shelf(scene: &Scene) -> Shelf {
    let sheet = &scene.document.sheet;
    let mut shelf = Shelf::of([scene.size[0] + 2.0 * MARGIN, scene.size[1] + 2.0 * MARGIN]);
    for i in 0..sheet.elements.len() {
        match scene.segment(i) {
            Some([a, b]) => {
                shelf.stroke([scene.at(a), scene.at(b)]);
                shelf.take(scene.at(b), 5.0);
            }
            None => shelf.take(scene.at(scene.place(i)), if scene.dense() { 3.5 } else { 5.0 }),
        }
    }
    for c in &sheet.constraints {
        let lines = [c.first, c.second].map(|end| sheet.elements[end].is_line());
        if lines == [true, true] {
            if let Some(meeting) = scene.meeting(c) {
                let (from, turn) = scene.angle_of(c);
                let at = |part: f64| scene.at(along(meeting, ARC / scene.long(1.0), direction(from + turn * part)));
                shelf.take(at(1.0), 6.0);
                [0.0, 0.25, 0.5, 0.75].iter().for_each(|&part| shelf.stroke([at(part), at(part + 0.25)]));
            }
        } else if matches!(c.dimension, Dimension::Size(_)) {
            let [a, b] = scene.span(c);
            shelf.stroke([scene.at(a), scene.at(b)]);
        }
    }
    shelf
}

/// The middle of the name of an element.
fn name(scene: &Scene, shelf: &mut Shelf, i: usize) -> Option<[f64; 2]> {
    if !matches!(scene.options.labels, Labels::All | Labels::Names) {
        return None;
    }
    let (text, [font, _]) = (&scene.document.names[i], fonts(scene));
    let half = labels::half(text, font);
    let places = match scene.segment(i) {
        Some([a, b]) => {
            let [x, y] = direction(scene.place(i)[0]);
            let (a, b) = (scene.at(a), scene.at(b));
            let ends = [labels::around(b, [x, -y], 4.0, half), labels::around(a, [-x, y], 4.0, half)].concat();
            ends.into_iter().chain(labels::beside([a, b], half).into_iter().skip(9)).collect()
        }
        None => {
            let [x, y] = scene.outward(scene.place(i));
            let ringed = scene.constraints_of(i);
            let ringed = ringed.iter().any(|&k| scene.document.sheet.constraints[k].dimension == Dimension::On);
            let near = if scene.dense() { 4.0 } else { 6.0 } + if ringed { 3.0 } else { 0.0 };
            labels::around(scene.at(scene.place(i)), [x, -y], near, half)
        }
    };
    let (middle, _) = shelf.find(&places, half)?;
    shelf.put(middle, half);
    Some(middle)
}

/// The frame of the size of a constraint, where it has one; nothing where there is no room for it.
fn size(scene: &Scene, shelf: &mut Shelf, k: usize) -> Option<Option<Frame>> {
    let sheet = &scene.document.sheet;
    let c = &sheet.constraints[k];
    let unmet = scene.unmet.contains(&k);
    let sized = matches!(c.dimension, Dimension::Size(_)) || unmet;
    if !sized || !matches!(scene.options.labels, Labels::All | Labels::Sizes) {
        return Some(None);
    }
    let lines = [c.first, c.second].map(|end| sheet.elements[end].is_line());
    let [_, font] = fonts(scene);
    let half = labels::half(&size_words(scene, k), font);
    let places = match (lines, scene.meeting(c)) {
        ([true, true], Some(meeting)) => {
            let (from, turn) = scene.angle_of(c);
            let at =
                |far: f64, part: f64| scene.at(along(meeting, far / scene.long(1.0), direction(from + turn * part)));
            let parts = [0.5, 0.3, 0.7];
            let near = [40.0, 50.0, 62.0, 78.0].iter().flat_map(|&far| parts.iter().map(move |&part| at(far, part)));
            near.collect()
        }
        _ => {
            let [a, b] = scene.span(c).map(|end| scene.at(end));
            labels::beside([a, b], half)
        }
    };
    let (middle, free) = shelf.find(&places, half)?;
    if !free && !unmet {
        return None;
    }
    shelf.put(middle, half);
    Some(Some(Frame { middle, half }))
}

/// The size of a constraint in words, with what is drawn where the layout does not meet it.
pub fn size_words(scene: &Scene, k: usize) -> String {
    let c = &scene.document.sheet.constraints[k];
    if scene.unmet.contains(&k) {
        format!("{} \u{2260} {}", word(scene, c), scene.drawn(c))
    } else {
        word(scene, c)
    }
}

/// The size of a constraint in a word.
fn word(scene: &Scene, c: &Constraint) -> String {
    let sheet = &scene.document.sheet;
    match c.dimension {
        Dimension::Size(size) if sheet.elements[c.first].is_line() && sheet.elements[c.second].is_line() => {
            degrees(size.into()).replace(" deg", "°")
        }
        Dimension::Size(size) => millimetres(size.into()).replace(" mm", ""),
        Dimension::On => "on".to_string(),
        Dimension::Tangent => "tangent".to_string(),
        Dimension::OtherTangent => "tangent other".to_string(),
    }
}
