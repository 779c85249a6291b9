//! Which of some placements makes the clearer picture.

use std::cmp::Ordering;

use super::construct::Part;
use super::math::ln;
use super::place::{between, direction, dot, length, Place};
use crate::sheet::{Dimension, Sheet};

/// How clear a placement is.
struct Look {
    /// Points that fall on each other.
    doubled: usize,
    /// Points that lie on a line beyond those that were named before them.
    beyond: usize,
    /// Distances and lines that cross.
    crossed: usize,
    spread: f64,
}

/// Sorts the placements of a step that joins some parts, the clearest last. What lies within the largest part is the
/// same in all. A quick look is at the spread alone.
pub fn sort(sheet: &Sheet, found: &mut Vec<(usize, Part)>, parts: [u64; 3], thorough: bool) {
    let base = parts.iter().copied().max_by_key(|set| set.count_ones()).unwrap_or(0);
    let mut looks: Vec<(Look, (usize, Part))> = found
        .drain(..)
        .map(|(number, part)| {
            let spread = (ln(spread(sheet, &part).max(1e-9)) * 1e6).round();
            let look = if thorough {
                let crossed = crossings(&spans(sheet, &part, base));
                Look { doubled: doubled(sheet, &part, base), beyond: beyond(sheet, &part), crossed, spread }
            } else {
                Look { doubled: 0, beyond: 0, crossed: 0, spread }
            };
            (look, (number, part))
        })
        .collect();
    looks.sort_by(|(a, _), (b, _)| compared(a, b));
    found.extend(looks.into_iter().map(|(_, part)| part));
}

/// The clearer one is the greater: no two points in one place, what stands on a frame within it, few crossings, and
/// else the wider.
fn compared(a: &Look, b: &Look) -> Ordering {
    let rest = b.beyond.cmp(&a.beyond).then(b.crossed.cmp(&a.crossed)).then(a.spread.total_cmp(&b.spread));
    b.doubled.cmp(&a.doubled).then(rest)
}

/// How clear a whole picture is.
pub struct Whole {
    /// Points that fall on each other, points beyond a frame, strokes that cross.
    tangle: (usize, usize, usize),
    spread: f64,
}

impl Whole {
    /// The look of a whole.
    pub fn of(sheet: &Sheet, part: &Part) -> Whole {
        let tangle = (doubled(sheet, part, 0), beyond(sheet, part), crossings(&spans(sheet, part, 0)));
        Whole { tangle, spread: spread(sheet, part) }
    }

    /// Whether one is clearer than another: less of a tangle, or as much of it and clearly wider.
    pub fn clearer(&self, other: &Whole) -> bool {
        self.tangle < other.tangle || self.tangle == other.tangle && self.spread > 1.02 * other.spread
    }
}

/// The points of a part.
fn points(sheet: &Sheet, part: &[Option<Place>]) -> Vec<(usize, Place)> {
    let places = part.iter().enumerate().filter(|(i, _)| !sheet.elements[*i].is_line());
    places.filter_map(|(i, place)| Some((i, (*place)?))).collect()
}

/// How far the points of a part lie from their middle, in squares.
fn spread(sheet: &Sheet, part: &Part) -> f64 {
    let points = points(sheet, part);
    let count = points.len().max(1) as f64;
    let middle = [0, 1].map(|axis| points.iter().map(|(_, point)| point[axis]).sum::<f64>() / count);
    points.iter().map(|(_, point)| length(between(middle, *point)).powi(2)).sum()
}

/// How many pairs of points fall on each other, one of them at least outside a base.
fn doubled(sheet: &Sheet, part: &Part, base: u64) -> usize {
    let points = points(sheet, part);
    let reach = points.iter().map(|(_, point)| length(between(points[0].1, *point))).fold(0.0, f64::max);
    let near = |a: Place, b: Place| {
        let apart = between(a, b);
        dot(apart, apart) < (0.01 * reach).powi(2)
    };
    let outside = |i: usize| base >> i & 1 == 0;
    let added = points.iter().filter(|(i, _)| outside(*i));
    let others =
        |i: usize, a: Place| points.iter().filter(move |(j, b)| (*j < i || !outside(*j)) && near(a, *b)).count();
    added.map(|&(i, a)| others(i, a)).sum()
}

/// How many points lie on a line beyond all that were named before them. A frame's corners are named before the feet on
/// its sides, which belong between them; a point that is measured from the one before it runs on, and is not counted.
fn beyond(sheet: &Sheet, part: &Part) -> usize {
    let held = |a: usize, b: usize| {
        sheet.constraints.iter().any(|c| (c.first, c.second) == (a.min(b), a.max(b)) && c.dimension != Dimension::On)
    };
    let lines = part.iter().enumerate().filter(|(i, _)| sheet.elements[*i].is_line());
    let count = |(line, place): (usize, &Option<Place>)| {
        let way = place.map_or([1.0, 0.0], |place| direction(place[0]));
        let on: Vec<(usize, f64)> =
            on_line(sheet, part, line).into_iter().map(|(i, point)| (i, dot(way, point))).collect();
        let outside = |&k: &usize| {
            let (before, (i, at)) = (&on[..k], on[k]);
            let low = before.iter().map(|(_, at)| *at).fold(f64::INFINITY, f64::min);
            let high = before.iter().map(|(_, at)| *at).fold(f64::NEG_INFINITY, f64::max);
            let runs_on = k > 2 && held(on[k - 1].0, i);
            let slack = 1e-6 * (high - low);
            !runs_on && (at < low - slack || at > high + slack)
        };
        (2..on.len()).filter(outside).count()
    };
    lines.map(count).sum()
}

/// The points on a line that have places, in the order of their names.
pub fn on_line(sheet: &Sheet, part: &[Option<Place>], line: usize) -> Vec<(usize, Place)> {
    let on = sheet.constraints.iter().filter(|c| c.dimension == Dimension::On);
    let points = on.filter_map(|c| match line {
        line if line == c.first => Some((c.second, part[c.second]?)),
        line if line == c.second => Some((c.first, part[c.first]?)),
        _ => None,
    });
    let mut points: Vec<(usize, Place)> = points.collect();
    points.sort_by_key(|(i, _)| *i);
    points
}

/// Twice the area of a triangle, positive where it runs against the clock.
fn turn(a: Place, b: Place, c: Place) -> f64 {
    let (along, to) = (between(a, b), between(a, c));
    along[0] * to[1] - along[1] * to[0]
}

/// What is seen as a stroke: distances between points, and lines between the outermost points on them. Those of a base
/// stand behind the others.
pub struct Spans {
    all: Vec<[Place; 2]>,
    /// How many are not of the base.
    added: usize,
}

/// The strokes of a part, one of whose parts is a base.
pub fn spans(sheet: &Sheet, part: &[Option<Place>], base: u64) -> Spans {
    let is_line = |i: usize| sheet.elements[i].is_line();
    let outside = |i: usize| base >> i & 1 == 0;
    let pairs = sheet.constraints.iter().filter(|c| !is_line(c.first) && !is_line(c.second));
    let distances =
        pairs.filter_map(|c| Some((outside(c.first) || outside(c.second), [part[c.first]?, part[c.second]?])));
    let grown = |line: usize| on_line(sheet, part, line).iter().any(|(i, _)| outside(*i));
    let lines = (0..part.len()).filter(|&i| is_line(i));
    let lines = lines.filter_map(|i| Some((base == 0 || grown(i), stretch(sheet, part, i)?)));
    let (added, rest): (Vec<_>, Vec<_>) = distances.chain(lines).partition(|(added, _)| *added);
    let count = added.len();
    Spans { all: added.into_iter().chain(rest).map(|(_, span)| span).collect(), added: count }
}

/// What of a line lies between the outermost points on it.
pub fn stretch(sheet: &Sheet, part: &[Option<Place>], line: usize) -> Option<[Place; 2]> {
    let way = direction(part[line]?[0]);
    let mut on: Vec<Place> = on_line(sheet, part, line).into_iter().map(|(_, point)| point).collect();
    on.sort_by(|a, b| dot(way, *a).total_cmp(&dot(way, *b)));
    match on[..] {
        [first, .., last] => Some([first, last]),
        _ => None,
    }
}

/// How many strokes cross each other, one of them at least added to the base.
pub fn crossings(spans: &Spans) -> usize {
    let parted = |[a, b]: [Place; 2], [c, d]: [Place; 2]| {
        let way = between(a, b);
        let least = 1e-9 * dot(way, way);
        let (c, d) = (turn(a, b, c), turn(a, b, d));
        c.abs() > least && d.abs() > least && (c > 0.0) != (d > 0.0)
    };
    let cross = |a: [Place; 2], b: [Place; 2]| parted(a, b) && parted(b, a);
    let after = |k: usize| spans.all[k + 1..].iter().filter(move |b| cross(spans.all[k], **b)).count();
    (0..spans.added).map(after).sum()
}

#[cfg(test)]
mod tests {
    use super::*;

    #[test]
    fn strokes_cross_where_each_parts_the_other() {
        let cross = [[[0.0, 0.0], [1.0, 1.0]], [[0.0, 1.0], [1.0, 0.0]]];
        let count = |all: Vec<[Place; 2]>, added: usize| crossings(&Spans { all, added });
        assert_eq!((count(cross.to_vec(), 2), count(cross.to_vec(), 1), count(cross.to_vec(), 0)), (1, 1, 0));
        assert_eq!(count(vec![cross[0], [[1.0, 1.0], [2.0, 0.0]]], 2), 0);
    }
}
