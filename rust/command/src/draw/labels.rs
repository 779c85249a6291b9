//! Where labels stand, so that they cover neither each other nor what they name.

use super::math::{angle, length, sin_cos};
use super::place::Place;

/// A rectangle on the canvas: its middle, and half its width and height.
#[derive(Clone, Copy, Debug)]
pub struct Frame {
    pub middle: Place,
    pub half: [f64; 2],
}

impl Frame {
    /// The area that two rectangles share.
    fn shared(&self, other: &Frame) -> f64 {
        let side = |axis: usize| {
            let apart = (self.middle[axis] - other.middle[axis]).abs();
            (self.half[axis] + other.half[axis] - apart).min(2.0 * self.half[axis].min(other.half[axis])).max(0.0)
        };
        side(0) * side(1)
    }

    /// Whether a stroke runs through the rectangle.
    fn met_by(&self, [a, b]: [Place; 2]) -> bool {
        // the part of the stroke between the two sides, for each axis
        let mut part = (0.0, 1.0);
        for axis in [0, 1] {
            let (from, way) = (a[axis] - self.middle[axis], b[axis] - a[axis]);
            let half = self.half[axis];
            if way.abs() < 1e-9 {
                if from.abs() > half {
                    return false;
                }
            } else {
                let ends = [(-half - from) / way, (half - from) / way];
                part = (f64::max(part.0, ends[0].min(ends[1])), f64::min(part.1, ends[0].max(ends[1])));
            }
        }
        part.0 < part.1
    }
}

/// The canvas with what stands on it.
#[derive(Default)]
pub struct Shelf {
    size: [f64; 2],
    taken: Vec<Frame>,
    strokes: Vec<[Place; 2]>,
}

impl Shelf {
    /// An empty canvas.
    pub fn of(size: [f64; 2]) -> Shelf {
        Shelf { size, ..Shelf::default() }
    }

    /// Puts something on the canvas that no label may cover.
    pub fn take(&mut self, middle: Place, half: f64) {
        self.taken.push(Frame { middle, half: [half, half] });
    }

    /// Puts a stroke on the canvas that labels had better not cover.
    pub fn stroke(&mut self, ends: [Place; 2]) {
        self.strokes.push(ends);
    }

    /// The best of some places for a label, and whether it covers nothing there. The first ones are preferred.
    pub fn find(&self, places: &[Place], half: [f64; 2]) -> Option<(Place, bool)> {
        let (taken, strokes) = self.near(places, half);
        let mut best: Option<(f64, Place, bool)> = None;
        for (k, &middle) in places.iter().enumerate() {
            let frame = Frame { middle, half };
            let dearer = |cost: f64| best.map_or(false, |(least, _, _)| cost >= least);
            // a later place costs more than its number at least
            if dearer(k as f64) {
                break;
            }
            let covered: f64 = taken.iter().map(|other| frame.shared(other)).sum();
            let beyond = [0, 1]
                .map(|axis| (half[axis] - middle[axis]).max(middle[axis] + half[axis] - self.size[axis]).max(0.0));
            let hidden = covered + 30.0 * (beyond[0] + beyond[1]);
            if dearer(20.0 * hidden + k as f64) {
                continue;
            }
            let crossed = strokes.iter().filter(|stroke| frame.met_by(**stroke)).count();
            let cost = 20.0 * hidden + 6.0 * crossed as f64 + k as f64;
            if !dearer(cost) {
                best = Some((cost, middle, hidden < 0.5));
            }
        }
        best.map(|(_, middle, free)| (middle, free))
    }

    /// What stands where a label of a size may touch it that has one of some places.
    fn near(&self, places: &[Place], half: [f64; 2]) -> (Vec<Frame>, Vec<[Place; 2]>) {
        let bound = |axis: usize| {
            let along = || places.iter().map(move |place| place[axis]);
            let (low, high) = (along().fold(f64::INFINITY, f64::min), along().fold(f64::NEG_INFINITY, f64::max));
            [low - half[axis], high + half[axis]]
        };
        let bounds = [bound(0), bound(1)];
        let touches = |axis: usize, low: f64, high: f64| low <= bounds[axis][1] && high >= bounds[axis][0];
        let frame = |frame: &&Frame| {
            [0, 1].iter().all(|&i| touches(i, frame.middle[i] - frame.half[i], frame.middle[i] + frame.half[i]))
        };
        let stroke = |[a, b]: &&[Place; 2]| [0, 1].iter().all(|&i| touches(i, a[i].min(b[i]), a[i].max(b[i])));
        let taken = self.taken.iter().filter(frame).copied().collect();
        (taken, self.strokes.iter().filter(stroke).copied().collect())
    }

    /// Puts a label on the canvas.
    pub fn put(&mut self, middle: Place, half: [f64; 2]) {
        self.taken.push(Frame { middle, half });
    }
}

/// Half the width and height of a text of a font size, with a little room.
pub fn half(text: &str, font: f64) -> [f64; 2] {
    [0.31 * font * text.chars().count() as f64 + 1.0, 0.58 * font]
}

/// Places for a name around a point of the canvas, from a direction on (y down).
pub fn around(at: Place, way: Place, near: f64, half: [f64; 2]) -> Vec<Place> {
    let first = angle(way);
    let turns = (0..16).map(|k: i32| f64::from((k + 1) / 2) * if k % 2 == 0 { 1.0 } else { -1.0 });
    let angles: Vec<f64> = turns.map(|turn| first + turn * std::f64::consts::TAU / 16.0).collect();
    let rings = [near, near + 6.0, near + 14.0, near + 26.0];
    let place = |far: f64, angle: f64| {
        let (y, x) = sin_cos(angle);
        [at[0] + far * x + half[0] * x, at[1] + far * y + half[1] * y]
    };
    rings.iter().flat_map(|&far| angles.iter().map(move |&angle| place(far, angle))).collect()
}

/// Places for a label along a stroke of the canvas: on it, then beside it.
pub fn beside([a, b]: [Place; 2], half: [f64; 2]) -> Vec<Place> {
    let way = [b[0] - a[0], b[1] - a[1]];
    let long = length(way).max(1e-9);
    let across = [-way[1] / long, way[0] / long];
    let clear = half[0] * across[0].abs() + half[1] * across[1].abs() + 3.0;
    let parts = [0.5, 0.42, 0.58, 0.34, 0.66, 0.26, 0.74, 0.18, 0.82];
    let place = |part: f64, aside: f64| [0, 1].map(|axis| a[axis] + part * way[axis] + aside * across[axis]);
    let on = parts.iter().map(|&part| place(part, 0.0));
    let off = |by: f64| parts.iter().flat_map(move |&part| [place(part, by), place(part, -by)]);
    on.chain(off(clear)).chain(off(clear + 8.0)).collect()
}

#[cfg(test)]
mod tests {
    use super::*;

    #[test]
    fn a_label_keeps_clear() {
        let mut shelf = Shelf::of([200.0, 200.0]);
        shelf.put([100.0, 100.0], [20.0, 8.0]);
        assert_eq!(shelf.find(&[[110.0, 100.0], [150.0, 100.0]], [20.0, 8.0]), Some(([150.0, 100.0], true)));
        assert_eq!(shelf.find(&[[110.0, 100.0]], [20.0, 8.0]), Some(([110.0, 100.0], false)));
        // beyond the edge is no place
        assert_eq!(shelf.find(&[[195.0, 20.0], [150.0, 100.0]], [20.0, 8.0]), Some(([150.0, 100.0], true)));
        // a stroke is left alone where another place is free
        shelf.stroke([[0.0, 50.0], [200.0, 50.0]]);
        assert_eq!(shelf.find(&[[40.0, 52.0], [40.0, 70.0]], [20.0, 8.0]), Some(([40.0, 70.0], true)));
    }
}
