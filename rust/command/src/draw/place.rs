//! Places in the plane, and motions of it.

use std::f64::consts::PI;

use super::math;

/// Where an element is: a point or a centre by its two coordinates; a line by the angle of its direction and its signed
/// distance from the origin.
pub type Place = [f64; 2];

/// A vector.
pub type Vector = [f64; 2];

/// The direction of an angle.
pub fn direction(angle: f64) -> Vector {
    let (sine, cosine) = math::sin_cos(angle);
    [cosine, sine]
}

/// The direction a quarter turn further: the side of a line on which distances are positive.
pub fn normal(angle: f64) -> Vector {
    let (sine, cosine) = math::sin_cos(angle);
    [-sine, cosine]
}

/// The product of two vectors.
pub fn dot(a: Vector, b: Vector) -> f64 {
    a[0] * b[0] + a[1] * b[1]
}

/// One vector and so many times another.
pub fn along(a: Vector, times: f64, b: Vector) -> Vector {
    [a[0] + times * b[0], a[1] + times * b[1]]
}

/// From one point to another.
pub fn between(a: Vector, b: Vector) -> Vector {
    along(b, -1.0, a)
}

/// The length of a vector.
pub fn length(a: Vector) -> f64 {
    math::length(a)
}

/// A turn by the same angle that is at most half a circle.
pub fn wrapped(angle: f64) -> f64 {
    (angle + PI).rem_euclid(2.0 * PI) - PI
}

/// The signed distance of a point from a line.
pub fn distance(point: Place, line: Place) -> f64 {
    dot(normal(line[0]), point) - line[1]
}

/// The nearest point of a line.
pub fn foot(point: Place, line: Place) -> Place {
    along(point, -distance(point, line), normal(line[0]))
}

/// The point where two lines meet, unless they are nearly parallel.
pub fn meeting(a: Place, b: Place) -> Option<Place> {
    let sine = math::sin(wrapped(b[0] - a[0]));
    (sine.abs() > 1e-9).then(|| {
        let (d, e) = (direction(a[0]), direction(b[0]));
        [(a[1] * e[0] - b[1] * d[0]) / sine, (a[1] * e[1] - b[1] * d[1]) / sine]
    })
}

/// What two elements measure: the distance of points, of a point from a line with its sign, or the angle that turns the
/// first line into the second, in degrees.
pub fn measured(lines: [bool; 2], [a, b]: [Place; 2]) -> f64 {
    match lines {
        [false, false] => length(between(a, b)),
        [false, true] => distance(a, b),
        [true, false] => distance(b, a),
        [true, true] => wrapped(b[0] - a[0]).to_degrees(),
    }
}

/// A motion of the plane: a turn, then a shift.
#[derive(Clone, Copy, Debug)]
pub struct Motion {
    pub turn: f64,
    pub shift: Vector,
}

impl Motion {
    /// A place after the motion.
    pub fn apply(&self, place: Place, is_line: bool) -> Place {
        if is_line {
            let angle = place[0] + self.turn;
            [angle, place[1] + dot(normal(angle), self.shift)]
        } else {
            let (d, n) = (direction(self.turn), normal(self.turn));
            along(along(self.shift, place[0], d), place[1], n)
        }
    }

    /// The motion that brings two elements from their places to others, as far as one can.
    pub fn onto(lines: [bool; 2], from: [Place; 2], to: [Place; 2]) -> Motion {
        match lines {
            [true, false] => Motion::onto([false, true], [from[1], from[0]], [to[1], to[0]]),
            [true, true] => {
                let turned = Motion { turn: wrapped(to[0][0] - from[0][0]), shift: [0.0; 2] };
                // the shift is the meeting of two lines of shifts, or straight on to the first line where they are
                // parallel
                let shifts = [0, 1].map(|i| [from[i][0] + turned.turn, to[i][1] - from[i][1]]);
                let shift = meeting(shifts[0], shifts[1])
                    .unwrap_or_else(|| along([0.0; 2], shifts[0][1], normal(shifts[0][0])));
                Motion { shift, ..turned }
            }
            [false, is_line] => {
                let turn = if is_line {
                    to[1][0] - from[1][0]
                } else {
                    let [before, after] = [from, to].map(|ends| between(ends[0], ends[1]));
                    math::angle(after) - math::angle(before)
                };
                let turned = Motion { turn: wrapped(turn), shift: [0.0; 2] };
                Motion { shift: between(turned.apply(from[0], false), to[0]), ..turned }
            }
        }
    }
}

#[cfg(test)]
mod tests {
    use super::*;

    #[test]
    fn lines_meet_where_both_are() {
        let (a, b) = ([0.3, 2.0], [1.9, -4.0]);
        let point = meeting(a, b).expect("they are not parallel");
        assert!(distance(point, a).abs() < 1e-12 && distance(point, b).abs() < 1e-12);
        assert_eq!(meeting([0.3, 2.0], [0.3, 5.0]), None);
    }

    #[test]
    fn a_motion_keeps_distances_and_angles_and_is_found_again() {
        let (point, other, line, slanted) = ([3.0, -1.0], [0.5, 2.0], [0.4, 1.5], [2.0, 0.7]);
        let motion = Motion { turn: 1.1, shift: [5.0, -7.0] };
        let (p, l) = (motion.apply(point, false), motion.apply(line, true));
        assert!((distance(p, l) - distance(point, line)).abs() < 1e-12);
        let cases = [([false, false], [point, other]), ([false, true], [point, line]), ([true, true], [line, slanted])];
        for (lines, from) in cases {
            let to = [0, 1].map(|i| motion.apply(from[i], lines[i]));
            let found = Motion::onto(lines, from, to);
            assert!(
                (found.turn - motion.turn).abs() < 1e-12 && length(between(found.shift, motion.shift)) < 1e-11,
                "{lines:?}"
            );
        }
    }
}
