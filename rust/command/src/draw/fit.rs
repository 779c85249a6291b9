//! The motion that brings places nearest to others.

use super::math::angle;
use super::place::{along, direction, distance, dot, length, normal, Motion, Place, Vector};

/// The motion that brings some places nearest to where they are wanted, and how far they are from there in squares. A
/// line counts by its direction at a distance of `scale`, and by how far it lies beside where it is wanted.
pub fn fit(lines: &[bool], from: &[Option<Place>], to: &[Option<Place>], scale: f64) -> (Motion, f64) {
    let known = || {
        let pairs = from.iter().zip(to).zip(lines);
        pairs.filter_map(|((from, to), line)| Some(((*from)?, (*to)?, *line)))
    };
    let points = || known().filter(|(_, _, line)| !line).map(|(from, to, _)| (from, to));
    let count = points().count().max(1) as f64;
    let sum = points().fold([[0.0; 2]; 2], |[a, b], (from, to)| [along(a, 1.0, from), along(b, 1.0, to)]);
    let [before, after] = sum.map(|[x, y]| [x / count, y / count]);
    // the sum of what turns each arm from the middle into the wanted one
    let arms = points().map(|(from, to)| {
        let (a, b) = (along(from, -1.0, before), along(to, -1.0, after));
        [dot(a, b), a[0] * b[1] - a[1] * b[0]]
    });
    let ways = known().filter(|(_, _, line)| *line).map(|(from, to, _)| {
        let turn = direction(to[0] - from[0]);
        [turn[0] * scale * scale, turn[1] * scale * scale]
    });
    let turns = arms.chain(ways).fold([0.0; 2], |sum, turn| along(sum, 1.0, turn));
    let turned = Motion { turn: angle(turns), shift: [0.0; 2] };
    // the shift: two equations for each point, one across each line
    let mut square = [[1e-9, 0.0], [0.0, 1e-9]];
    let mut right = [0.0; 2];
    let mut add = |way: Vector, wanted: f64| {
        for i in [0, 1] {
            right[i] += way[i] * wanted;
            square[i] = along(square[i], way[i], way);
        }
    };
    for (from, to, line) in known() {
        let moved = turned.apply(from, line);
        if line {
            add(normal(moved[0]), to[1] - moved[1]);
        } else {
            add([1.0, 0.0], to[0] - moved[0]);
            add([0.0, 1.0], to[1] - moved[1]);
        }
    }
    let whole = square[0][0] * square[1][1] - square[0][1] * square[1][0];
    let shift = [
        (right[0] * square[1][1] - right[1] * square[0][1]) / whole,
        (square[0][0] * right[1] - square[1][0] * right[0]) / whole,
    ];
    let motion = Motion { shift, ..turned };
    let far = known().map(|(from, to, line)| {
        let moved = motion.apply(from, line);
        if line {
            let turn = length(along(direction(moved[0]), -1.0, direction(to[0]))) * scale;
            turn * turn + (moved[1] - to[1]).powi(2)
        } else {
            let apart = along(moved, -1.0, to);
            dot(apart, apart)
        }
    });
    (motion, far.sum())
}

/// A line through two points, towards the second.
pub fn line_through([a, b]: [Place; 2]) -> Place {
    let angle = angle([b[0] - a[0], b[1] - a[1]]);
    [angle, distance(a, [angle, 0.0])]
}

#[cfg(test)]
mod tests {
    use super::super::place::foot;
    use super::*;

    #[test]
    fn a_motion_is_found_again() {
        let lines = [false, false, true, true];
        let from = [Some([3.0, 4.0]), Some([-5.0, 1.0]), Some([0.3, 2.0]), Some([2.0, -7.0])];
        let motion = Motion { turn: 2.5, shift: [30.0, -40.0] };
        let to: Vec<Option<Place>> =
            from.iter().zip(lines).map(|(place, line)| place.map(|place| motion.apply(place, line))).collect();
        for kept in [[0, 1, 2, 3], [0, 1, 1, 1], [0, 2, 2, 2], [2, 3, 3, 3]] {
            let part: Vec<Option<Place>> = (0..4).map(|i| if kept.contains(&i) { to[i] } else { None }).collect();
            let (found, far) = fit(&lines, &from, &part, 10.0);
            assert!(far < 1e-9 && (found.turn - 2.5).abs() < 1e-6, "{kept:?} {found:?} {far}");
        }
    }

    #[test]
    fn a_line_through_two_points_runs_from_the_first_to_the_second() {
        let (a, b) = ([1.0, 2.0], [4.0, -3.0]);
        let line = line_through([a, b]);
        for point in [a, b] {
            assert!(length(along(foot(point, line), -1.0, point)) < 1e-9);
        }
        assert!(dot(direction(line[0]), along(b, -1.0, a)) > 0.0);
    }
}
