//! Places that meet the equations, from places near them: a damped search (Levenberg and Marquardt).

use super::place::Place;
use super::system::System;

/// The most steps of a search.
const MOST_TRIES: usize = 300;
/// The most steps in a row that bring nearly nothing.
const MOST_IDLE: usize = 12;

impl System<'_> {
    /// Places near the given ones that meet every size within rounding, if the search finds them.
    pub fn solve(&self, start: Vec<Place>) -> Option<Vec<Place>> {
        let places = self.settle(start);
        self.met(&places).then_some(places)
    }

    /// The places to which the search comes from the given ones: a solution near them, or a place where it gets no
    /// further.
    pub fn settle(&self, mut places: Vec<Place>) -> Vec<Place> {
        let (mut damping, mut idle) = (1e-3, 0);
        let mut now = self.squares(&places);
        for _ in 0..MOST_TRIES {
            if self.error(&places) < 1e-11 || idle > MOST_IDLE || damping > 1e12 {
                break;
            }
            let step = match self.step(&places, damping) {
                Some(step) => step,
                None => break,
            };
            let next = self.moved(&places, &step);
            let then = self.squares(&next);
            if then < now {
                idle = if then > 0.9999 * now { idle + 1 } else { 0 };
                damping = f64::max(damping / 4.0, 1e-12);
                places = next;
                now = then;
            } else {
                damping *= 4.0;
            }
        }
        places
    }

    /// The step of the search: the least squares of the linear equations, damped.
    fn step(&self, places: &[Place], damping: f64) -> Option<Vec<f64>> {
        let (mut square, right) = self.squared(places);
        (0..right.len()).for_each(|i| square.add(i, i, damping));
        square.solve(right)
    }

    /// The least squares of the linear equations: a matrix and the right side.
    pub fn squared(&self, places: &[Place]) -> (Square, Vec<f64>) {
        let mut square = Square::of(2 * places.len());
        let mut right = vec![0.0; 2 * places.len()];
        for constraint in self.constraints() {
            let (error, row) = self.equation(constraint, places);
            let [(a, x), (b, y)] = row;
            let entries = [(2 * a, x[0]), (2 * a + 1, x[1]), (2 * b, y[0]), (2 * b + 1, y[1])];
            entries.iter().for_each(|(i, x)| right[*i] -= x * error);
            square.add_row(&entries, 1.0);
        }
        (square, right)
    }
}

/// A symmetric matrix by its lower half, each row from its first entry on.
pub struct Square {
    width: usize,
    entries: Vec<f64>,
    first: Vec<usize>,
}

impl Square {
    /// A matrix of zeros.
    fn of(width: usize) -> Square {
        Square { width, entries: vec![0.0; width * width], first: (0..width).collect() }
    }

    /// Adds the square of a row of an equation.
    pub fn add_row(&mut self, entries: &[(usize, f64)], weight: f64) {
        for (i, x) in entries {
            entries.iter().for_each(|(j, y)| self.add(*i, *j, weight * x * y));
        }
    }

    /// Adds to an entry of the lower half.
    pub fn add(&mut self, i: usize, j: usize, by: f64) {
        if j <= i {
            self.entries[i * self.width + j] += by;
            self.first[i] = self.first[i].min(j);
        }
    }

    /// Solves equations of a positive matrix (Cholesky).
    pub fn solve(mut self, mut right: Vec<f64>) -> Option<Vec<f64>> {
        let width = self.width;
        for i in 0..width {
            let (above, rest) = self.entries.split_at_mut(i * width);
            let row = &mut rest[..=i];
            for j in self.first[i]..i {
                let from = self.first[i].max(self.first[j]);
                let other = &above[j * width..=j * width + j];
                let sum: f64 = row[from..j].iter().zip(&other[from..j]).map(|(x, y)| x * y).sum();
                row[j] = (row[j] - sum) / other[j];
            }
            let rest = row[i] - row[self.first[i]..i].iter().map(|x| x * x).sum::<f64>();
            row[i] = if rest > 0.0 { rest.sqrt() } else { return None };
        }
        for i in 0..width {
            let row = &self.entries[i * width..=i * width + i];
            let sum: f64 = (self.first[i]..i).map(|k| row[k] * right[k]).sum();
            right[i] = (right[i] - sum) / row[i];
        }
        for i in (0..width).rev() {
            let row = &self.entries[i * width..=i * width + i];
            right[i] /= row[i];
            let times = right[i];
            (self.first[i]..i).for_each(|k| right[k] -= row[k] * times);
        }
        Some(right)
    }
}

#[cfg(test)]
mod tests {
    use super::*;

    #[test]
    fn a_positive_matrix_is_solved() {
        // 4 1 0 / 1 3 0 / 0 0 2, and a right side that its solution 1 2 3 makes
        let mut square = Square::of(3);
        for (i, j, x) in [(0, 0, 4.0), (1, 0, 1.0), (1, 1, 3.0), (2, 2, 2.0)] {
            square.add(i, j, x);
        }
        let found = square.solve(vec![6.0, 7.0, 6.0]).expect("it is positive");
        assert!(found.iter().zip([1.0, 2.0, 3.0]).all(|(x, y)| (x - y).abs() < 1e-12), "{found:?}");
        let mut flat = Square::of(2);
        flat.add(0, 0, 1.0);
        assert_eq!(flat.solve(vec![1.0, 1.0]), None);
    }
}
