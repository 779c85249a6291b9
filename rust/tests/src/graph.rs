//! A constraint graph: elements and pairs, without kinds and sizes.

use crate::facts::MOST_CONSTRAINTS;
use crate::random::Random;

/// The element count and the pairs in listed order, each once, the lower end first.
#[derive(Clone, Debug)]
pub struct Graph {
    pub n: usize,
    pub pairs: Vec<(usize, usize)>,
}

impl Graph {
    /// n elements without a pair.
    pub fn new(n: usize) -> Graph {
        Graph { n, pairs: Vec::new() }
    }

    /// n elements with these pairs, each listed where it first comes up.
    pub fn of(n: usize, pairs: impl IntoIterator<Item = (usize, usize)>) -> Graph {
        let mut graph = Graph::new(n);
        graph.join_all(pairs);
        graph
    }

    /// Whether a pair stands.
    pub fn has(&self, a: usize, b: usize) -> bool {
        self.pairs.contains(&(a.min(b), a.max(b)))
    }

    /// Lists a pair of different elements, unless it stands or the sheet is full; whether it did.
    pub fn join(&mut self, a: usize, b: usize) -> bool {
        let fits = a != b && self.pairs.len() < MOST_CONSTRAINTS && !self.has(a, b);
        if fits {
            self.pairs.push((a.min(b), a.max(b)));
        }
        fits
    }

    /// Lists pairs as `join` does.
    pub fn join_all(&mut self, pairs: impl IntoIterator<Item = (usize, usize)>) {
        for (a, b) in pairs {
            self.join(a, b);
        }
    }

    /// Lists up to `count` random pairs more.
    pub fn join_random(&mut self, count: usize, random: &mut Random) {
        let most = (self.n * (self.n - 1) / 2).min(MOST_CONSTRAINTS);
        let wanted = (self.pairs.len() + count).min(most);
        while self.pairs.len() < wanted {
            self.join(random.below(self.n), random.below(self.n));
        }
    }

    /// Leaves out up to `count` random pairs.
    pub fn part_random(&mut self, count: usize, random: &mut Random) {
        for _ in 0..count.min(self.pairs.len()) {
            self.pairs.remove(random.below(self.pairs.len()));
        }
    }

    /// Gives the elements other numbers.
    pub fn rename(&mut self, random: &mut Random) {
        let mut names: Vec<usize> = (0..self.n).collect();
        random.shuffle(&mut names);
        for (a, b) in &mut self.pairs {
            let (p, q) = (names[*a], names[*b]);
            (*a, *b) = (p.min(q), p.max(q));
        }
    }

    /// Another graph's pairs, on elements from `from` on, as far as they fit.
    pub fn take_in(&mut self, other: &Graph, from: usize) {
        let shifted = other.pairs.iter().map(|&(a, b)| (from + a, from + b));
        let n = self.n;
        self.join_all(shifted.filter(|&(_, b)| b < n));
    }
}
