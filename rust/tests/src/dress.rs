//! A constraint graph dressed as a sheet: opening, kinds, radii, sizes and contacts.

use crate::facts::{Constraint, Kind, Opening, Sheet};
use crate::graph::Graph;
use crate::random::Random;
use crate::shapes;

/// Where sizes and radii come from.
#[derive(Clone, Copy)]
enum Sizes {
    /// A few lengths that often meet a placement's border exactly.
    Few,
    /// The ends of the ranges.
    Ends,
    /// The whole ranges.
    All,
}

/// What the elements and constraints of a sheet are, in hundredths: lines among the elements, circles among the others, contacts among the
/// constraints that may be one.
#[derive(Clone, Copy, Debug)]
pub struct Mix {
    pub opening: Opening,
    pub lines: usize,
    pub circles: usize,
    pub contacts: usize,
}

impl Mix {
    /// A mix of either opening.
    fn any(random: &mut Random) -> Mix {
        let opening = random.pick(&[Opening::Pf01, Opening::Pf02]);
        Mix::of(opening, random)
    }

    /// A mix of an opening.
    pub fn of(opening: Opening, random: &mut Random) -> Mix {
        let lines = random.pick(&[0, 0, 5, 30, 60, 100]);
        let circles = random.pick(&[0, 10, 50, 100, 100]);
        Mix { opening, lines, circles, contacts: random.pick(&[0, 30, 70, 100]) }
    }
}

/// A random sheet of at most `most` elements.
pub fn any(most: usize, random: &mut Random) -> Sheet {
    let mix = Mix::any(random);
    mixed(most, mix, random)
}

/// A random sheet of at most `most` elements of a mix.
pub fn mixed(most: usize, mix: Mix, random: &mut Random) -> Sheet {
    let n = if random.chance(10) { most } else { random.between(2, most) };
    let graph = shapes::any(n, random);
    by_mix(&graph, mix, random)
}

/// A graph with an opening, random kinds and sizes.
pub fn dress(graph: &Graph, random: &mut Random) -> Sheet {
    let mix = Mix::any(random);
    by_mix(graph, mix, random)
}

/// A graph dressed after a mix.
pub fn by_mix(graph: &Graph, mix: Mix, random: &mut Random) -> Sheet {
    let sizes = random.pick(&[Sizes::Few, Sizes::Few, Sizes::Ends, Sizes::All]);
    let kinds: Vec<Kind> = (0..graph.n).map(|_| kind(mix, sizes, random)).collect();
    let constraints = graph.pairs.iter().map(|&pair| constraint(&kinds, pair, mix.contacts, sizes, random)).collect();
    Sheet { opening: mix.opening, kinds, constraints }
}

/// A kind that the opening has.
fn kind(mix: Mix, sizes: Sizes, random: &mut Random) -> Kind {
    if random.chance(mix.lines) {
        Kind::Line
    } else if mix.opening == Opening::Pf02 && random.chance(mix.circles) {
        Kind::Circle(match sizes {
            Sizes::Few => random.pick(&[50, 100, 100, 150, 200, 300]),
            Sizes::Ends => random.pick(&[1, 2, 39_999, 40_000]),
            Sizes::All => random.between(1, 40_000) as u32,
        })
    } else {
        Kind::Point
    }
}

/// A constraint that a sheet with these kinds may take; its pair may stand already.
pub fn next(kinds: &[Kind], random: &mut Random) -> Constraint {
    let a = random.below(kinds.len());
    let b = (a + random.between(1, kinds.len() - 1)) % kinds.len();
    constraint(kinds, (a.min(b), a.max(b)), 50, Sizes::Few, random)
}

/// A constraint of a pair.
fn constraint(
    kinds: &[Kind],
    (i, j): (usize, usize),
    contacts: usize,
    sizes: Sizes,
    random: &mut Random,
) -> Constraint {
    let (a, b) = (kinds[i], kinds[j]);
    let (first, second) = (i as u8, j as u8);
    if (a.radius().is_some() || b.radius().is_some()) && random.chance(contacts) {
        let other = a != b && a != Kind::Point && b != Kind::Point && random.chance(50);
        return if other { Constraint::other_tangent(first, second) } else { Constraint::tangent(first, second) };
    }
    match size(a, b, sizes, random) {
        Some(size) => Constraint::sized(first, second, size),
        None => Constraint::bare(first, second),
    }
}

/// A size in its range; between a line and what is none it may be missing.
fn size(a: Kind, b: Kind, sizes: Sizes, random: &mut Random) -> Option<i32> {
    let lines = (a.is_line(), b.is_line());
    let most = if lines == (true, true) { 17_999 } else { 40_000 };
    let length = match sizes {
        Sizes::Few => random.pick(&[100, 200, 300, 300, 400, 299, 301]),
        Sizes::Ends => random.pick(&[1, 2, most - 1, most]),
        Sizes::All => random.between(1, most as usize) as i32,
    };
    let signed = if random.chance(50) { -length } else { length };
    match lines {
        (false, false) => Some(length),
        (true, true) => Some(signed),
        _ => (!random.chance(30)).then_some(signed),
    }
}
