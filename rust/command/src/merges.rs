//! The merges that are open among parts, whichever plan they come from, and what is left of a plan that was saved.

use pattern::{Rule, Step};

use crate::document::Document;
use crate::draw::{first_pieces, joined, Piece};
use crate::engine;

/// The open merges of some parts: each two of the three share one element, three different ones in all. By the lowest
/// element of the joint, then by numbers, as `pattern::open` has them.
pub fn open(parts: &[Piece]) -> Vec<[usize; 3]> {
    let shared = |a: &Piece, b: &Piece| Some(a.elements & b.elements).filter(|set| set.count_ones() == 1);
    let mut found = Vec::new();
    for (i, a) in parts.iter().enumerate() {
        for (j, b) in parts.iter().enumerate().skip(i + 1) {
            let ab = match shared(a, b) {
                Some(ab) => ab,
                None => continue,
            };
            for c in &parts[j + 1..] {
                if let (Some(ac), Some(bc)) = (shared(a, c), shared(b, c)) {
                    if ab != ac && ab != bc && ac != bc {
                        found.push(((ab | ac | bc).trailing_zeros(), [a.number, b.number, c.number]));
                    }
                }
            }
        }
    }
    found.sort_unstable();
    found.into_iter().map(|(_, merge)| merge).collect()
}

/// The steps of a saved plan that are right, from the first on, as the library tells them.
pub fn right_steps(document: &Document, plan: &[u16]) -> Vec<Step> {
    let right =
        |count: &usize| matches!(engine::check_plan(&document.bytes, &plan[..3 * count]), Ok(_) | Err(Rule(16)));
    let count = (1..=plan.len() / 3).take_while(right).count();
    let mut whole = plan[..3 * count].to_vec();
    complete(document, &mut whole);
    let steps = pattern::saved_steps(&document.bytes, &whole).unwrap_or_default();
    steps.into_iter().take(count).collect()
}

/// Takes the merges that are open after a plan until none is, so that the library can tell of its steps.
fn complete(document: &Document, plan: &mut Vec<u16>) {
    let mut living = first_pieces(document);
    let mut number = living.len();
    let mut merge = |living: &mut Vec<Piece>, numbers: [usize; 3]| {
        let at = |number: usize| living.iter().find(|piece| piece.number == number).copied();
        if let [Some(a), Some(b), Some(c)] = numbers.map(at) {
            living.retain(|piece| !numbers.contains(&piece.number));
            living.push(joined([a, b, c], number));
            number += 1;
        }
    };
    for step in plan.chunks_exact(3) {
        merge(&mut living, [0, 1, 2].map(|i| usize::from(step[i])));
    }
    while let Some(&next) = open(&living).first() {
        merge(&mut living, next);
        plan.extend(next.iter().map(|&part| part as u16));
    }
}
