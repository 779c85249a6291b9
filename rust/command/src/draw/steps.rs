//! The steps of a plan, as pictures show them: what is built, what is joined, the joint, and what is open next.

use pattern::Step;

use crate::document::Document;
use crate::sheet::{members, Constraint};
use crate::{merges, steps};

/// A part of a plan: its elements and its constraints, each as a set of bits.
#[derive(Clone, Copy, PartialEq, Eq, Debug)]
pub struct Piece {
    pub number: usize,
    pub elements: u64,
    pub constraints: u128,
}

/// What something is to a step.
#[derive(Clone, Copy, PartialEq, Eq, Debug)]
pub enum Role {
    /// In one of the three parts that it joins.
    Joined(usize),
    /// In two of them.
    Shared,
    /// In a part that an earlier step made.
    Built,
    /// Not yet in one.
    Open,
}

/// A step as it is shown.
#[derive(Clone, Debug)]
pub struct View {
    pub step: Step,
    /// The step in words, behind its place in the plan.
    pub words: String,
    pub parts: [Piece; 3],
    /// What earlier steps have built.
    pub built: Piece,
    /// The merges that are open after it.
    pub next: Vec<[Piece; 3]>,
}

impl View {
    /// What an element is to the step.
    pub fn element(&self, element: usize) -> Role {
        let within = |piece: &Piece| piece.elements >> element & 1 == 1;
        match self.parts.iter().filter(|part| within(part)).count() {
            0 if within(&self.built) => Role::Built,
            0 => Role::Open,
            1 => Role::Joined(self.parts.iter().position(within).unwrap_or(0)),
            _ => Role::Shared,
        }
    }

    /// What a constraint is to the step.
    pub fn constraint(&self, constraint: usize) -> Role {
        let within = |piece: &Piece| piece.constraints >> constraint & 1 == 1;
        match self.parts.iter().position(within) {
            Some(part) => Role::Joined(part),
            None if within(&self.built) => Role::Built,
            None => Role::Open,
        }
    }

    /// What is open after the step, in words.
    pub fn next_words(&self, document: &Document) -> String {
        let names = |merge: &[Piece; 3]| document.named(joint(merge)).join(" ");
        match self.next.len() {
            0 => "nothing is open next: the plan ends here".to_string(),
            _ => format!("open next: {}", self.next.iter().map(names).collect::<Vec<_>>().join("; ")),
        }
    }
}

/// The elements that two of three parts share.
pub fn joint(merge: &[Piece; 3]) -> u64 {
    let [a, b, c] = merge.map(|piece| piece.elements);
    a & b | a & c | b & c
}

/// A part in words: the constraint that it is, or its elements.
pub fn piece_words(document: &Document, piece: &Piece) -> String {
    if piece.number < document.sheet.constraints.len() {
        return document.statement(piece.number);
    }
    let names: Vec<&str> = members(piece.elements).map(|i| document.names[i].as_str()).collect();
    format!("part {}: {}", piece.number, names.join(" "))
}

/// The steps of the engine's plan.
pub fn views(document: &Document, steps: &[Step]) -> Vec<View> {
    views_by(document, steps, steps.len(), |k, _| open_after(document, k))
}

/// The merges that are open after so many steps of the engine's plan.
fn open_after(document: &Document, steps: usize) -> Vec<[usize; 3]> {
    let mut space = [0; pattern::MOST_OPEN];
    let open = pattern::open(&document.bytes, steps, &mut space).unwrap_or(&[]);
    open.chunks_exact(3).map(|merge| [0, 1, 2].map(|i| usize::from(merge[i]))).collect()
}

/// The merges that are open before any step.
pub fn open_first(document: &Document) -> Vec<[Piece; 3]> {
    let pieces = first_pieces(document);
    open_after(document, 0).into_iter().map(|merge| merge.map(|part| pieces[part])).collect()
}

/// The first steps of a plan of so many that was saved.
pub fn saved_views(document: &Document, steps: &[Step], of: usize) -> Vec<View> {
    views_by(document, steps, of, |_, living| merges::open(living))
}

/// The parts that a plan starts from: the constraints.
pub fn first_pieces(document: &Document) -> Vec<Piece> {
    let constraints = document.sheet.constraints.iter().enumerate();
    let piece = |(k, c): (usize, &Constraint)| Piece {
        number: k,
        elements: 1 << c.first | 1 << c.second,
        constraints: 1u128.checked_shl(k as u32).unwrap_or(0),
    };
    constraints.map(piece).collect()
}

/// Three parts as one.
pub fn joined(parts: [Piece; 3], number: usize) -> Piece {
    let none = Piece { number, elements: 0, constraints: 0 };
    parts.iter().fold(none, |all, piece| Piece {
        number,
        elements: all.elements | piece.elements,
        constraints: all.constraints | piece.constraints,
    })
}

/// Every part of a plan by its number: the constraints, and what each step makes.
pub fn pieces(document: &Document, steps: &[Step]) -> Vec<Piece> {
    let mut pieces = first_pieces(document);
    for step in steps {
        pieces.push(joined(step.parts.map(|part| pieces[part]), step.made));
    }
    pieces
}

/// The steps of a plan of so many, where it is known which merges are open after how many steps, among which parts.
fn views_by(
    document: &Document,
    steps: &[Step],
    of: usize,
    open: impl Fn(usize, &[Piece]) -> Vec<[usize; 3]>,
) -> Vec<View> {
    let mut pieces = first_pieces(document);
    let mut used = vec![false; pieces.len()];
    let mut views: Vec<View> = Vec::new();
    let mut built = Piece { number: 0, elements: 0, constraints: 0 };
    let words = steps::each(document, steps);
    for (i, (&step, words)) in steps.iter().zip(words).enumerate() {
        let parts = step.parts.map(|part| pieces[part]);
        let made = joined(parts, step.made);
        pieces.push(made);
        used.push(false);
        step.parts.iter().for_each(|&part| used[part] = true);
        let living: Vec<Piece> =
            pieces.iter().zip(&used).filter(|(_, used)| !**used).map(|(piece, _)| *piece).collect();
        let next = open(i + 1, &living).into_iter().map(|merge| merge.map(|part| pieces[part])).collect();
        let words = format!("step {} of {of}: {words}", i + 1);
        views.push(View { step, words, parts, built, next });
        built = joined([built, made, made], 0);
    }
    views
}
