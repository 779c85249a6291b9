//! The verdict (document 01, "Verdict names"; document 02, 2026-03, on "angle").

use crate::facts::Sheet;
use crate::matching::by_matching;
use crate::merging::Merges;
use crate::over::Over;
use crate::rings::has_ring;
use crate::set::{within, Set};

/// A verdict's name; its number is the C interface's.
#[derive(Clone, Copy, PartialEq, Eq, PartialOrd, Ord, Debug)]
pub enum Verdict {
    Over,
    Angle,
    Well,
    Stuck,
    Under,
}

impl Verdict {
    /// The name as the report prints it.
    pub fn name(self) -> &'static str {
        match self {
            Verdict::Over => "over",
            Verdict::Angle => "angle",
            Verdict::Well => "well",
            Verdict::Stuck => "stuck",
            Verdict::Under => "under",
        }
    }
}

/// What is found of a sheet: it is over, or merges were made until none is open.
#[derive(Clone, PartialEq, Eq, Debug)]
pub enum Judged {
    Over(Over),
    Merged(Merges),
}

/// What the engine finds of a sheet.
pub fn judge(sheet: &Sheet) -> Judged {
    match by_matching(sheet) {
        Some(over) => Judged::Over(over),
        None => Judged::Merged(Merges::engine(sheet)),
    }
}

/// The verdict on what was found: the first name that is met.
pub fn verdict(sheet: &Sheet, judged: &Judged) -> Verdict {
    let merges = match judged {
        Judged::Merged(merges) => merges,
        _ => return Verdict::Over,
    };
    let full = sheet.e() == 2 * sheet.n() - 3;
    if angle_by_joint(sheet, merges) || angle_by_ring(sheet, merges) {
        Verdict::Angle
    } else if full && merges.finals.len() == 1 {
        Verdict::Well
    } else if full {
        Verdict::Stuck
    } else {
        Verdict::Under
    }
}

/// Some joint is three lines.
pub fn angle_by_joint(sheet: &Sheet, merges: &Merges) -> bool {
    merges.steps.iter().any(|step| within(step.joint, sheet.lines()))
}

/// Four or more final clusters make a ring of lines.
pub fn angle_by_ring(sheet: &Sheet, merges: &Merges) -> bool {
    has_ring(&final_sets(merges), sheet.lines())
}

/// The final clusters as sets.
pub fn final_sets(merges: &Merges) -> Vec<Set> {
    merges.finals.iter().map(|&(_, set)| set).collect()
}
