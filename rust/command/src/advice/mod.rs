//! What to change in a sheet that is not "well". Everything that is advised was tried before, by the proved verdict.
//!
//! Plain functions over the facts of a sheet, which give data: `describe` has the words. A search stops after so many
//! calls of the library, and says so.

mod change;
mod complete;
mod excess;
mod mend;
mod ring;
mod tries;

use pattern::{Rule, Verdict};

use crate::engine;
use crate::sheet::Sheet;

pub use change::{without, Change, Costs};
pub use excess::{rank, Excess, Extra};
pub use ring::{Link, Ring};
pub use tries::Tries;

/// A pair of elements, the lower first.
pub type Pair = (usize, usize);

/// The most calls of the library for one piece of advice.
pub const MOST_TRIES: usize = 40_000;

/// What to change in a sheet.
#[derive(Clone, PartialEq, Eq, Debug)]
pub struct Advice {
    /// What is too many, of a sheet that is over.
    pub excess: Option<Excess>,
    /// The angles of which one follows from the others, of a sheet that is "angle".
    pub ring: Option<Ring>,
    /// The cheapest pairs by the count, of a sheet that is "under", and the verdict that they give.
    pub cheapest: Option<Change>,
    /// A change that gives "well", of every sheet for which one was found.
    pub change: Option<Change>,
    /// How many calls of the library it took, and whether more were wanted.
    pub tries: usize,
    pub stopped: bool,
}

impl Advice {
    /// The advice for a sheet, with the prices of its pairs in dictionary order; none for one that is "well".
    pub fn of(sheet: &Sheet, prices: &[u16]) -> Result<Option<Advice>, Rule> {
        Advice::within(sheet, prices, MOST_TRIES)
    }

    /// The same by so many calls at most.
    pub fn within(sheet: &Sheet, prices: &[u16], most: usize) -> Result<Option<Advice>, Rule> {
        let bytes = engine::write(sheet)?;
        let verdict = pattern::verdict(&bytes)?;
        if verdict == Verdict::Well {
            return Ok(None);
        }
        let costs = Costs::of(sheet.elements.len(), prices);
        let mut tries = Tries::at_most(most);
        let excess = if verdict == Verdict::Over { excess::excess(sheet, &mut tries) } else { None };
        let ring = if verdict == Verdict::Angle { ring_of(sheet, &bytes)? } else { None };
        let cheapest = match verdict {
            Verdict::Under => complete::cheapest(sheet, &costs, &mut tries).map(|(measure, verdict)| Change {
                out: Vec::new(),
                point: None,
                price: costs.in_all(&measure),
                measure,
                verdict,
            }),
            _ => None,
        };
        let out = excess.as_ref().map_or(Vec::new(), Excess::out);
        let first = match &ring {
            Some(ring) => ring.angles(),
            None => lonely(sheet, &bytes)?,
        };
        let done = verdict == Verdict::Over && excess.is_none();
        let task = mend::Task { sheet, out: &out, first: &first, costs: &costs };
        let change = if done { None } else { task.mend(&mut tries) };
        Ok(Some(Advice { excess, ring, cheapest, change, tries: tries.made(), stopped: tries.stopped() }))
    }
}

/// The part that is fixed without a sheet's last constraint, where that one makes it over.
pub fn fixed_without_last(sheet: &Sheet) -> Option<Extra> {
    let constraint = sheet.constraints.len().checked_sub(1)?;
    let (part, fixed_by) = excess::part_of(sheet, &[], constraint, &mut Tries::at_most(1))?;
    Some(Extra { constraint, part, fixed_by, choices: Vec::new() })
}

/// The ring of a sheet that is "angle".
fn ring_of(sheet: &Sheet, bytes: &[u8]) -> Result<Option<Ring>, Rule> {
    let steps = pattern::steps(bytes)?;
    let clusters = engine::clusters(bytes, sheet.constraints.len(), &steps)?;
    Ok(ring::ring(sheet, &steps, &clusters))
}

/// The constraints that merge with nothing: of a sheet that is "stuck" those that are best moved. None of one that is
/// over.
fn lonely(sheet: &Sheet, bytes: &[u8]) -> Result<Vec<usize>, Rule> {
    if pattern::over(bytes)?.is_some() {
        return Ok(Vec::new());
    }
    let steps = pattern::steps(bytes)?;
    let merged = |k: &usize| steps.iter().any(|step| step.parts.contains(k));
    Ok((0..sheet.constraints.len()).filter(|k| !merged(k)).collect())
}
