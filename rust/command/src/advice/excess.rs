//! What is too many in a sheet that is over: every constraint too many with the part that is fixed without it, and what
//! may be left out in its place.

use pattern::Verdict;

use super::change::without;
use super::tries::Tries;
use crate::sheet::Sheet;

/// A constraint too many, the part that is fixed already, and what leaving one of its constraints out gives.
#[derive(Clone, PartialEq, Eq, Debug)]
pub struct Extra {
    /// The constraint that is left out, as the advice has it.
    pub constraint: usize,
    /// The smallest part that is fixed without it: element i as bit i.
    pub part: u64,
    /// The other constraints of the part: they fix it.
    pub fixed_by: Vec<usize>,
    /// What may be left out for this one, itself included, each with the verdict that it gives while the other extras
    /// are left out: the best first.
    pub choices: Vec<(usize, Verdict)>,
}

/// What is too many: leaving all extras out gives the verdict.
#[derive(Clone, PartialEq, Eq, Debug)]
pub struct Excess {
    pub extras: Vec<Extra>,
    pub verdict: Verdict,
}

impl Excess {
    /// The constraints to leave out together.
    pub fn out(&self) -> Vec<usize> {
        let mut out: Vec<usize> = self.extras.iter().map(|extra| extra.constraint).collect();
        out.sort_unstable();
        out
    }
}

/// How good a verdict is to end with: "well" first, then what only lacks dimensions.
pub fn rank(verdict: Verdict) -> usize {
    match verdict {
        Verdict::Well => 0,
        Verdict::Under => 1,
        Verdict::Stuck => 2,
        Verdict::Angle => 3,
        Verdict::Over => 4,
    }
}

/// How good a sheet is that is not over: by its verdict, then by how few parts are left.
fn standing(sheet: &Sheet, out: &[usize], tries: &mut Tries) -> Option<(usize, usize)> {
    let rest = without(sheet, out);
    let verdict = tries.verdict(&rest)?;
    let parts = if verdict == Verdict::Well { 1 } else { tries.parts(&rest)?.len() };
    Some((rank(verdict), parts))
}

/// The constraints too many, each the first that makes those up to it over once the earlier ones are left out.
pub fn extras(sheet: &Sheet, tries: &mut Tries) -> Vec<usize> {
    let mut kept: Vec<usize> = (0..sheet.constraints.len()).collect();
    let mut rest = sheet.clone();
    let mut found = Vec::new();
    while let Some(over) = tries.over(&rest) {
        rest.constraints.remove(over.first);
        found.push(kept.remove(over.first));
    }
    found
}

/// The smallest part that a constraint makes over, and the others of its constraints, where `out` is left out and this
/// one is not.
pub fn part_of(sheet: &Sheet, out: &[usize], constraint: usize, tries: &mut Tries) -> Option<(u64, Vec<usize>)> {
    let mut last = without(sheet, &[out, &[constraint]].concat());
    last.constraints.push(sheet.constraints[constraint]);
    let set = tries.over(&last)?.set;
    let within = |k: &usize| {
        let c = &sheet.constraints[*k];
        set >> c.first & 1 == 1 && set >> c.second & 1 == 1 && *k != constraint && !out.contains(k)
    };
    Some((set, (0..sheet.constraints.len()).filter(within).collect()))
}

/// What is too many in a sheet that is over. In place of each extra every constraint of its part is tried; what ends
/// best is left out.
pub fn excess(sheet: &Sheet, tries: &mut Tries) -> Option<Excess> {
    let mut out = extras(sheet, tries);
    let mut best = standing(sheet, &out, tries)?;
    for place in 0..out.len() {
        if best.0 == rank(Verdict::Well) {
            break;
        }
        let (_, others) = part_of(sheet, &without_place(&out, place), out[place], tries)?;
        for other in others {
            let mut tried = out.clone();
            tried[place] = other;
            let standing = standing(sheet, &tried, tries)?;
            if standing < best {
                best = standing;
                out = tried;
            }
        }
    }
    let mut extras = Vec::new();
    for place in 0..out.len() {
        let beside = without_place(&out, place);
        let (part, fixed_by) = part_of(sheet, &beside, out[place], tries)?;
        let mut choices = Vec::new();
        for &choice in [out[place]].iter().chain(&fixed_by) {
            choices.push((choice, tries.verdict(&without(sheet, &[&beside[..], &[choice]].concat()))?));
        }
        choices.sort_by_key(|&(choice, verdict)| (rank(verdict), choice));
        extras.push(Extra { constraint: out[place], part, fixed_by, choices });
    }
    let verdict = tries.verdict(&without(sheet, &out))?;
    Some(Excess { extras, verdict })
}

/// All but one.
fn without_place(out: &[usize], place: usize) -> Vec<usize> {
    [&out[..place], &out[place + 1..]].concat()
}
