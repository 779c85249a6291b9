//! The check of a saved plan (document 01, rules 11 to 13, 15 and 16).

use crate::facts::{Rule, Sheet};
use crate::matching::by_matching;
use crate::merging::{joint, Clusters, Merges, Three};
use crate::rules::refuse;
use crate::set::size;

/// The merges of a saved plan, three numbers a step, or the rule that refuses it.
pub fn check(sheet: &Sheet, plan: &[u16]) -> Result<Merges, Rule> {
    refuse(by_matching(sheet).is_some(), 11)?;
    refuse(plan.len() % 3 != 0, 12)?;
    let mut clusters = Clusters::initial(sheet);
    let mut steps = Vec::new();
    for numbers in plan.chunks(3) {
        let three = [numbers[0], numbers[1], numbers[2]].map(usize::from);
        check_step(&clusters, three)?;
        steps.push(clusters.merge(three));
    }
    refuse(clusters.first_open().is_some(), 16)?;
    Ok(Merges { steps, finals: clusters.all_living(), rests: clusters.all_rests() })
}

/// Rules 13 and 15 of one step. Of a sheet that is not over, two living clusters share at most one element (request 2026-06).
fn check_step(clusters: &Clusters, three: Three) -> Result<(), Rule> {
    let [p, q, r] = three;
    let living = |number| clusters.living(number).ok_or(13);
    let (a, b, c) = (living(p)?, living(q)?, living(r)?);
    refuse(p == q || p == r || q == r, 13)?;
    assert!(
        [a & b, a & c, b & c].into_iter().all(|shared| size(shared) <= 1),
        "two living clusters share two elements"
    );
    refuse(joint(a, b, c).is_none(), 15)
}
