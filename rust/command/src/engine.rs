//! The calls of the proved library, in the terms of this program.

use pattern::{Facts, Rule, Sketch, Step, MOST_BYTES, MOST_CLUSTERS, MOST_MISSING, MOST_PLAN, MOST_REPORT, MOST_RESTS};

use crate::sheet::{Constraint, Sheet};

/// A constraint as the library takes it.
fn constraint(constraint: &Constraint) -> pattern::Constraint {
    let end = |end| u8::try_from(end).unwrap_or(u8::MAX);
    pattern::Constraint::new(end(constraint.first), end(constraint.second), constraint.dimension)
}

/// The bytes of a sheet from its facts.
pub fn write(sheet: &Sheet) -> Result<Vec<u8>, Rule> {
    let constraints: Vec<_> = sheet.constraints.iter().map(constraint).collect();
    let mut space = [0; MOST_BYTES];
    pattern::write(&Facts { opening: sheet.opening, kinds: &sheet.elements, constraints: &constraints }, &mut space)
        .map(<[u8]>::to_vec)
}

/// The same sheet without its tags.
pub fn rewrite(bytes: &[u8]) -> Result<Vec<u8>, Rule> {
    let mut space = [0; MOST_BYTES];
    pattern::rewrite(bytes, &mut space).map(<[u8]>::to_vec)
}

/// The rule that refuses the bytes as a sheet.
pub fn refusal(bytes: &[u8]) -> Option<Rule> {
    pattern::verdict(bytes).err()
}

/// The report.
pub fn report(bytes: &[u8]) -> Result<String, Rule> {
    let mut space = [0; MOST_REPORT];
    pattern::report(bytes, &mut space).map(str::to_string)
}

/// The report for a saved plan.
pub fn check_plan(bytes: &[u8], plan: &[u16]) -> Result<String, Rule> {
    let mut space = [0; MOST_REPORT];
    pattern::check_plan(bytes, plan, &mut space).map(str::to_string)
}

/// The plan: three cluster numbers a step.
pub fn plan(bytes: &[u8]) -> Result<Vec<u16>, Rule> {
    let mut space = [0; MOST_PLAN];
    pattern::plan(bytes, &mut space).map(<[u16]>::to_vec)
}

/// The step lines of one cluster.
pub fn part(bytes: &[u8], number: usize) -> Result<String, Rule> {
    let mut space = vec![0; pattern::part_bytes(bytes, number)?];
    pattern::part(bytes, number, &mut space).map(str::to_string)
}

/// The chain from one element to another, or none.
pub fn chain(bytes: &[u8], from: usize, to: usize) -> Result<Option<Vec<u16>>, Rule> {
    let mut space = [0; pattern::MOST_CHAIN];
    Ok(pattern::chain(bytes, from, to, &mut space)?.map(<[u16]>::to_vec))
}

/// The cheapest pairs to measure.
pub fn missing(bytes: &[u8], prices: &[u16]) -> Result<Vec<(usize, usize)>, Rule> {
    let mut space = [0; MOST_MISSING];
    let pairs = pattern::missing(bytes, prices, &mut space)?;
    Ok(pairs.map(|(a, b)| (a.into(), b.into())).collect())
}

/// A cluster that is left when no merge is open.
#[derive(Clone, Copy, PartialEq, Eq, Debug)]
pub struct Cluster {
    pub number: usize,
    /// Element i as bit i.
    pub elements: u64,
    /// The constraints that it rests on: constraint i as bit i.
    pub rests: u128,
}

/// The clusters that are left after the steps of the plan.
pub fn clusters(bytes: &[u8], e: usize, steps: &[Step]) -> Result<Vec<Cluster>, Rule> {
    let (mut sets, mut words) = ([0; MOST_CLUSTERS], [0; MOST_RESTS]);
    let sets = pattern::clusters(bytes, &mut sets)?;
    let words = pattern::rests(bytes, &mut words)?;
    let numbers = (0..e + steps.len()).filter(|&number| steps.iter().all(|step| !step.parts.contains(&number)));
    let rests = words.chunks(2).map(|pair| u128::from(pair[1]) << 64 | u128::from(pair[0]));
    let rows = numbers.zip(sets).zip(rests);
    Ok(rows.map(|((number, &elements), rests)| Cluster { number, elements, rests }).collect())
}

/// A sheet with constraints placed one after another, or the place of the first that is refused.
pub fn place(bytes: &[u8], more: &[Constraint]) -> Result<Vec<u8>, (Option<usize>, Rule)> {
    let mut sketch = Sketch::hold(bytes).map_err(|rule| (None, rule))?;
    for (i, added) in more.iter().enumerate() {
        let held = sketch.count();
        sketch.place(&constraint(added), held).map_err(|rule| (Some(i), rule))?;
    }
    let mut space = [0; MOST_BYTES];
    sketch.sheet(&mut space).map(<[u8]>::to_vec).map_err(|rule| (None, rule))
}
