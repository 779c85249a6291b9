//! What the engine says of a sheet, gathered for those who draw it.

use pattern::{JointKind, Rule, Step, Verdict};

use crate::advice::Advice;
use crate::document::Document;
use crate::draw::Agreement;
use crate::engine::{self, Cluster};
use crate::sheet::members;

/// The constraint too many, and the part that cannot take it.
#[derive(Clone, PartialEq, Eq, Debug)]
pub struct Over {
    pub constraint: usize,
    /// Element i as bit i.
    pub part: u64,
    /// The earlier constraints within the part: they fix it already.
    pub earlier: Vec<usize>,
}

/// What is found of a sheet.
#[derive(Clone, Debug)]
pub struct Finding {
    pub verdict: Verdict,
    /// How many dimensions are missing: 2n-3-e, or none.
    pub freedoms: usize,
    /// The cheapest pairs to measure, or the rule that gives none.
    pub missing: Result<Vec<(usize, usize)>, Rule>,
    pub over: Option<Over>,
    /// The lines that are held by angles alone, element i as bit i.
    pub angle: u64,
    pub steps: Vec<Step>,
    pub clusters: Vec<Cluster>,
    /// What to change, where that was looked for and the sheet is not well.
    pub advice: Option<Advice>,
    /// Whether each dimension too many agrees with the others, in the order of the advice.
    pub agreements: Vec<Option<Agreement>>,
}

impl Finding {
    /// What the proved library says, and what to change.
    pub fn advised(document: &Document, prices: &[u16]) -> Result<Finding, Rule> {
        let advice = Advice::of(&document.sheet, prices)?;
        let excess = advice.as_ref().and_then(|advice| advice.excess.as_ref());
        let agreements = excess.map_or(Vec::new(), |excess| Agreement::of(document, &excess.extras));
        Ok(Finding { advice, agreements, ..Finding::of(document, prices)? })
    }

    /// What there is to say of a text that has too few elements for a sheet: nothing.
    pub fn none() -> Finding {
        let (steps, clusters, agreements) = (Vec::new(), Vec::new(), Vec::new());
        let (verdict, missing) = (Verdict::Under, Err(Rule(3)));
        Finding { verdict, freedoms: 0, missing, over: None, angle: 0, steps, clusters, advice: None, agreements }
    }

    /// What the proved library says; prices of pairs in dictionary order.
    pub fn of(document: &Document, prices: &[u16]) -> Result<Finding, Rule> {
        let (bytes, sheet) = (&document.bytes, &document.sheet);
        let (n, e) = (sheet.elements.len(), sheet.constraints.len());
        let verdict = pattern::verdict(bytes)?;
        let freedoms = (2 * n - 3).saturating_sub(e);
        if let Some(over) = pattern::over(bytes)? {
            let within = |end: usize| over.set >> end & 1 == 1;
            let earlier = sheet.constraints[..over.first].iter().enumerate();
            let earlier = earlier.filter(|(_, c)| within(c.first) && within(c.second)).map(|(k, _)| k).collect();
            let over = Some(Over { constraint: over.first, part: over.set, earlier });
            let (missing, steps, clusters) = (Err(Rule(11)), Vec::new(), Vec::new());
            let (advice, agreements) = (None, Vec::new());
            return Ok(Finding { verdict, freedoms, missing, over, angle: 0, steps, clusters, advice, agreements });
        }
        let steps = pattern::steps(bytes)?;
        let clusters = engine::clusters(bytes, e, &steps)?;
        let missing = engine::missing(bytes, prices);
        let lines = (0..n).filter(|&i| sheet.elements[i].is_line()).fold(0, |set, i| set | 1 << i);
        let angle = if verdict == Verdict::Angle { held_by_angles(lines, &steps, &clusters) } else { 0 };
        let (advice, agreements) = (None, Vec::new());
        Ok(Finding { verdict, freedoms, missing, over: None, angle, steps, clusters, advice, agreements })
    }

    /// The steps that have no placement: their dimensions do not close.
    pub fn open_steps(&self) -> impl Iterator<Item = &Step> {
        self.steps.iter().filter(|step| step.ways == Some(0))
    }

    /// The constraints of a step of three constraints.
    pub fn step_statements(&self, document: &Document, step: &Step) -> Vec<String> {
        let e = document.sheet.constraints.len();
        step.parts.iter().filter(|&&part| part < e).map(|&part| document.statement(part)).collect()
    }
}

/// The lines of an "angle": those of the joints of three lines, or those in rings of final clusters. What is left of
/// final clusters and the lines they share, once whatever hangs on one thread alone is taken off, is rings and what
/// joins them.
fn held_by_angles(lines: u64, steps: &[Step], clusters: &[Cluster]) -> u64 {
    let joints = steps.iter().filter(|step| step.kind == JointKind::Lll).fold(0, |set, step| set | step.joint);
    if joints != 0 {
        return joints;
    }
    let mut sets: Vec<u64> = clusters.iter().map(|cluster| cluster.elements & lines).collect();
    loop {
        let shared = members(lines).filter(|i| sets.iter().filter(|&&set| set >> i & 1 == 1).count() >= 2);
        let shared = shared.fold(0, |set, i| set | 1 << i);
        let next: Vec<u64> =
            sets.iter().map(|set| set & shared).map(|set| if set.count_ones() < 2 { 0 } else { set }).collect();
        if next == sets {
            return sets.iter().fold(0, |all, set| all | set);
        }
        sets = next;
    }
}
