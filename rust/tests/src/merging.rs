//! Clusters and merges (document 01, "Clusters and merges").

use crate::facts::Sheet;
use crate::random::Random;
use crate::set::{size, Set};

/// The numbers of three clusters.
pub type Three = [usize; 3];

/// A merge that was made: the cluster's number, its parts ascending, and the joint.
#[derive(Clone, Copy, PartialEq, Eq, Debug)]
pub struct Step {
    pub made: usize,
    pub parts: Three,
    pub joint: Set,
}

/// The clusters by number; one that a merge removed is `None`. Beside each the constraints that it came from, ascending
/// (document 02, 2026-04).
#[derive(Clone)]
pub struct Clusters {
    by_number: Vec<Option<Set>>,
    rests: Vec<Vec<usize>>,
}

impl Clusters {
    /// Each constraint as the cluster of its two ends.
    pub fn initial(sheet: &Sheet) -> Clusters {
        Clusters {
            by_number: sheet.constraints.iter().map(|c| Some(c.ends())).collect(),
            rests: (0..sheet.e()).map(|number| vec![number]).collect(),
        }
    }

    /// The elements of a living cluster.
    pub fn living(&self, number: usize) -> Option<Set> {
        self.by_number.get(number).copied().flatten()
    }

    /// The living clusters with their numbers, ascending.
    pub fn all_living(&self) -> Vec<(usize, Set)> {
        let numbered = self.by_number.iter().enumerate();
        numbered.filter_map(|(number, &set)| Some((number, set?))).collect()
    }

    /// What the living clusters rest on, in that order.
    pub fn all_rests(&self) -> Vec<Vec<usize>> {
        self.all_living().iter().map(|&(number, _)| self.rests[number].clone()).collect()
    }

    /// Calls `visit` with each open merge, by the comparison of document 01, until it says stop.
    fn visit_open(&self, mut visit: impl FnMut(Three) -> bool) {
        let living = self.all_living();
        for (i, &(p, a)) in living.iter().enumerate() {
            for (j, &(q, b)) in living.iter().enumerate().skip(i + 1) {
                if size(a & b) != 1 {
                    continue;
                }
                for &(r, c) in &living[j + 1..] {
                    if joint(a, b, c).is_some() && visit([p, q, r]) {
                        return;
                    }
                }
            }
        }
    }

    /// The open merge whose three numbers, ascending, come first.
    pub fn first_open(&self) -> Option<Three> {
        let mut first = None;
        self.visit_open(|three| {
            first = Some(three);
            true
        });
        first
    }

    /// Every open merge.
    pub fn all_open(&self) -> Vec<Three> {
        let mut all = Vec::new();
        self.visit_open(|three| {
            all.push(three);
            false
        });
        all
    }

    /// Makes an open merge.
    pub fn merge(&mut self, three: Three) -> Step {
        let [a, b, c] = three.map(|number| self.by_number[number].take().expect("a living cluster"));
        let joint = joint(a, b, c).expect("an open merge");
        let made = self.by_number.len();
        self.by_number.push(Some(a | b | c));
        let mut rests = three.map(|number| self.rests[number].clone()).concat();
        rests.sort_unstable();
        self.rests.push(rests);
        let mut parts = three;
        parts.sort_unstable();
        Step { made, parts, joint }
    }
}

/// The joint of three clusters that make an open merge: each two share one element, three different ones.
pub fn joint(a: Set, b: Set, c: Set) -> Option<Set> {
    let shared = [a & b, a & c, b & c];
    let joint = shared[0] | shared[1] | shared[2];
    (shared.iter().all(|&set| size(set) == 1) && size(joint) == 3).then_some(joint)
}

/// A list of merges from a sheet's initial clusters until none is open.
#[derive(Clone, PartialEq, Eq, Debug)]
pub struct Merges {
    pub steps: Vec<Step>,
    pub finals: Vec<(usize, Set)>,
    /// What the final clusters rest on, in their order.
    pub rests: Vec<Vec<usize>>,
}

impl Merges {
    /// The list that takes, of the clusters so far, the open merge that `next` names.
    fn by(sheet: &Sheet, mut next: impl FnMut(&Clusters) -> Option<Three>) -> Merges {
        let mut clusters = Clusters::initial(sheet);
        let mut steps = Vec::new();
        while let Some(three) = next(&clusters) {
            steps.push(clusters.merge(three));
        }
        Merges { steps, finals: clusters.all_living(), rests: clusters.all_rests() }
    }

    /// The engine's own plan.
    pub fn engine(sheet: &Sheet) -> Merges {
        Merges::by(sheet, Clusters::first_open)
    }

    /// A list in a random order.
    pub fn random(sheet: &Sheet, random: &mut Random) -> Merges {
        Merges::by(sheet, |clusters| {
            let open = clusters.all_open();
            (!open.is_empty()).then(|| random.pick(&open))
        })
    }

    /// The steps as a list of numbers, three a step.
    pub fn numbers(&self) -> Vec<u16> {
        self.steps.iter().flat_map(|step| step.parts.map(|part| part as u16)).collect()
    }
}
