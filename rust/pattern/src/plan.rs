//! The plan of a sheet, its steps and clusters.

use crate::answer::written;
use crate::c::{self, len, Length};
use crate::{Rule, MOST_STEPS};

/// The plan of a sheet: three cluster numbers a step, ascending. Constraint i is cluster i; step k makes cluster e + k.
///
/// ```
/// # let mut space = [0; pattern::MOST_BYTES];
/// # let constraints = [(0, 1), (0, 2), (1, 2)].map(|(a, b)| pattern::Constraint::sized(a, b, 300));
/// # let facts = pattern::Facts::pf01(&[pattern::Kind::Point; 3], &constraints);
/// # let sheet = pattern::write(&facts, &mut space)?;
/// let mut space = [0; pattern::MOST_PLAN];
/// assert_eq!(pattern::plan(sheet, &mut space)?, [0, 1, 2]);
///
/// let mut space = [0; pattern::MOST_CLUSTERS];
/// assert_eq!(pattern::clusters(sheet, &mut space)?, [0b111]);
///
/// let mut space = [0; pattern::MOST_RESTS];
/// assert_eq!(pattern::rests(sheet, &mut space)?, [0b111, 0]);
/// # Ok::<(), pattern::Rule>(())
/// ```
pub fn plan<'a>(sheet: &[u8], out: &'a mut [u16]) -> Result<&'a [u16], Rule> {
    // SAFETY: each list is a live slice of its length, and `out` is borrowed alone.
    let answer = unsafe { c::pattern_plan(sheet.as_ptr(), len(sheet), out.as_mut_ptr(), len(out)) };
    written(answer, out)
}

/// The merges that are open after so many steps of a sheet's plan, or after all: three cluster numbers each, ascending, by
/// the lowest element that their clusters share, then by the numbers.
///
/// ```
/// # let mut space = [0; pattern::MOST_BYTES];
/// # let pairs = [(1, 2), (1, 3), (2, 3), (0, 1), (0, 2)];
/// # let constraints = pairs.map(|(a, b)| pattern::Constraint::sized(a, b, 300));
/// # let facts = pattern::Facts::pf01(&[pattern::Kind::Point; 4], &constraints);
/// # let sheet = pattern::write(&facts, &mut space)?;
/// // two triangles on the side between 1 and 2: that with point 0 comes first
/// let mut space = [0; pattern::MOST_OPEN];
/// assert_eq!(pattern::open(sheet, 0, &mut space)?, [0, 3, 4, 0, 1, 2]);
/// // the plan makes 0 1 2 the cluster 5
/// assert_eq!(pattern::open(sheet, 1, &mut space)?, [3, 4, 5]);
/// assert_eq!(pattern::open(sheet, 2, &mut space)?, []);
/// # Ok::<(), pattern::Rule>(())
/// ```
pub fn open<'a>(sheet: &[u8], steps: usize, out: &'a mut [u16]) -> Result<&'a [u16], Rule> {
    // SAFETY: each list is a live slice of its length, and `out` is borrowed alone.
    let answer = unsafe { c::pattern_open(sheet.as_ptr(), len(sheet), steps as Length, out.as_mut_ptr(), len(out)) };
    written(answer, out)
}

/// The kind of a step's joint: how many of its elements are points and how many lines.
#[derive(Clone, Copy, PartialEq, Eq, Debug)]
pub enum JointKind {
    Ppp,
    Ppl,
    Pll,
    Lll,
}

/// A step of a plan: what its line in the report gives.
#[derive(Clone, Copy, PartialEq, Eq, Debug)]
pub struct Step {
    /// The number of the cluster made.
    pub made: usize,
    /// The numbers of its parts, ascending.
    pub parts: [usize; 3],
    /// The elements that these share: element i as bit i.
    pub joint: u64,
    pub kind: JointKind,
    /// How many placements there are, where that is known.
    pub ways: Option<u8>,
}

/// How many numbers a step has in a list of steps.
const STEP: usize = 7;

impl Step {
    /// The step of its numbers.
    fn of(numbers: &[u64]) -> Step {
        let [made, i, j, k, joint, lines, ways]: [u64; STEP] = numbers.try_into().expect("a step has seven numbers");
        let kind = [JointKind::Ppp, JointKind::Ppl, JointKind::Pll, JointKind::Lll][lines as usize];
        Step {
            made: made as usize,
            parts: [i, j, k].map(|part| part as usize),
            joint,
            kind,
            ways: u8::try_from(ways).ok(),
        }
    }
}

/// The plan of a sheet as steps, each with what its line in the report gives. An over sheet is refused.
///
/// ```
/// use pattern::{JointKind, Rule, Step};
///
/// # let mut space = [0; pattern::MOST_BYTES];
/// # let constraints = [(0, 1), (0, 2), (1, 2)].map(|(a, b)| pattern::Constraint::sized(a, b, 300));
/// # let facts = pattern::Facts::pf01(&[pattern::Kind::Point; 3], &constraints);
/// # let sheet = pattern::write(&facts, &mut space)?;
/// let step = Step { made: 3, parts: [0, 1, 2], joint: 0b111, kind: JointKind::Ppp, ways: Some(2) };
/// assert_eq!(pattern::steps(sheet)?, [step]);
/// assert_eq!(pattern::saved_steps(sheet, &[2, 0, 1])?, [step]);
/// assert_eq!(pattern::saved_steps(sheet, &[]), Err(Rule(16)));
/// # Ok::<(), Rule>(())
/// ```
pub fn steps(sheet: &[u8]) -> Result<Vec<Step>, Rule> {
    let mut out = [0; STEP * MOST_STEPS];
    // SAFETY: each list is a live slice of its length, and `out` is borrowed alone.
    let answer = unsafe { c::pattern_steps(sheet.as_ptr(), len(sheet), out.as_mut_ptr(), len(&out)) };
    Ok(written(answer, &out)?.chunks(STEP).map(Step::of).collect())
}

/// The steps of a plan that was saved, in the saved order.
pub fn saved_steps(sheet: &[u8], plan: &[u16]) -> Result<Vec<Step>, Rule> {
    let mut out = [0; STEP * MOST_STEPS];
    // SAFETY: each list is a live slice of its length, and `out` is borrowed alone.
    let answer = unsafe {
        c::pattern_saved_steps(sheet.as_ptr(), len(sheet), plan.as_ptr(), len(plan), out.as_mut_ptr(), len(&out))
    };
    Ok(written(answer, &out)?.chunks(STEP).map(Step::of).collect())
}

/// The clusters that a plan starts from, by number: the two ends of each constraint, element i as bit i; of an over sheet too.
///
/// ```
/// # use pattern::{Constraint, Facts, Kind};
/// # let mut space = [0; pattern::MOST_BYTES];
/// # let constraints = [(0, 1), (0, 2), (1, 2)].map(|(a, b)| Constraint::sized(a, b, 300));
/// # let sheet = pattern::write(&Facts::pf01(&[Kind::Point; 3], &constraints), &mut space)?;
/// let mut space = [0; pattern::MOST_CONSTRAINTS];
/// let sets = pattern::initial(sheet, &mut space)?;
/// assert_eq!(sets, [0b011, 0b101, 0b110]);
/// assert_eq!(pattern::shared(sets[0], sets[1]), 0b001);
/// # Ok::<(), pattern::Rule>(())
/// ```
pub fn initial<'a>(sheet: &[u8], out: &'a mut [u64]) -> Result<&'a [u64], Rule> {
    // SAFETY: each list is a live slice of its length, and `out` is borrowed alone.
    let answer = unsafe { c::pattern_initial(sheet.as_ptr(), len(sheet), out.as_mut_ptr(), len(out)) };
    written(answer, out)
}

/// All that two sets of elements have in common, element i as bit i.
///
/// ```
/// // two parts that share the points 1 and 2
/// assert_eq!(pattern::shared(0b0111, 0b1110), 0b0110);
/// ```
pub fn shared(a: u64, b: u64) -> u64 {
    // SAFETY: the call takes numbers alone.
    unsafe { c::pattern_shared(a, b) }
}

/// The clusters that are left when no merge is open, by number: element i as bit i.
pub fn clusters<'a>(sheet: &[u8], out: &'a mut [u64]) -> Result<&'a [u64], Rule> {
    // SAFETY: each list is a live slice of its length, and `out` is borrowed alone.
    let answer = unsafe { c::pattern_clusters(sheet.as_ptr(), len(sheet), out.as_mut_ptr(), len(out)) };
    written(answer, out)
}

/// What the clusters that are left rest on, in the same order, two words a cluster: constraint i as bit i of the first, constraint 64 + i as
/// bit i of the second.
pub fn rests<'a>(sheet: &[u8], out: &'a mut [u64]) -> Result<&'a [u64], Rule> {
    // SAFETY: each list is a live slice of its length, and `out` is borrowed alone.
    let answer = unsafe { c::pattern_rests(sheet.as_ptr(), len(sheet), out.as_mut_ptr(), len(out)) };
    written(answer, out)
}

/// What `pattern_chain` answers where no run leads from the one element to the other.
const NO_RUN: i32 = -100;

/// The chain from one element to another: the numbers of the fewest final clusters of which the first holds the start,
/// each shares an element with the next, and the last holds the end; first among such runs place by place. `None` where
/// the two are not connected.
///
/// ```
/// # let mut space = [0; pattern::MOST_BYTES];
/// # let constraints = [(0, 1), (1, 2), (3, 4)].map(|(a, b)| pattern::Constraint::sized(a, b, 300));
/// # let facts = pattern::Facts::pf01(&[pattern::Kind::Point; 5], &constraints);
/// # let sheet = pattern::write(&facts, &mut space)?;
/// // distances between 0 and 1, 1 and 2, 3 and 4
/// let mut space = [0; pattern::MOST_CHAIN];
/// assert_eq!(pattern::chain(sheet, 0, 2, &mut space)?, Some(&[0, 1][..]));
/// assert_eq!(pattern::chain(sheet, 0, 4, &mut space)?, None);
/// assert_eq!(pattern::chain(sheet, 0, 5, &mut space), Err(pattern::Rule(25)));
/// # Ok::<(), pattern::Rule>(())
/// ```
pub fn chain<'a>(sheet: &[u8], from: usize, to: usize, out: &'a mut [u16]) -> Result<Option<&'a [u16]>, Rule> {
    // SAFETY: each list is a live slice of its length, and `out` is borrowed alone.
    let answer = unsafe {
        c::pattern_chain(sheet.as_ptr(), len(sheet), from as Length, to as Length, out.as_mut_ptr(), len(out))
    };
    if answer == NO_RUN {
        Ok(None)
    } else {
        written(answer, out).map(Some)
    }
}
