//! Reports: of a sheet, of one cluster, of a plan that was saved.

use crate::answer::{counted, written};
use crate::c::{self, len, Length};
use crate::Rule;

/// The report of a sheet.
///
/// ```
/// let mut space = [0; pattern::MOST_REPORT];
/// assert_eq!(pattern::report(b"PF01\x02\0\0", &mut space)?, "verdict under\nelements 2 constraints 0\n");
/// # Ok::<(), pattern::Rule>(())
/// ```
pub fn report<'a>(sheet: &[u8], out: &'a mut [u8]) -> Result<&'a str, Rule> {
    // SAFETY: each list is a live slice of its length, and `out` is borrowed alone.
    let answer = unsafe { c::pattern_report(sheet.as_ptr(), len(sheet), out.as_mut_ptr(), len(out)) };
    written(answer, out).map(text)
}

/// The steps of one cluster of the plan, as the report's lines: each part's steps before the step that uses it, lowest part
/// first; none of a constraint, which is a cluster too. The number is that of any cluster ever made.
///
/// ```
/// use pattern::Rule;
///
/// # let mut space = [0; pattern::MOST_BYTES];
/// # let pairs = [(0, 1), (0, 2), (1, 2), (1, 3), (2, 3)];
/// # let constraints = pairs.map(|(a, b)| pattern::Constraint::sized(a, b, 300));
/// # let facts = pattern::Facts::pf01(&[pattern::Kind::Point; 4], &constraints);
/// # let sheet = pattern::write(&facts, &mut space)?;
/// // four points and five distances: cluster 5 is a triangle, cluster 6 all four
/// assert_eq!(pattern::part_steps(sheet, 5)?, 1);
/// let mut space = vec![0; pattern::part_bytes(sheet, 5)?];
/// assert_eq!(pattern::part(sheet, 5, &mut space)?, "step 5 from 0 1 2 joint 0 1 2 kind ppp ways 2\n");
/// assert_eq!(pattern::part_steps(sheet, 6)?, 2);
/// assert_eq!(pattern::part_steps(sheet, 7), Err(Rule(26)));
/// # Ok::<(), Rule>(())
/// ```
pub fn part<'a>(sheet: &[u8], number: usize, out: &'a mut [u8]) -> Result<&'a str, Rule> {
    // SAFETY: each list is a live slice of its length, and `out` is borrowed alone.
    let answer = unsafe { c::pattern_part(sheet.as_ptr(), len(sheet), number as Length, out.as_mut_ptr(), len(out)) };
    written(answer, out).map(text)
}

/// How many steps one cluster of the plan has.
pub fn part_steps(sheet: &[u8], number: usize) -> Result<usize, Rule> {
    // SAFETY: the list is a live slice of its length.
    counted(unsafe { c::pattern_part_steps(sheet.as_ptr(), len(sheet), number as Length) })
}

/// How many bytes the lines of those steps have: what [`part`] writes.
pub fn part_bytes(sheet: &[u8], number: usize) -> Result<usize, Rule> {
    // SAFETY: the list is a live slice of its length.
    counted(unsafe { c::pattern_part_bytes(sheet.as_ptr(), len(sheet), number as Length) })
}

/// The report for a plan that was saved: its steps in the saved order.
///
/// ```
/// use pattern::Rule;
///
/// # let mut space = [0; pattern::MOST_BYTES];
/// # let constraints = [(0, 1), (0, 2), (1, 2)].map(|(a, b)| pattern::Constraint::sized(a, b, 300));
/// # let facts = pattern::Facts::pf01(&[pattern::Kind::Point; 3], &constraints);
/// # let sheet = pattern::write(&facts, &mut space)?;
/// let mut space = [0; pattern::MOST_REPORT];
/// assert!(pattern::check_plan(sheet, &[2, 0, 1], &mut space)?.contains("step 3 from 0 1 2"));
/// assert_eq!(pattern::check_plan(sheet, &[], &mut space), Err(Rule(16)));
/// # Ok::<(), Rule>(())
/// ```
pub fn check_plan<'a>(sheet: &[u8], plan: &[u16], out: &'a mut [u8]) -> Result<&'a str, Rule> {
    // SAFETY: each list is a live slice of its length, and `out` is borrowed alone.
    let answer = unsafe {
        c::pattern_check_plan(sheet.as_ptr(), len(sheet), plan.as_ptr(), len(plan), out.as_mut_ptr(), len(out))
    };
    written(answer, out).map(text)
}

/// A report's bytes are ASCII.
fn text(report: &[u8]) -> &str {
    std::str::from_utf8(report).expect("a report is ASCII")
}
