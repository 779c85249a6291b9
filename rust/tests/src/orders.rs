//! Demand 3 through the library: a random maximal list of merges in a random order of the constraints, taken as a saved plan, beside the
//! engine's own answers of the sheet as it stood.

use std::collections::BTreeSet;

use crate::facts::Sheet;
use crate::merging::Merges;
use crate::records::NUMBERS;
use crate::run::{Hex, Run};
use crate::set::{one, Set};
use crate::{ffi, writer};

/// Room for every answer.
const ROOM: usize = 4_667;

/// What no order has an influence on: the verdict, the final clusters, the joints and the number of steps.
#[derive(PartialEq, Eq, Debug)]
struct Answer {
    verdict: String,
    clusters: BTreeSet<Set>,
    joints: BTreeSet<Set>,
    steps: usize,
}

/// Compares the engine's report of a sheet that is not over with the report, and the step records, of another list in another order.
pub fn compare(run: &mut Run, sheet: &Sheet) {
    let mut other = sheet.clone();
    run.random.shuffle(&mut other.constraints);
    let bytes = writer::bytes(&other);
    let plan = Merges::random(&other, &mut run.random).numbers();
    let mut space = vec![0; ROOM];
    let count = ffi::report(&writer::bytes(sheet), &mut space);
    let engine = of_report(&space, count);
    let count = ffi::check_plan(&bytes, &plan, &mut space);
    run.same("pattern_check_plan", &Hex(&bytes), of_report(&space, count), engine);
    let mut numbers = vec![0; ROOM];
    let count = ffi::saved_steps(&bytes, &plan, &mut numbers);
    let saved = ffi::check_plan(&bytes, &plan, &mut space);
    run.same("pattern_saved_steps", &Hex(&bytes), joints_of(&numbers, count), joints_told(&space, saved));
    run.count("orders", if plan.is_empty() { "without a merge" } else { "with merges" });
}

/// The answer in a report's lines.
fn of_report(space: &[u8], count: i32) -> Option<Answer> {
    let text = lines(space, count)?;
    let words =
        |name: &str| text.lines().filter_map(|line| line.strip_prefix(name)).map(str::to_owned).collect::<Vec<_>>();
    Some(Answer {
        verdict: words("verdict ").concat(),
        clusters: words("cluster ").iter().map(|line| elements(line, "holds", "rests")).collect(),
        joints: words("step ").iter().map(|line| elements(line, "joint", "kind")).collect(),
        steps: words("step ").len(),
    })
}

/// The joints that a report's lines tell, and how many steps.
fn joints_told(space: &[u8], count: i32) -> Option<(BTreeSet<Set>, usize)> {
    of_report(space, count).map(|answer| (answer.joints, answer.steps))
}

/// The joints of step records, and how many there are.
fn joints_of(numbers: &[u64], count: i32) -> Option<(BTreeSet<Set>, usize)> {
    let count = usize::try_from(count).ok()?;
    Some((numbers[..count].chunks(NUMBERS).map(|step| step[JOINT]).collect(), count / NUMBERS))
}

/// Which of the numbers of a step record is the joint.
const JOINT: usize = 4;

/// A report's text, where the call was not refused.
fn lines(space: &[u8], count: i32) -> Option<&str> {
    std::str::from_utf8(&space[..usize::try_from(count).ok()?]).ok()
}

/// The set of the numbers between two words of a line.
fn elements(line: &str, from: &str, to: &str) -> Set {
    let words = line.split(' ').skip_while(|&word| word != from).skip(1);
    words.take_while(|&word| word != to).map(|word| one(word.parse().expect("a number"))).sum()
}
