//! The calls that the runs share: each function of the library beside the reference's answer.

use crate::facts::{Columns, Constraint, Rule};
use crate::interface::{self, Found};
use crate::run::{outcome, Hex, Run};
use crate::set::{elements, one, size, Set};
use crate::space::Space;
use crate::verdict::judge;
use crate::{ffi, sketch, writer};

/// Compares `pattern_rewrite` on some bytes.
#[inline]
pub fn rewrite(run: &mut Run, bytes: &[u8]) {
    let given = Space::holding(bytes, &mut run.random);
    let answer = interface::rewrite(bytes);
    run.lent("pattern_rewrite", &Hex(bytes), &answer, |out| ffi::rewrite(given.held(), out));
}

/// Compares `pattern_write` on some facts.
#[inline]
pub fn write(run: &mut Run, facts: &Columns) {
    let answer = writer::write(facts);
    run.lent("pattern_write", &format_args!("{facts:?}"), &answer, |out| ffi::write(facts, out));
}

/// Compares `pattern_over` on some bytes.
#[inline]
pub fn over(run: &mut Run, bytes: &[u8]) {
    let given = Space::holding(bytes, &mut run.random);
    let answer = interface::over(bytes);
    run.lent("pattern_over", &Hex(bytes), &answer, |out| ffi::over(given.held(), out));
}

/// Compares `pattern_initial` on some bytes.
#[inline]
pub fn initial(run: &mut Run, bytes: &[u8]) {
    let given = Space::holding(bytes, &mut run.random);
    let answer = interface::initial(bytes);
    run.lent("pattern_initial", &Hex(bytes), &answer, |out| ffi::initial(given.held(), out));
}

/// Compares `pattern_longest` on a number.
#[inline]
pub fn longest(run: &mut Run, n: usize) {
    run.lent("pattern_longest", &n, &interface::longest(n), |out| ffi::longest(n, out));
}

/// Compares `pattern_card` on a number.
#[inline]
pub fn card(run: &mut Run, number: usize) {
    run.same("pattern_card", &number, ffi::card(number), interface::card(number).into());
}

/// Compares `pattern_shared` on two sets.
#[inline]
pub fn shared(run: &mut Run, a: Set, b: Set) {
    let both = elements(a).filter(|&i| b >> i & 1 == 1).map(one).sum();
    run.count("shared elements", size(both).min(3));
    run.same("pattern_shared", &format_args!("{a:x} {b:x}"), ffi::shared(a, b), both);
}

/// Compares `pattern_verdict`, `pattern_plan`, `pattern_clusters` and `pattern_rests` on some bytes.
#[inline]
pub fn plan(run: &mut Run, bytes: &[u8], found: &Found) {
    let given = Space::holding(bytes, &mut run.random);
    let verdict = found.verdict();
    run.count("pattern_verdict", outcome(&verdict));
    run.same("pattern_verdict", &Hex(bytes), ffi::verdict(given.held()), number(verdict));
    run.lent("pattern_plan", &Hex(bytes), &found.plan(), |out| ffi::plan(given.held(), out));
    run.lent("pattern_clusters", &Hex(bytes), &found.clusters(), |out| ffi::clusters(given.held(), out));
    run.lent("pattern_rests", &Hex(bytes), &found.rests(), |out| ffi::rests(given.held(), out));
}

/// A verdict, or minus the rule.
fn number(verdict: Result<u8, Rule>) -> i32 {
    verdict.map_or_else(|rule| -i32::from(rule), i32::from)
}

/// Compares `pattern_chain` on some bytes, from one element to another; the answer.
#[inline]
pub fn chain(run: &mut Run, bytes: &[u8], found: &Found, from: usize, to: usize) -> Result<Vec<u16>, Rule> {
    let given = Space::holding(bytes, &mut run.random);
    let answer = found.chain(from, to);
    let input = format!("{} from {from} to {to}", Hex(bytes));
    run.lent("pattern_chain", &input, &answer, |out| ffi::chain(given.held(), from, to, out));
    answer
}

/// Compares `pattern_report` on some bytes.
#[inline]
pub fn report(run: &mut Run, bytes: &[u8], found: &Found) {
    let given = Space::holding(bytes, &mut run.random);
    run.lent("pattern_report", &Hex(bytes), &found.report(), |out| ffi::report(given.held(), out));
}

/// Compares `pattern_part_steps`, `pattern_part_bytes` and `pattern_part` on some bytes and a cluster's number.
#[inline]
pub fn part(run: &mut Run, bytes: &[u8], found: &Found, number: usize) {
    let given = Space::holding(bytes, &mut run.random);
    let answer = found.part(number);
    let input = format!("{}, number {number}", Hex(bytes));
    let count = |items: Result<usize, Rule>| items.map_or_else(|rule| -i32::from(rule), |count| count as i32);
    let steps = answer.as_ref().map(|(steps, _)| *steps).map_err(|&rule| rule);
    let lines = answer.map(|(_, lines)| lines);
    let length = lines.as_ref().map(Vec::len).map_err(|&rule| rule);
    run.same("pattern_part_steps", &input, ffi::part_steps(given.held(), number), count(steps));
    run.same("pattern_part_bytes", &input, ffi::part_bytes(given.held(), number), count(length));
    run.lent("pattern_part", &input, &lines, |out| ffi::part(given.held(), number, out));
}

/// Compares `pattern_missing` on some bytes and a price list.
#[inline]
pub fn missing(run: &mut Run, bytes: &[u8], prices: &[u16]) {
    let (given, listed) = (Space::holding(bytes, &mut run.random), Space::holding(prices, &mut run.random));
    let answer = interface::missing(bytes, prices);
    let input = format!("{}, prices {prices:?}", Hex(bytes));
    run.lent("pattern_missing", &input, &answer, |out| ffi::missing(given.held(), listed.held(), out));
}

/// Compares `pattern_check_plan` on some bytes and a plan; the rule that must come, where one must.
#[inline]
pub fn check_plan(run: &mut Run, bytes: &[u8], plan: &[u16]) -> Option<Rule> {
    let (given, saved) = (Space::holding(bytes, &mut run.random), Space::holding(plan, &mut run.random));
    let answer = interface::check_plan(bytes, plan);
    let input = format!("{}, plan {plan:?}", Hex(bytes));
    run.lent("pattern_check_plan", &input, &answer, |out| ffi::check_plan(given.held(), saved.held(), out));
    answer.err()
}

/// Compares `pattern_steps` on some bytes.
#[inline]
pub fn steps(run: &mut Run, bytes: &[u8], found: &Found) {
    let given = Space::holding(bytes, &mut run.random);
    run.lent("pattern_steps", &Hex(bytes), &found.steps(), |out| ffi::steps(given.held(), out));
}

/// Compares `pattern_saved_steps` on some bytes and a plan.
#[inline]
pub fn saved_steps(run: &mut Run, bytes: &[u8], plan: &[u16]) {
    let (given, saved) = (Space::holding(bytes, &mut run.random), Space::holding(plan, &mut run.random));
    let answer = interface::saved_steps(bytes, plan);
    let input = format!("{}, plan {plan:?}", Hex(bytes));
    run.lent("pattern_saved_steps", &input, &answer, |out| ffi::saved_steps(given.held(), saved.held(), out));
}

/// Compares `pattern_hold` on some bytes.
#[inline]
pub fn hold(run: &mut Run, bytes: &[u8]) {
    let given = Space::holding(bytes, &mut run.random);
    let answer = interface::hold(bytes);
    run.lent("pattern_hold", &Hex(bytes), &answer, |out| ffi::hold(given.held(), out));
}

/// Compares `pattern_ask` on a record.
#[inline]
pub fn ask(run: &mut Run, record: &[u8], more: &Constraint) {
    let given = Space::holding(record, &mut run.random);
    let before = given.cells().to_vec();
    let answer = sketch::ask(record, more);
    let input = format!("{}, {more:?}", Hex(record));
    run.count("pattern_ask", outcome(&answer));
    run.same("pattern_ask", &input, (ffi::ask(given.held(), more), given.cells()), (number(answer), &before));
}

/// Compares `pattern_place` on a record with its guards, and gives the record as it is left.
#[inline]
pub fn place(run: &mut Run, record: &[u8], more: &Constraint, held: usize) -> Vec<u8> {
    let mut space = Space::holding(record, &mut run.random);
    let placed = sketch::place(record, more, held);
    let verdict = placed.as_ref().map(|next| crate::verdict::verdict(next, &judge(next)) as u8);
    let (wrote, cells) = space.expected(&placed.as_ref().map(sketch::record).map_err(|&rule| rule));
    let wanted = if wrote < 0 { wrote } else { number(verdict.map_err(|&rule| rule)) };
    let input = format!("{}, {more:?}, {held} held", Hex(record));
    let answer = if wrote == -17 { Err(17) } else { placed.as_ref().map_err(|&rule| rule) };
    run.count("pattern_place", outcome(&answer));
    let got = ffi::place(space.lent(), more, held);
    run.same("pattern_place", &input, (got, space.cells()), (wanted, &cells));
    space.held().to_vec()
}

/// Compares `pattern_held` on a record.
#[inline]
pub fn held(run: &mut Run, record: &[u8]) {
    let given = Space::holding(record, &mut run.random);
    let answer = sketch::in_record(record).map(|sheet| writer::bytes(&sheet));
    run.lent("pattern_held", &Hex(record), &answer, |out| ffi::held(given.held(), out));
}

/// Compares `pattern_held_count`, `pattern_held_clusters` and `pattern_held_rests` on a record.
#[inline]
pub fn told_of_held(run: &mut Run, record: &[u8]) {
    let given = Space::holding(record, &mut run.random);
    let found = Found::held(record);
    let count = found.accepted().map(|(sheet, _)| sheet.e() as u8);
    run.count("pattern_held_count", outcome(&count));
    run.same("pattern_held_count", &Hex(record), ffi::held_count(given.held()), number(count));
    run.lent("pattern_held_clusters", &Hex(record), &found.clusters(), |out| ffi::held_clusters(given.held(), out));
    run.lent("pattern_held_rests", &Hex(record), &found.rests(), |out| ffi::held_rests(given.held(), out));
}

/// Compares `pattern_open` on some bytes and a number of steps; the answer.
#[inline]
pub fn open(run: &mut Run, bytes: &[u8], found: &Found, count: usize) -> Result<Vec<u16>, Rule> {
    let given = Space::holding(bytes, &mut run.random);
    let answer = found.open(count);
    let input = format!("{} after {count}", Hex(bytes));
    run.lent("pattern_open", &input, &answer, |out| ffi::open(given.held(), count, out));
    answer
}
