//! The steps of the last cluster that a plan makes, written and measured, beside the whole report of the same sheet.

use std::collections::HashMap;

use pattern_bench::cases::{self, Case};
use pattern_bench::table;
use pattern_bench::timing::Contender;
use pattern_tests::{ffi, layout};

/// The number of each sheet's last cluster, by where its bytes stand.
type Numbers = HashMap<*const u8, usize>;

fn main() {
    let stepped = |case: &Case| case.pool.iter().all(|bytes| last(bytes).is_some());
    let cases: Vec<Case> = cases::for_plan().into_iter().filter(stepped).collect();
    let sheets = || cases.iter().flat_map(|case| &case.pool);
    let numbers: Numbers = sheets().filter_map(|bytes| Some((bytes.as_ptr(), last(bytes)?))).collect();
    let mut contenders = vec![
        with("part", &numbers, ffi::part),
        with("report", &numbers, |bytes, _, out| ffi::report(bytes, out)),
        with("part_bytes", &numbers, |bytes, number, _| ffi::part_bytes(bytes, number)),
    ];
    table::print("the last cluster's steps", &cases, &mut contenders);
}

/// The number of the last cluster, where a plan has a step.
fn last(bytes: &[u8]) -> Option<usize> {
    let steps = ffi::plan(bytes, &mut [0; 186]) as usize / 3;
    let constraints = usize::from(bytes[layout::count_at(bytes)]);
    (steps > 0).then(|| constraints + steps - 1)
}

/// A contender with lent bytes of its own; it answers only that it is not refused.
fn with(name: &'static str, numbers: &Numbers, call: fn(&[u8], usize, &mut [u8]) -> i32) -> Contender {
    let numbers = numbers.clone();
    let mut out = [0; 4096];
    Contender::new(name, move |bytes| i32::from(call(bytes, numbers[&bytes.as_ptr()], &mut out) >= 0))
}
