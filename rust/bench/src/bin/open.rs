//! The merges that are open, before the first step, halfway and after all, beside the plan of the same sheet.

use std::collections::HashMap;

use pattern_bench::cases::{self, Case};
use pattern_bench::table;
use pattern_bench::timing::Contender;
use pattern_tests::ffi;

/// How many steps each sheet's plan has, by where its bytes stand.
type Steps = HashMap<*const u8, usize>;

/// A call with a number of steps and lent numbers.
type Call = fn(&[u8], usize, &mut [u16]) -> i32;

/// After how many of so many steps.
type Count = fn(usize) -> usize;

fn main() {
    // an over sheet is refused by 11
    let listed = |case: &Case| case.pool.iter().all(|bytes| ffi::open(bytes, 0, &mut [0; 186]) >= 0);
    let cases: Vec<Case> = cases::for_chain().into_iter().filter(listed).collect();
    let sheets = || cases.iter().flat_map(|case| &case.pool);
    let steps: Steps = sheets().map(|bytes| (bytes.as_ptr(), ffi::plan(bytes, &mut [0; 186]) as usize / 3)).collect();
    let after: [(&str, Count); 3] = [("none", |_| 0), ("half", |steps| steps / 2), ("all", |_| usize::MAX)];
    for (title, count) in after {
        let open = with("open", &steps, count, ffi::open);
        let plan = with("plan", &steps, count, |bytes, _, out| ffi::plan(bytes, out));
        table::print(&format!("open, after {title} of the steps"), &cases, &mut [open, plan]);
    }
}

/// A contender with lent numbers of its own; it answers only that it is not refused.
fn with(name: &'static str, steps: &Steps, count: Count, call: Call) -> Contender {
    let steps = steps.clone();
    let mut out = [0; 186];
    Contender::new(name, move |bytes| i32::from(call(bytes, count(steps[&bytes.as_ptr()]), &mut out) >= 0))
}
