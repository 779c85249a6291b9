//! The one table: each call on each shape, the proved library beside plain Rust.

use std::collections::HashMap;

use pattern_bench::cases::{self, Case};
use pattern_bench::summary::{self, Group};
use pattern_bench::timing::Contender;
use pattern_bench::{held, plain};
use pattern_tests::facts::Constraint;
use pattern_tests::ffi;

/// A call with a saved plan and lent bytes.
type CheckPlan = fn(&[u8], &[u16], &mut [u8]) -> i32;

/// The most bytes of a record.
const RECORD: usize = 1155;

fn main() {
    let verdict = [Contender::new("ours", ffi::verdict), Contender::new("plain Rust", plain::plan::verdict)];
    let mut verdicts = with_round();
    verdicts.extend(cases::five_points());
    summary::print(vec![
        Group::lending::<u8, 2048>("rewrite", rewritten(), ffi::rewrite, plain::sheet::rewrite),
        Group::lending::<u64, 2>("over", cases::for_over(), ffi::over, plain::over::over),
        Group { call: "verdict", cases: verdicts, contenders: verdict },
        Group::lending::<u16, 256>("plan", cases::for_plan(), ffi::plan, plain::plan::plan),
        Group::lending::<u8, 5000>("report", with_round(), ffi::report, plain::report::report),
        check_plan(),
        Group { call: "ask", cases: asked(true), contenders: ask() },
        Group { call: "ask, refused", cases: asked(false), contenders: ask() },
        Group { call: "place", cases: asked(true), contenders: place() },
    ]);
}

/// Sheets of both openings for reading and writing.
fn rewritten() -> Vec<Case> {
    cases::for_sheet().into_iter().chain(cases::for_round_sheet()).collect()
}

/// Sheets of both openings for verdicts and reports.
fn with_round() -> Vec<Case> {
    cases::for_plan().into_iter().chain(cases::for_round()).collect()
}

/// The check of the engine's own plan, of sheets that are not over.
fn check_plan() -> Group {
    let sound = |case: &Case| case.pool.iter().all(|bytes| ffi::verdict(bytes) > 0);
    let cases: Vec<Case> = cases::for_plan().into_iter().filter(sound).collect();
    let with = |name, check: CheckPlan| {
        let sheets = cases.iter().flat_map(|case| &case.pool);
        let plans: HashMap<*const u8, Vec<u16>> = sheets.map(|bytes| (bytes.as_ptr(), plan(bytes))).collect();
        let mut out = [0; 5000];
        Contender::new(name, move |bytes| check(bytes, &plans[&bytes.as_ptr()], &mut out))
    };
    let contenders = [with("ours", ffi::check_plan), with("plain Rust", plain::report::check_plan)];
    Group { call: "check_plan", cases, contenders }
}

/// The engine's plan of a sheet.
fn plan(bytes: &[u8]) -> Vec<u16> {
    let mut out = [0; 186];
    let count = ffi::plan(bytes, &mut out);
    out[..count as usize].to_vec()
}

/// Records with one constraint more, which is taken or makes the sketch over.
fn asked(taken: bool) -> Vec<Case> {
    cases::for_plan().iter().filter_map(|case| held::with_last(case, taken)).collect()
}

/// Asking.
fn ask() -> [Contender; 2] {
    [
        Contender::new("ours", |bytes| ffi::ask(held::record(bytes), &held::last(bytes))),
        Contender::new("plain Rust", |bytes| plain::sketch::ask(held::record(bytes), &plainly(held::last(bytes)))),
    ]
}

/// Placing in a fresh copy of the record.
fn place() -> [Contender; 2] {
    let with = |name, place: fn(&mut [u8], Constraint, usize) -> i32| {
        let mut space = [0; RECORD];
        Contender::new(name, move |bytes| {
            let record = held::record(bytes);
            space[..record.len()].copy_from_slice(record);
            place(&mut space, held::last(bytes), held::count(bytes))
        })
    };
    [
        with("ours", |record, more, held| ffi::place(record, &more, held)),
        with("plain Rust", |record, more, held| plain::sketch::place(record, &plainly(more), held)),
    ]
}

/// A constraint as the plain side has it.
fn plainly(Constraint { first, second, map, size }: Constraint) -> plain::sheet::Constraint {
    plain::sheet::Constraint { first, second, map, size }
}
