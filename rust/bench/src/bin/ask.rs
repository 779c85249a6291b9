//! Asking what the last constraint of a sheet does, with the others held in a record, beside the verdict of the same sheet.

use pattern_bench::cases::{self, Case};
use pattern_bench::timing::Contender;
use pattern_bench::{held, table};
use pattern_tests::ffi;

fn main() {
    let taken: Vec<Case> = cases::for_plan().iter().filter_map(|case| held::with_last(case, true)).collect();
    let verdict = Contender::new("verdict", |bytes| ffi::verdict(held::sheet(bytes)));
    table::print("ask, taken", &taken, &mut [ask(), verdict]);
    // what makes a sketch over is refused by 11; beside it the verdicts of the sheet with it and of the sketch, one of which it takes to know that
    let over: Vec<Case> = cases::for_plan().iter().filter_map(|case| held::with_last(case, false)).collect();
    let with = Contender::new("verdict", |bytes| ffi::verdict(held::sheet(bytes)).min(0) - 11);
    let without = Contender::new("without it", |bytes| ffi::verdict(held::without(bytes)).min(0) - 11);
    table::print("ask, refused by 11", &over, &mut [ask(), with, without]);
}

/// Asks of the record at the front.
fn ask() -> Contender {
    Contender::new("ask", |bytes| ffi::ask(held::record(bytes), &held::last(bytes)))
}
