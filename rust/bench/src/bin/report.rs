//! The whole report, from a sheet's bytes to the report's. The yardstick has no column: its cluster lines do not say what a cluster rests on.

use pattern_bench::timing::Contender;
use pattern_bench::{cases, plain, table};
use pattern_tests::ffi;

fn main() {
    let mut contenders = [
        Contender::lending::<_, 5000>("proved", ffi::report),
        Contender::lending::<_, 5000>("plain Rust", plain::report::report),
    ];
    table::print("report", &cases::for_plan(), &mut contenders);
    table::print("report, PF02", &cases::for_round(), &mut contenders);
}
