//! The engine's plan and the verdict, reading and the search for an over set included.

use pattern_bench::timing::Contender;
use pattern_bench::{cases, plain, table};
use pattern_tests::ffi;

fn main() {
    let cases = cases::for_plan();
    let mut contenders = vec![
        Contender::lending::<_, 256>("proved", ffi::plan),
        Contender::lending::<_, 256>("plain Rust", plain::plan::plan),
    ];
    #[cfg(feature = "yardstick")]
    contenders.push(Contender::lending::<_, 256>("yardstick", pattern_bench::yardstick::plan));
    table::print("plan", &cases, &mut contenders);
    let mut contenders =
        vec![Contender::new("proved", ffi::verdict), Contender::new("plain Rust", plain::plan::verdict)];
    #[cfg(feature = "yardstick")]
    contenders.push(Contender::new("yardstick", pattern_bench::yardstick::verdict));
    table::print("verdict", &cases, &mut contenders);
    table::print("verdict of five points", &cases::five_points(), &mut contenders);
    let mut contenders = [Contender::new("proved", ffi::verdict), Contender::new("plain Rust", plain::plan::verdict)];
    table::print("verdict, PF02", &cases::for_round(), &mut contenders);
    table::print("step records, beside the plan alone", &cases, &mut [steps(), plan_alone()]);
}

/// The records of the steps, seven numbers each; it answers their count.
fn steps() -> Contender {
    let mut out = [0; 512];
    Contender::new("records", move |bytes| ffi::steps(bytes, &mut out).max(0) / 7)
}

/// The plan, three numbers a step; it answers the count of steps.
fn plan_alone() -> Contender {
    let mut out = [0; 256];
    Contender::new("plan", move |bytes| ffi::plan(bytes, &mut out) / 3)
}
