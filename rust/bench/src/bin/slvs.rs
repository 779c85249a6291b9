//! The whole report beside a solve by SolveSpace's libslvs, on the same sheets of 64 points.

use pattern_bench::cases;
#[cfg(feature = "slvs")]
use pattern_bench::slvs::solve_time;
use pattern_bench::timing::{lowest_medians, Contender, SAMPLES, TURNS};
#[cfg(feature = "slvs")]
use pattern_slvs::solver::Drawing;
use pattern_tests::facts::MOST_ELEMENTS;
use pattern_tests::ffi;

fn main() {
    println!("slvs: ns a call; of the report the lowest of {TURNS} medians of {SAMPLES} samples");
    heading();
    let mut out = [0; 5000];
    let mut proved = [Contender::new("proved", move |bytes| ffi::report(bytes, &mut out))];
    for case in cases::for_plan() {
        if case.n == MOST_ELEMENTS && case.pool.iter().all(|bytes| only_points(bytes)) {
            let report = lowest_medians(&mut proved, &case.pool)[0];
            print!("{:<34}{:>4}{:>5}{report:>11.0}", case.name, case.n, case.e);
            beside(&case.pool, report);
        }
    }
    println!();
}

/// Whether a sheet of 64 elements has no line.
fn only_points(bytes: &[u8]) -> bool {
    bytes[5..13] == [0; 8]
}

/// The column heads.
fn heading() {
    print!("{:<34}{:>4}{:>5}{:>11}", "sheets", "n", "e", "proved");
    println!("{}", if cfg!(feature = "slvs") { "      exact  times      rough  times" } else { "" });
}

/// Ends a row: libslvs' processor time, and how many times the report's time that is.
#[cfg(feature = "slvs")]
fn beside(pool: &[Vec<u8>], report: f64) {
    for drawing in [Drawing::Exact, Drawing::Rough] {
        let solve = solve_time(pool, drawing);
        print!("{solve:>11.0}{:>7.0}", solve / report);
    }
    println!();
}

/// Ends a row without libslvs.
#[cfg(not(feature = "slvs"))]
fn beside(_: &[Vec<u8>], _: f64) {
    println!();
}
