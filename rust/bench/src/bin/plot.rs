//! Times the plan and the report of five shapes at n 4 to 64 and draws them: plot FILE.

use pattern_bench::cases::{self, Case};
use pattern_bench::picture::{svg, Line, Panel};
use pattern_bench::timing::{lowest_of_rounds, Contender};
use pattern_bench::words;
use pattern_tests::ffi;

/// The element counts that are timed.
const SIZES: [usize; 10] = [4, 8, 12, 16, 24, 32, 40, 48, 56, 64];

fn main() {
    let file = std::env::args().nth(1).expect("the file to write");
    let cases: Vec<Case> = SIZES.into_iter().flat_map(cases::for_picture).collect();
    let mut calls =
        [Contender::lending::<_, 256>("plan", ffi::plan), Contender::lending::<_, 5000>("report", ffi::report)];
    let times = lowest_of_rounds(&mut calls, &cases);
    let titles = ["The plan", "The report: the plan and its text"];
    let panels: Vec<Panel> =
        titles.iter().enumerate().map(|(call, title)| Panel { title, lines: lines(&cases, &times, call) }).collect();
    std::fs::write(&file, svg("Time of a call of the proved library", &panels)).expect("the picture can be written");
    println!("{file}");
}

/// The line of each shape, by one call's times in ns.
fn lines(cases: &[Case], times: &[Vec<f64>], call: usize) -> Vec<Line> {
    let shapes = cases.len() / SIZES.len();
    let line = |shape: usize| {
        let own = cases.iter().zip(times).skip(shape).step_by(shapes);
        let times = own.map(|(case, times)| (case.n, times[call] / 1000.0)).collect();
        Line { words: words::of(&cases[shape].name), times }
    };
    (0..shapes).map(line).collect()
}
