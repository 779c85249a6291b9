//! Each entry of the card of five points beside the engine, and the reference, on the real sheet of that number in several orders; the same with one
//! point a line, which is not on the card, and with some points circles that touch.

use std::process::ExitCode;

use pattern_tests::facts::{Constraint, Kind, Opening, Sheet};
use pattern_tests::interface::Found;
use pattern_tests::run::Run;
use pattern_tests::verdict::{judge, verdict};
use pattern_tests::{calls, ffi, writer};

const POINTS: u8 = 5;
const SETS: usize = 1 << 10;
const MOST_SIZE: usize = 40_000;
/// In how many orders each set is judged beside the dictionary's.
const ORDERS: usize = 8;

fn main() -> ExitCode {
    let mut run = Run::start("card", 50_463_036);
    for number in 0..SETS {
        let mut sheet = five_points(number, &mut run);
        let is = verdict(&sheet, &judge(&sheet));
        run.count("sets", is.name());
        for beyond in [0, SETS, !0 << 10] {
            run.same("pattern_card", &(number | beyond), ffi::card(number | beyond), is as i32);
        }
        judged(&mut run, &sheet);
        for _ in 0..ORDERS {
            run.random.shuffle(&mut sheet.constraints);
            judged(&mut run, &sheet);
        }
        let round = with_circles(&sheet, &mut run);
        run.same("reference", &number, verdict(&round, &judge(&round)), is);
        judged(&mut run, &round);
        for line in 0..POINTS {
            let sheet = with_line(&sheet, line);
            let is = verdict(&sheet, &judge(&sheet));
            run.count("sets, one a line", is.name());
            judged(&mut run, &sheet);
        }
    }
    for (name, least) in [("over", 81), ("well", 100), ("under", 843)] {
        run.must("sets", name, least);
        run.must("sets, one a line", name, 5 * least);
    }
    run.finish()
}

/// Compares the verdict, the plan, the final clusters and the report of a sheet.
fn judged(run: &mut Run, sheet: &Sheet) {
    let bytes = writer::bytes(sheet);
    let found = Found::of(&bytes);
    calls::plan(run, &bytes, &found);
    calls::report(run, &bytes, &found);
}

/// The sheet with a line in place of a point, its distances to the others missing.
fn with_line(sheet: &Sheet, line: u8) -> Sheet {
    let mut sheet = sheet.clone();
    sheet.kinds[usize::from(line)] = Kind::Line;
    for constraint in &mut sheet.constraints {
        if constraint.first == line || constraint.second == line {
            *constraint = Constraint::bare(constraint.first, constraint.second);
        }
    }
    sheet
}

/// The sheet with circles in place of some points, which touch whom they are constrained with.
fn with_circles(sheet: &Sheet, run: &mut Run) -> Sheet {
    let mut round = Sheet { opening: Opening::Pf02, ..sheet.clone() };
    for kind in &mut round.kinds {
        if run.random.chance(50) {
            *kind = Kind::Circle(run.random.between(1, MOST_SIZE) as u32);
        }
    }
    for constraint in &mut round.constraints {
        let ends = [constraint.first, constraint.second].map(|end| round.kinds[usize::from(end)]);
        if ends != [Kind::Point; 2] {
            *constraint = Constraint::tangent(constraint.first, constraint.second);
        }
    }
    round
}

/// Five points with those of the ten pairs, in dictionary order, whose bit stands, of any sizes.
fn five_points(number: usize, run: &mut Run) -> Sheet {
    let pairs = (0..POINTS).flat_map(|first| (first + 1..POINTS).map(move |second| (first, second)));
    let constraints = pairs
        .enumerate()
        .filter(|(bit, _)| number >> bit & 1 == 1)
        .map(|(_, (first, second))| Constraint::sized(first, second, run.random.between(1, MOST_SIZE) as i32))
        .collect();
    Sheet::first(vec![Kind::Point; POINTS.into()], constraints)
}
