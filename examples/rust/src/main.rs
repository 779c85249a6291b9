//! Builds a sketch one distance at a time, asking before each is placed, and prints what it does; then its report, and
//! the report for its plan told backwards: examples/c/sketch.c in Rust.

use pattern::{Constraint, Facts, Kind, Rule, Sketch, MOST_BYTES, MOST_REPORT};

fn main() -> Result<(), Rule> {
    // four points and no constraint, then six distances of 30 mm
    let mut space = [0; MOST_BYTES];
    let points = pattern::write(&Facts::pf01(&[Kind::Point; 4], &[]), &mut space)?;
    let mut sketch = Sketch::hold(points)?;

    for (a, b) in [(0, 1), (0, 2), (1, 2), (1, 3), (2, 3), (0, 3)] {
        let (more, held) = (Constraint::sized(a, b, 300), sketch.count());
        match sketch.ask(&more) {
            Ok(verdict) => {
                sketch.place(&more, held)?;
                println!("{a} {b}: {}", verdict.name());
            }
            Err(Rule(number)) => println!("{a} {b}: refused {number}"),
        }
    }

    let sheet = sketch.sheet(&mut space)?;
    let mut report = [0; MOST_REPORT];
    print!("{}", pattern::report(sheet, &mut report)?);

    // the other triangle first, the parts of each step in any order
    print!("{}", pattern::check_plan(sheet, &[4, 3, 2, 5, 1, 0], &mut report)?);
    Ok(())
}
