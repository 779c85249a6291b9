//! The sheet with the longest plan for every count of points beside plain Rust, and the length of its plan.

use std::process::ExitCode;

use pattern_tests::facts::{FEWEST_ELEMENTS, MOST_ELEMENTS};
use pattern_tests::run::{rules, Run};
use pattern_tests::{calls, ffi, interface};

fn main() -> ExitCode {
    let mut run = Run::start("longest", 50_463_037);
    for n in FEWEST_ELEMENTS..=MOST_ELEMENTS {
        calls::longest(&mut run, n);
        let sheet = interface::longest(n).expect("a count of elements");
        let mut plan = [0; 186];
        run.same("pattern_plan", &n, ffi::plan(&sheet, &mut plan), 3 * (n as i32 - 2));
        run.same("pattern_verdict", &n, ffi::verdict(&sheet), 2);
        run.count("sheets", "well");
    }
    for n in [0, 1, 65, 66, 255, 256, 258, 320, usize::MAX] {
        calls::longest(&mut run, n);
    }
    run.must("sheets", "well", 63);
    rules([3]).for_each(|rule| run.must("pattern_longest", &rule, 9));
    rules([17]).for_each(|rule| run.must("pattern_longest", &rule, 63));
    run.finish()
}
