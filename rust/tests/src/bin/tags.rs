//! Tags are read and dropped: the library on sheets with tags on none, some and all constraints answers as on the
//! sheet without them, beside the reference.

use std::process::ExitCode;

use pattern_tests::answers::{lent, Answer, Answers};
use pattern_tests::facts::MOST_ELEMENTS;
use pattern_tests::interface::Found;
use pattern_tests::run::{Hex, Run};
use pattern_tests::{calls, dress, ffi, tags, writer};

const ROUNDS: usize = 5_000;

fn main() -> ExitCode {
    let mut run = Run::start("tags", 50_463_037);
    for round in 0..ROUNDS {
        let most = if round % 4 == 0 { MOST_ELEMENTS } else { 20 };
        let sheet = dress::any(most, &mut run.random);
        let plain = writer::bytes(&sheet);
        let plan = Found::of(&plain).plan().unwrap_or_default();
        let prices = vec![1; sheet.n() * (sheet.n() - 1) / 2];
        let answers = |bytes: &[u8]| (Answers::of(bytes, &plan, &prices, sheet.e()), written(bytes));
        let wanted = answers(&plain);
        run.same("pattern_rewrite", &Hex(&plain), &wanted.1[0], &Ok(plain.clone()));
        for (hundredths, name) in [(0, "no tag"), (50, "some tags"), (100, "every tag")] {
            let tagged = tags::on(&plain, hundredths, &mut run.random);
            run.count("sheets", name);
            run.same("tags", &Hex(&tagged), &answers(&tagged), &wanted);
            calls::rewrite(&mut run, &tagged);
            calls::hold(&mut run, &tagged);
        }
    }
    run.must("pattern_rewrite", "accepted", 10_000);
    run.must("pattern_hold", "accepted", 1_000);
    run.finish()
}

/// The sheet written again, and its record.
fn written(sheet: &[u8]) -> [Answer<u8>; 2] {
    [lent(|out| ffi::rewrite(sheet, out)), lent(|out| ffi::hold(sheet, out))]
}
