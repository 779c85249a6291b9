//! Reports and saved plans beside the reference: `pattern_report` and `pattern_check_plan`.

use std::process::ExitCode;

use pattern_tests::facts::{Sheet, MOST_ELEMENTS};
use pattern_tests::interface::Found;
use pattern_tests::merging::Merges;
use pattern_tests::placements::{kind, ways};
use pattern_tests::run::{rules, Run};
use pattern_tests::verdict::{verdict, Judged};
use pattern_tests::{calls, damage, dress, tags};

const ROUNDS: usize = 10_000;

fn main() -> ExitCode {
    let mut run = Run::start("report", 50_463_034);
    for round in 0..ROUNDS {
        let most = if round % 4 == 0 { MOST_ELEMENTS } else { 20 };
        let sheet = dress::any(most, &mut run.random);
        let bytes = tags::any(&sheet, &mut run.random);
        let found = Found::of(&bytes);
        calls::report(&mut run, &bytes, &found);
        if let Ok((_, judged)) = found.accepted() {
            count(&mut run, &sheet, judged);
            plans(&mut run, &sheet, judged);
        }
        let damaged = damage::aimed(&bytes, &mut run.random);
        calls::report(&mut run, &damaged, &Found::of(&damaged));
        calls::check_plan(&mut run, &damaged, &[0, 1, 2]);
    }
    for verdict in ["over", "angle", "well", "stuck", "under"] {
        run.must("sheets", verdict, 200);
    }
    for step in ["ppp 0", "ppp 1", "ppp 2", "ppp ?", "ppl 0", "ppl 1", "ppl 2", "ppl ?", "pll 1", "pll ?", "lll ?"] {
        run.must("steps", step, 100);
    }
    rules((1..=10).chain(17..=20)).for_each(|rule| run.must("pattern_report", &rule, 50));
    rules((1..=13).chain(15..=20)).for_each(|rule| run.must("pattern_check_plan", &rule, 50));
    run.finish()
}

/// Counts a sheet's verdict, and each step's kind and placements.
fn count(run: &mut Run, sheet: &Sheet, judged: &Judged) {
    run.count("sheets", verdict(sheet, judged).name());
    if let Judged::Merged(merges) = judged {
        for step in &merges.steps {
            let ways = ways(sheet, step).map_or("?".to_string(), |count| count.to_string());
            run.count("steps", format!("{} {ways}", kind(sheet, step.joint)));
        }
    }
}

/// Compares the check of saved plans: the engine's own, one in a random order, and damaged ones.
fn plans(run: &mut Run, sheet: &Sheet, judged: &Judged) {
    let bytes = tags::any(sheet, &mut run.random);
    let engine = match judged {
        Judged::Merged(engine) => engine,
        Judged::Over(_) => {
            calls::check_plan(run, &bytes, &[]);
            return;
        }
    };
    accepted(run, &bytes, &engine.numbers());
    let other = damage::turned(&Merges::random(sheet, &mut run.random), &mut run.random);
    accepted(run, &bytes, &other);
    for _ in 0..3 {
        let damaged = damage::plan(&other, &mut run.random);
        calls::check_plan(run, &bytes, &damaged);
    }
}

/// Compares the check of a whole plan, which no rule refuses.
fn accepted(run: &mut Run, bytes: &[u8], plan: &[u16]) {
    let refused = calls::check_plan(run, bytes, plan);
    run.same("reference", &format_args!("{plan:?}"), refused, None);
}
