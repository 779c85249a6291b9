//! Step records beside the reference and beside the report's own lines: `pattern_steps` and `pattern_saved_steps`.

use std::process::ExitCode;

use pattern_tests::facts::MOST_ELEMENTS;
use pattern_tests::interface::{self, Found};
use pattern_tests::merging::Merges;
use pattern_tests::records::{line, NUMBERS};
use pattern_tests::run::{rules, Hex, Run};
use pattern_tests::space::Space;
use pattern_tests::verdict::{verdict, Judged};
use pattern_tests::{calls, damage, dress, ffi, tags};

const ROUNDS: usize = 10_000;
/// The most numbers, and bytes of a report, that a call is lent here.
const ROOM: usize = 8_192;
/// How many rooms are tried on either side of the one needed.
const AROUND: usize = NUMBERS + 1;

fn main() -> ExitCode {
    let mut run = Run::start("steps", 50_463_041);
    for round in 0..ROUNDS {
        let most = if round % 4 == 0 { MOST_ELEMENTS } else { 20 };
        let sheet = dress::any(most, &mut run.random);
        let bytes = tags::any(&sheet, &mut run.random);
        let found = Found::of(&bytes);
        calls::steps(&mut run, &bytes, &found);
        if let Ok((_, judged)) = found.accepted() {
            run.count("sheets", verdict(&sheet, judged).name());
        }
        if let Ok((_, Judged::Merged(engine))) = found.accepted() {
            let plan = engine.numbers();
            let other = damage::turned(&Merges::random(&sheet, &mut run.random), &mut run.random);
            for plan in [&plan, &other] {
                calls::saved_steps(&mut run, &bytes, plan);
                saved_lines(&mut run, &bytes, plan);
            }
            let damaged = damage::plan(&other, &mut run.random);
            calls::saved_steps(&mut run, &bytes, &damaged);
            lines(&mut run, &bytes);
            if round % 10 == 0 {
                every_room(&mut run, &bytes, &found);
            }
        } else {
            calls::saved_steps(&mut run, &bytes, &[]);
        }
        let damaged = damage::aimed(&bytes, &mut run.random);
        calls::steps(&mut run, &damaged, &Found::of(&damaged));
        calls::saved_steps(&mut run, &damaged, &[0, 1, 2]);
    }
    for verdict in ["over", "angle", "well", "stuck", "under"] {
        run.must("sheets", verdict, 200);
    }
    for lines in ["pattern_report", "pattern_check_plan"] {
        run.must("lines beside records", lines, 10_000);
    }
    run.must("rooms", "too short", 3_000);
    run.must("rooms", "long enough", 5_000);
    rules((1..=11).chain(17..=20)).for_each(|rule| run.must("pattern_steps", &rule, 50));
    rules((1..=13).chain(15..=20)).for_each(|rule| run.must("pattern_saved_steps", &rule, 50));
    run.finish()
}

/// Compares the records of the engine's plan with the step lines of the library's own report.
fn lines(run: &mut Run, bytes: &[u8]) {
    let (mut numbers, mut report) = ([0; ROOM], [0; ROOM]);
    let count = ffi::steps(bytes, &mut numbers) as usize;
    let length = ffi::report(bytes, &mut report) as usize;
    beside(run, "pattern_report", bytes, &numbers[..count], &report[..length]);
}

/// Compares the records of a saved plan with the step lines of the library's report for it.
fn saved_lines(run: &mut Run, bytes: &[u8], plan: &[u16]) {
    let (mut numbers, mut report) = ([0; ROOM], [0; ROOM]);
    let count = ffi::saved_steps(bytes, plan, &mut numbers) as usize;
    let length = ffi::check_plan(bytes, plan, &mut report) as usize;
    beside(run, "pattern_check_plan", bytes, &numbers[..count], &report[..length]);
}

/// The step lines of a report are the lines of the records, in the same order.
fn beside(run: &mut Run, which: &'static str, bytes: &[u8], numbers: &[u64], report: &[u8]) {
    let text = std::str::from_utf8(report).expect("a report is ASCII");
    let steps: Vec<&str> = text.lines().filter(|line| line.starts_with("step ")).collect();
    let records: Vec<String> = numbers.chunks(NUMBERS).map(line).collect();
    records.iter().for_each(|_| run.count("lines beside records", which));
    run.same(which, &Hex(bytes), records, steps.iter().map(|line| line.to_string()).collect());
}

/// Every room around the one needed, with guards on both sides.
fn every_room(run: &mut Run, bytes: &[u8], found: &Found) {
    let answer = found.steps();
    let plan = found.plan().unwrap_or_default();
    let saved = interface::saved_steps(bytes, &plan);
    run.same("reference", &Hex(bytes), &saved, &answer);
    let needed = answer.as_ref().map_or(0, Vec::len);
    for room in needed.saturating_sub(AROUND)..=needed + AROUND {
        run.count("rooms", if room < needed { "too short" } else { "long enough" });
        for engine in [true, false] {
            let mut space = Space::new(room, &mut run.random);
            let (number, cells) = space.expected(&answer);
            let out = space.lent();
            let got = if engine { ffi::steps(bytes, out) } else { ffi::saved_steps(bytes, &plan, out) };
            let input = format!("{}, room {room}", Hex(bytes));
            run.same("every room", &input, (got, space.cells()), (number, &cells));
        }
    }
}
