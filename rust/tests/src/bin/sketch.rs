//! Held sketches beside a plain list of constraints: runs of asks and placings with right and stale numbers, on sound and
//! damaged records, and the engine on the sketches that they leave.

use std::process::ExitCode;

use pattern_tests::facts::{Sheet, MOST_ELEMENTS};
use pattern_tests::interface::Found;
use pattern_tests::run::{rules, Run};
use pattern_tests::{calls, damage, dress, sketch, tags, writer};

const ROUNDS: usize = 4_000;
/// Room for every held sketch.
const MOST_RECORD: usize = 1_155;

fn main() -> ExitCode {
    let mut run = Run::start("sketch", 50_463_036);
    for round in 0..ROUNDS {
        let most = if round % 4 == 0 { MOST_ELEMENTS } else { 20 };
        let sheet = dress::any(most, &mut run.random);
        holds(&mut run, &sheet);
        events(&mut run, &sheet);
        if round % 20 == 0 {
            grow(&mut run, &sheet);
        }
    }
    rules((1..=11).chain(17..=20)).for_each(|rule| run.must("pattern_hold", &rule, 20));
    rules([6, 7, 8, 9, 11, 27]).for_each(|rule| run.must("pattern_ask", &rule, 100));
    rules([6, 7, 8, 9, 11, 17, 24, 27]).for_each(|rule| run.must("pattern_place", &rule, 100));
    ["pattern_ask", "pattern_place"].iter().for_each(|call| run.must(call, "rule 20", 30));
    rules([17, 27]).for_each(|rule| run.must("pattern_held", &rule, 100));
    run.must("pattern_held_count", "rule 27", 100);
    for call in ["pattern_held_clusters", "pattern_held_rests"] {
        rules([17, 27]).for_each(|rule| run.must(call, &rule, 100));
    }
    let held = ["pattern_held", "pattern_held_count", "pattern_held_clusters", "pattern_held_rests"];
    for call in ["pattern_hold", "pattern_ask", "pattern_place"].iter().chain(&held) {
        run.must(call, "accepted", 1000);
    }
    run.finish()
}

/// Compares the holding of a sheet, with tags and damaged.
fn holds(run: &mut Run, sheet: &Sheet) {
    let bytes = tags::any(sheet, &mut run.random);
    calls::hold(run, &bytes);
    let damaged = damage::aimed(&bytes, &mut run.random);
    calls::hold(run, &damaged);
}

/// A record of a sheet, over or not, in some room, with any bytes beyond it.
fn record(run: &mut Run, sheet: &Sheet) -> Vec<u8> {
    let mut record = sketch::record(sheet);
    let room = match run.random.below(4) {
        0 => record.len() + run.random.below(9),
        _ => MOST_RECORD.max(record.len()),
    };
    record.resize_with(room, || run.random.byte());
    record
}

/// Compares a run of asks and placings on one record; between them some on a damaged copy of it.
fn events(run: &mut Run, sheet: &Sheet) {
    let mut held = sheet.clone();
    held.constraints.truncate(run.random.below(sheet.e() + 1));
    let mut record = record(run, &held);
    for _ in 0..run.random.between(1, 12) {
        let more = damage::offered(&held, &mut run.random);
        let told = number(run, held.e());
        match run.random.below(6) {
            0 | 1 => calls::ask(run, &record, &more),
            2..=4 => {
                record = calls::place(run, &record, &more, told);
                held = sketch::in_record(&record).unwrap_or(held);
                calls::told_of_held(run, &record);
            }
            _ => {
                let broken = broken(run, &record);
                calls::ask(run, &broken, &more);
                calls::place(run, &broken, &more, told);
                calls::held(run, &broken);
                calls::told_of_held(run, &broken);
            }
        }
    }
    calls::held(run, &record);
}

/// The number of constraints that is told: the one held, or another.
fn number(run: &mut Run, held: usize) -> usize {
    match run.random.below(8) {
        0 => held + 1,
        1 => held.saturating_sub(1),
        2 => run.random.bits() as usize >> run.random.below(64),
        _ => held,
    }
}

/// A record with a fault: a byte changed, the count, the end cut.
fn broken(run: &mut Run, record: &[u8]) -> Vec<u8> {
    let mut out = damage::changed(record, &mut run.random);
    match run.random.below(4) {
        0 => out.truncate(run.random.below(out.len())),
        1 => out[run.random.below(2)] = run.random.byte(),
        2 => out[2 + run.random.below(30).min(record.len() - 3)] ^= 1 << run.random.below(8),
        _ => {}
    }
    out
}

/// Compares constraints offered one after another to a sketch that begins without any, and the engine on what it is then.
fn grow(run: &mut Run, sheet: &Sheet) {
    let mut held = Sheet { constraints: Vec::new(), ..sheet.clone() };
    let mut record = record(run, &held);
    record.resize(MOST_RECORD, 0);
    for _ in 0..4 * held.n() {
        let more = dress::next(&held.kinds, &mut run.random);
        calls::ask(run, &record, &more);
        record = calls::place(run, &record, &more, held.e());
        held = sketch::next(&held, &more).unwrap_or(held);
    }
    calls::held(run, &record);
    calls::told_of_held(run, &record);
    let bytes = writer::bytes(&held);
    calls::plan(run, &bytes, &Found::of(&bytes));
}
