//! More dimensions, never a smaller part (request 2026-13), through the library alone: sheets with constraints added anywhere in the list and in any
//! order, each order of merging on either side, and runs of asks and placings on a record.

use std::process::ExitCode;

use pattern_tests::facts::{Constraint, Sheet, MOST_ELEMENTS};
use pattern_tests::merging::Merges;
use pattern_tests::run::{Hex, Run};
use pattern_tests::set::{one, within, Set};
use pattern_tests::{dress, ffi, reader, writer};

const ROUNDS: usize = 6_000;
const OVER: i32 = 0;
/// Room for every list of clusters, for what they rest on, for a report, for a record and for a sheet.
const CLUSTERS: usize = 125;
const RESTS: usize = 250;
const REPORT: usize = 4_667;
const RECORD: usize = 1_155;
const SHEET: usize = 1_678;

/// A final cluster, with the constraints that it rests on.
struct Part {
    set: Set,
    rests: Vec<Constraint>,
}

fn main() -> ExitCode {
    let mut run = Run::start("growth", 50_463_043);
    for round in 0..ROUNDS {
        let most = if round % 4 == 0 { MOST_ELEMENTS } else { 20 };
        let sheet = dress::any(most, &mut run.random);
        left_out(&mut run, &sheet);
        added(&mut run, &sheet);
        if round % 4 == 0 {
            placed(&mut run, &sheet);
        }
    }
    for change in ["of the same elements", "larger", "with others in one part"] {
        run.must("parts", change, 1_000);
    }
    for plan in ["the engine's plan", "any order"] {
        run.must("old and new by", plan, 2_000);
    }
    for event in ["asked", "placed", "refused"] {
        run.must("events", event, 2_000);
    }
    run.must("constraints", "at other numbers", 2_000);
    run.finish()
}

/// Whether the library takes the sheet and does not call it over.
fn not_over(sheet: &Sheet) -> bool {
    ffi::verdict(&writer::bytes(sheet)) > OVER
}

/// A sheet that isn't over, and as the old one the same with some of its constraints left out and the others in any order.
fn left_out(run: &mut Run, new: &Sheet) {
    if !not_over(new) || new.e() == 0 {
        return;
    }
    let mut old = new.clone();
    run.random.shuffle(&mut old.constraints);
    old.constraints.truncate(new.e() - run.random.between(1, new.e().min(8)));
    compare(run, &old, new);
}

/// A sheet that isn't over, and as the new one the same with constraints put in anywhere while it isn't over.
fn added(run: &mut Run, old: &Sheet) {
    if !not_over(old) {
        return;
    }
    let mut new = old.clone();
    for _ in 0..run.random.between(1, 12) {
        let mut next = new.clone();
        let more = dress::next(&new.kinds, &mut run.random);
        next.constraints.insert(run.random.below(new.e() + 1), more);
        if not_over(&next) {
            new = next;
        }
    }
    compare(run, old, &new);
}

/// A run of asks and placings: the sketch in the record after each placing beside the one that was held first.
fn placed(run: &mut Run, sheet: &Sheet) {
    let mut record = vec![run.random.byte(); RECORD];
    if ffi::hold(&writer::bytes(sheet), &mut record) < 0 {
        return;
    }
    let first = held(&record);
    for _ in 0..run.random.between(1, 24) {
        let more = dress::next(&sheet.kinds, &mut run.random);
        let count = held(&record).e();
        let told = if run.random.chance(10) { count + 1 } else { count };
        match run.random.below(4) {
            0 => {
                ffi::ask(&record, &more);
                run.count("events", "asked");
            }
            _ if ffi::place(&mut record, &more, told) < 0 => run.count("events", "refused"),
            _ => {
                run.count("events", "placed");
                compare(run, &first, &held(&record));
            }
        }
    }
}

/// The sheet in a record, by `pattern_held`.
fn held(record: &[u8]) -> Sheet {
    let mut bytes = [0; SHEET];
    let count = ffi::held(record, &mut bytes);
    reader::read(&bytes[..usize::try_from(count).expect("a held sketch")]).expect("a sheet")
}

/// Compares every part of the old sheet with those of the new: by the engine's plans, and by plans in any order.
fn compare(run: &mut Run, old: &Sheet, new: &Sheet) {
    let input = format!("{} then {}", Hex(&writer::bytes(old)), Hex(&writer::bytes(new)));
    run.same("pattern_verdict", &input, not_over(old), true);
    let (olds, news) = (engine_parts(old), engine_parts(new));
    inside(run, &input, &olds, &news);
    run.count("old and new by", "the engine's plan");
    if old.n() <= 20 {
        let (others, further) = (any_parts(run, old), any_parts(run, new));
        inside(run, &input, &others, &further);
        inside(run, &input, &others, &news);
        inside(run, &input, &olds, &further);
        run.count("old and new by", "any order");
    }
    if old.constraints.iter().zip(&new.constraints).any(|(a, b)| a != b) {
        run.count("constraints", "at other numbers");
    }
}

/// Each old part lies inside exactly one new part, and what it rests on is among what that one rests on.
fn inside(run: &mut Run, input: &str, olds: &[Part], news: &[Part]) {
    for old in olds {
        let holding: Vec<&Part> = news.iter().filter(|new| within(old.set, new.set)).collect();
        run.same("pattern_clusters", &input, holding.len(), 1);
        let new = holding[0];
        let lost: Vec<&Constraint> = old.rests.iter().filter(|c| !new.rests.contains(c)).collect();
        run.same("pattern_rests", &input, lost, Vec::new());
        let fellows = olds.iter().filter(|other| within(other.set, new.set)).count();
        run.count("parts", if old.set == new.set { "of the same elements" } else { "larger" });
        if fellows > 1 {
            run.count("parts", "with others in one part");
        }
    }
}

/// The parts that the engine's plan leaves, by `pattern_clusters` and `pattern_rests`.
fn engine_parts(sheet: &Sheet) -> Vec<Part> {
    let bytes = writer::bytes(sheet);
    let (mut sets, mut words) = ([0; CLUSTERS], [0; RESTS]);
    let count = usize::try_from(ffi::clusters(&bytes, &mut sets)).expect("final clusters");
    assert_eq!(usize::try_from(ffi::rests(&bytes, &mut words)), Ok(2 * count), "two words a cluster");
    let named = |k: usize| (0..sheet.e()).filter(move |i| words[2 * k + i / 64] >> (i % 64) & 1 == 1);
    (0..count).map(|k| Part { set: sets[k], rests: named(k).map(|i| sheet.constraints[i]).collect() }).collect()
}

/// The parts that a list of merges in any order leaves, by the cluster lines of `pattern_check_plan`.
fn any_parts(run: &mut Run, sheet: &Sheet) -> Vec<Part> {
    let plan = Merges::random(sheet, &mut run.random).numbers();
    let mut space = [0; REPORT];
    let count = ffi::check_plan(&writer::bytes(sheet), &plan, &mut space);
    let report = &space[..usize::try_from(count).expect("a plan that is accepted")];
    let report = std::str::from_utf8(report).expect("ASCII");
    report.lines().filter(|line| line.starts_with("cluster ")).map(|line| part_of(sheet, line)).collect()
}

/// The part of a line "cluster 6 holds 0 1 2 3 rests on 0 1 2 3 4".
fn part_of(sheet: &Sheet, line: &str) -> Part {
    let (holds, rests) = line.split_once(" rests on ").expect("what it rests on");
    let (_, elements) = holds.split_once(" holds ").expect("its elements");
    let numbers = |text: &str| text.split(' ').map(|word| word.parse().expect("a number")).collect::<Vec<usize>>();
    Part {
        set: numbers(elements).into_iter().map(one).sum(),
        rests: numbers(rests).into_iter().map(|i| sheet.constraints[i]).collect(),
    }
}
