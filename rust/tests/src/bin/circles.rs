//! Circles of known radius: PF02 sheets of every mix through every call beside the reference, cut at every byte and with every byte changed, the
//! placements that contacts leave, the largest sheets, and round lights beside the sketch of their centres.

use std::process::ExitCode;

use pattern_tests::answers::{lent, Answers};
use pattern_tests::dress::Mix;
use pattern_tests::facts::{Columns, Constraint, Kind, Opening, Sheet, MOST_ELEMENTS};
use pattern_tests::interface::Found;
use pattern_tests::merging::Merges;
use pattern_tests::placements::{kind, ways};
use pattern_tests::run::{rules, Hex, Run};
use pattern_tests::verdict::{verdict, Judged};
use pattern_tests::{calls, damage, dress, ffi, shapes, sketch, tags, writer};

/// How many sheets of each mix there are.
const ROUNDS: usize = 100;
const TRIANGLES: usize = 20_000;
const CUT: usize = 200;
const CENTRES: usize = 10_000;
/// The most bytes of a sheet that is read, of a written one, and of a record.
const MOST: [i32; 3] = [2_078, 1_678, 1_155];

fn main() -> ExitCode {
    let mut run = Run::start("circles", 50_463_044);
    mixes(&mut run);
    (0..CUT).for_each(|_| every_byte(&mut run));
    (0..TRIANGLES).for_each(|_| triangle(&mut run));
    (0..CENTRES).for_each(|_| centres(&mut run));
    (0..20).for_each(|_| largest(&mut run));
    for function in ["pattern_rewrite", "pattern_report"] {
        rules((1..=10).chain(18..=20)).for_each(|rule| run.must(function, &rule, 50));
    }
    rules([1, 3, 5, 6, 7, 8, 9, 17, 18, 19, 20]).for_each(|rule| run.must("pattern_write", &rule, 10));
    rules([6, 7, 8, 9, 11, 20, 24]).for_each(|rule| run.must("pattern_place", &rule, 10));
    for name in ["over", "angle", "well", "stuck", "under"] {
        run.must("sheets", name, 50);
        run.must("round lights as their centres", name, 100);
    }
    for kind in ["ppp", "ppl"] {
        for contacts in 1..=3 {
            (0..=2).for_each(|ways| run.must("triangles", &format!("{kind}, {contacts} contacts, ways {ways}"), 20));
        }
    }
    run.finish()
}

/// Every mix of points, lines and circles, with sizes and contacts.
fn mixes(run: &mut Run) {
    for (lines, circles) in [(0, 0), (0, 50), (0, 100), (30, 0), (30, 50), (30, 100), (60, 100), (100, 0)] {
        for contacts in [0, 50, 100] {
            for round in 0..ROUNDS {
                let most = if round % 8 == 0 { MOST_ELEMENTS } else { 12 };
                let mix = Mix { opening: Opening::Pf02, lines, circles, contacts };
                let sheet = dress::mixed(most, mix, &mut run.random);
                every_call(run, &sheet);
            }
        }
    }
}

/// Compares every call on a sheet, and some on its bytes and facts with faults.
fn every_call(run: &mut Run, sheet: &Sheet) {
    let bytes = tags::any(sheet, &mut run.random);
    let found = Found::of(&bytes);
    if let Ok((sheet, judged)) = found.accepted() {
        run.count("sheets", verdict(sheet, judged).name());
    }
    calls::rewrite(run, &bytes);
    calls::over(run, &bytes);
    calls::initial(run, &bytes);
    calls::plan(run, &bytes, &found);
    calls::report(run, &bytes, &found);
    calls::steps(run, &bytes, &found);
    let (from, to, number) =
        (run.random.below(sheet.n()), run.random.below(sheet.n()), run.random.below(2 * sheet.n()));
    let _ = calls::chain(run, &bytes, &found, from, to);
    calls::part(run, &bytes, &found, number);
    let steps = run.random.below(4);
    let _ = calls::open(run, &bytes, &found, steps);
    let plan = another_plan(run, &found);
    calls::check_plan(run, &bytes, &plan);
    calls::saved_steps(run, &bytes, &plan);
    if sheet.n() <= 12 {
        let prices = prices(run, sheet.n());
        calls::missing(run, &bytes, &prices);
    }
    calls::hold(run, &bytes);
    sketches(run, sheet);
    calls::write(run, &Columns::of(sheet));
    for _ in 0..3 {
        let facts = damage::facts(sheet, &mut run.random);
        calls::write(run, &facts);
        let damaged = damage::aimed(&bytes, &mut run.random);
        calls::rewrite(run, &damaged);
        calls::report(run, &damaged, &Found::of(&damaged));
    }
}

/// A plan of a sheet in another order of merging.
fn another_plan(run: &mut Run, found: &Found) -> Vec<u16> {
    match found.accepted() {
        Ok((sheet, Judged::Merged(_))) => damage::turned(&Merges::random(sheet, &mut run.random), &mut run.random),
        _ => Vec::new(),
    }
}

/// A price for each pair of n elements.
fn prices(run: &mut Run, n: usize) -> Vec<u16> {
    (0..n * (n - 1) / 2).map(|_| run.random.below(1_001) as u16).collect()
}

/// Compares asks and placings of contacts and sizes in the record of a sheet's start.
fn sketches(run: &mut Run, sheet: &Sheet) {
    let mut held = sheet.clone();
    held.constraints.truncate(run.random.below(sheet.e() + 1));
    let mut record = sketch::record(&held);
    record.resize(record.len() + 40, 0);
    for _ in 0..4 {
        let more = damage::offered(&held, &mut run.random);
        let told = held.e() + usize::from(run.random.chance(10));
        calls::ask(run, &record, &more);
        record = calls::place(run, &record, &more, told);
        held = sketch::in_record(&record).unwrap_or(held);
        calls::held(run, &record);
    }
}

/// Compares a small sheet cut at every byte, and with every byte changed.
fn every_byte(run: &mut Run) {
    let mix = Mix::of(Opening::Pf02, &mut run.random);
    let sheet = dress::mixed(9, mix, &mut run.random);
    let bytes = tags::any(&sheet, &mut run.random);
    for at in 0..bytes.len() {
        calls::rewrite(run, &bytes[..at]);
        let step = run.random.between(2, 254) as u8;
        for byte in [bytes[at] ^ 1, bytes[at] ^ 2, bytes[at] ^ 4, bytes[at] ^ 8, bytes[at].wrapping_add(step), 0, 255] {
            let mut changed = bytes.clone();
            changed[at] = byte;
            calls::rewrite(run, &changed);
        }
    }
}

/// Compares three elements that touch or are measured, with small radii and sizes or the greatest, so that borders are met.
fn triangle(run: &mut Run) {
    let small = run.random.chance(80);
    let radius =
        |run: &mut Run| if small { run.random.between(1, 6) as u32 } else { run.random.pick(&[39_999, 40_000, 1]) };
    let size =
        |run: &mut Run| if small { run.random.between(1, 12) as i32 } else { run.random.pick(&[39_999, 40_000, 1, 2]) };
    let mut kinds: Vec<Kind> = (0..3)
        .map(|_| {
            let radius = radius(run);
            run.random.pick(&[Kind::Point, Kind::Circle(radius), Kind::Circle(radius)])
        })
        .collect();
    if run.random.chance(50) {
        kinds[run.random.below(3)] = Kind::Line;
    }
    let constraints = [(0, 1), (0, 2), (1, 2)].map(|(first, second)| {
        let (a, b) = (kinds[usize::from(first)], kinds[usize::from(second)]);
        let line = a.is_line() || b.is_line();
        let (touches, other) = (run.random.chance(60), run.random.chance(50));
        let size = size(run);
        match (a.radius().is_some() || b.radius().is_some(), a == Kind::Point || b == Kind::Point || a == b) {
            (true, false) if touches && other => Constraint::other_tangent(first, second),
            (true, _) if touches => Constraint::tangent(first, second),
            _ if line && run.random.chance(20) => Constraint::bare(first, second),
            _ if line && other => Constraint::sized(first, second, -size),
            _ => Constraint::sized(first, second, size),
        }
    });
    let sheet = Sheet { opening: Opening::Pf02, kinds, constraints: constraints.to_vec() };
    let bytes = writer::bytes(&sheet);
    let found = Found::of(&bytes);
    if let Ok((sheet, Judged::Merged(merges))) = found.accepted() {
        let step = &merges.steps[0];
        let contacts = sheet.constraints.iter().filter(|c| c.is_tangent()).count();
        let ways = ways(sheet, step).map_or("?".to_string(), |count| count.to_string());
        run.count("triangles", format!("{}, {contacts} contacts, ways {ways}", kind(sheet, step.joint)));
    }
    calls::report(run, &bytes, &found);
    calls::steps(run, &bytes, &found);
}

/// Compares, through the library alone, a round light with the sheet of its centres, where every distance that a contact means may stand in one.
fn centres(run: &mut Run) {
    let mix = Mix::of(Opening::Pf02, &mut run.random);
    let most = run.random.pick(&[8, 8, 20, MOST_ELEMENTS]);
    let sheet = dress::mixed(most, mix, &mut run.random);
    let centres = sheet.centres();
    if centres.constraints.iter().any(|c| c.size.abs() > 40_000) {
        return;
    }
    let (round, points) = (writer::bytes(&sheet), writer::bytes(&centres));
    let found = Found::of(&round);
    if let Ok((_, judged)) = found.accepted() {
        run.count("round lights as their centres", verdict(&sheet, judged).name());
    }
    let (plan, prices) = (another_plan(run, &found), prices(run, sheet.n()));
    let number = sheet.e() + run.random.below(4);
    let [round_is, points_are] = [&round, &points].map(|bytes| Answers::of(bytes, &plan, &prices, number));
    run.same("centres", &Hex(&round), round_is, points_are);
}

/// Compares the largest sheets of 64 circles: 200 sizes and every tag; and as many sizes as a sketch may hold.
fn largest(run: &mut Run) {
    let mix = Mix { opening: Opening::Pf02, lines: 0, circles: 100, contacts: 0 };
    let full = dress::by_mix(&shapes::scattered(MOST_ELEMENTS, 200, &mut run.random), mix, &mut run.random);
    let bytes = tags::on(&writer::bytes(&full), 100, &mut run.random);
    let held = dress::by_mix(&shapes::merge_tree(MOST_ELEMENTS, &mut run.random), mix, &mut run.random);
    let record = lent(|out| ffi::hold(&writer::bytes(&held), out)).map_or(0, |record| record.len() as i32);
    let lengths = [bytes.len() as i32, ffi::rewrite(&bytes, &mut [0; 1_678]), record];
    run.same("lengths", &Hex(&bytes), lengths, MOST);
    calls::rewrite(run, &bytes);
    calls::rewrite(run, &[&bytes[..], &[0]].concat());
    calls::write(run, &Columns::of(&full));
    calls::hold(run, &writer::bytes(&held));
    let found = Found::of(&bytes);
    calls::plan(run, &bytes, &found);
    calls::report(run, &bytes, &found);
}
