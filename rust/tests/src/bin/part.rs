//! The steps of one cluster beside the reference: `pattern_part_steps`, `pattern_part_bytes` and `pattern_part`, for every
//! cluster of each sheet and for numbers that no cluster has. What is had beforehand is what is then written.

use std::process::ExitCode;

use pattern_tests::facts::MOST_ELEMENTS;
use pattern_tests::interface::Found;
use pattern_tests::parts;
use pattern_tests::run::{rules, Hex, Run};
use pattern_tests::verdict::Judged;
use pattern_tests::{calls, damage, dress, ffi, tags};

const ROUNDS: usize = 3_000;
const MOST_PART: usize = 3_534;

fn main() -> ExitCode {
    let mut run = Run::start("part", 50_463_039);
    for round in 0..ROUNDS {
        let most = if round % 4 == 0 { MOST_ELEMENTS } else { 20 };
        let sheet = dress::any(most, &mut run.random);
        let bytes = tags::any(&sheet, &mut run.random);
        let found = Found::of(&bytes);
        let made = clusters(&mut run, &bytes, &found);
        for number in [made, made + 1, made + run.random.below(200), usize::MAX, run.random.bits() as usize | 1 << 40] {
            calls::part(&mut run, &bytes, &found, number);
        }
        let damaged = damage::aimed(&bytes, &mut run.random);
        let number = run.random.below(20);
        calls::part(&mut run, &damaged, &Found::of(&damaged), number);
    }
    longest(&mut run);
    run.must("clusters", "initial", 10_000);
    run.must("clusters", "made, merged away", 5_000);
    run.must("clusters", "made, left at the end", 1_000);
    run.must("clusters", "the whole plan in another order", 100);
    rules((1..=11).chain([17, 18, 26])).for_each(|rule| run.must("pattern_part", &rule, 50));
    rules([19, 20]).for_each(|rule| run.must("pattern_part", &rule, 5));
    run.finish()
}

/// Compares every cluster of a sheet, and answers how many were ever made; none of one that is refused or over.
fn clusters(run: &mut Run, bytes: &[u8], found: &Found) -> usize {
    let (sheet, merges) = match found.accepted() {
        Ok((sheet, Judged::Merged(merges))) => (sheet, merges),
        _ => return 0,
    };
    let made = sheet.e() + merges.steps.len();
    for number in 0..made {
        calls::part(run, bytes, found, number);
        beforehand(run, bytes, number);
        let left = merges.finals.iter().any(|&(living, _)| living == number);
        match (number < sheet.e(), left) {
            (true, _) => run.count("clusters", "initial"),
            (false, true) => run.count("clusters", "made, left at the end"),
            (false, false) => run.count("clusters", "made, merged away"),
        }
        let listed = parts::steps(sheet.e(), merges, number).unwrap_or_default();
        let numbers: Vec<usize> = listed.iter().map(|step| step.made).collect();
        let mut sorted = numbers.clone();
        sorted.sort_unstable();
        let whole: Vec<usize> = merges.steps.iter().map(|step| step.made).collect();
        if merges.finals.len() == 1 && left {
            run.same("reference", &Hex(bytes), &sorted, &whole);
            if numbers != whole {
                run.count("clusters", "the whole plan in another order");
            }
        }
        sorted.dedup();
        run.same("reference", &Hex(bytes), sorted.len(), numbers.len());
    }
    made
}

/// Space for what is had beforehand takes just that.
fn beforehand(run: &mut Run, bytes: &[u8], number: usize) {
    let (steps, length) = (ffi::part_steps(bytes, number), ffi::part_bytes(bytes, number));
    let mut space = vec![7; length as usize];
    let written = ffi::part(bytes, number, &mut space);
    run.same("pattern_part", &Hex(bytes), written, length);
    run.same("pattern_part", &Hex(bytes), space.iter().filter(|&&byte| byte == b'\n').count() as i32, steps);
    run.same("pattern_part", &Hex(bytes), length as usize <= MOST_PART, true);
}

/// The last cluster of the sheet with the longest plan: 62 steps, one inside the other.
fn longest(run: &mut Run) {
    let mut space = [0; 1_414];
    let length = ffi::longest(MOST_ELEMENTS, &mut space) as usize;
    let bytes = &space[..length];
    let found = Found::of(bytes);
    let made = clusters(run, bytes, &found);
    run.same("pattern_part_steps", &Hex(bytes), ffi::part_steps(bytes, made - 1), 62);
}
