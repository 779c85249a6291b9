//! The cheapest missing dimensions beside plain Rust: all sets of pairs on small sheets, a greedy choice on large ones.

use std::process::ExitCode;

use pattern_tests::facts::{Constraint, Kind, Sheet, MOST_ELEMENTS};
use pattern_tests::missing::{by_all_sets, by_greed, completed, DEAREST, UNMEASURED};
use pattern_tests::random::Random;
use pattern_tests::run::{rules, Run};
use pattern_tests::{calls, damage, dress, ffi, tags, writer};

const SMALL: usize = 6_000;
const LARGE: usize = 2_400;

fn main() -> ExitCode {
    let mut run = Run::start("missing", 50_463_043);
    for _ in 0..SMALL {
        let sheet = thinned(dress::any(5, &mut run.random), &mut run.random);
        let prices = prices(&sheet, &mut run.random);
        let bytes = tags::any(&sheet, &mut run.random);
        let answer = by_all_sets(&sheet, &prices);
        run.same("by_greed", &format_args!("{sheet:?} {prices:?}"), by_greed(&sheet, &prices), answer.clone());
        calls::missing(&mut run, &bytes, &prices);
        complete(&mut run, &sheet, &answer);
    }
    for round in 0..LARGE {
        let most = if round % 8 == 0 { MOST_ELEMENTS } else { 24 };
        let sheet = thinned(dress::any(most, &mut run.random), &mut run.random);
        let prices = prices(&sheet, &mut run.random);
        let bytes = tags::any(&sheet, &mut run.random);
        calls::missing(&mut run, &bytes, &prices);
        let faulty = faulty(&prices, &mut run.random);
        calls::missing(&mut run, &bytes, &faulty);
        let damaged = damage::aimed(&bytes, &mut run.random);
        calls::missing(&mut run, &damaged, &prices);
        complete(&mut run, &sheet, &by_greed(&sheet, &prices));
    }
    rules((1..=11).chain(18..=20)).for_each(|rule| run.must("pattern_missing", &rule, 1));
    rules([11, 17, 21, 22, 23]).for_each(|rule| run.must("pattern_missing", &rule, 50));
    for (what, least) in [("none", 100), ("some", 500), ("more than 60", 10)] {
        run.must("pairs missing", what, least);
    }
    for kinds in ["with lines", "with circles", "with lines and circles"] {
        run.must("sheets", kinds, 300);
    }
    run.finish()
}

/// A sheet with some of its constraints.
fn thinned(mut sheet: Sheet, random: &mut Random) -> Sheet {
    let percent = random.pick(&[0, 0, 20, 50, 80, 100]);
    sheet.constraints.retain(|_| !random.chance(percent));
    if random.chance(50) {
        sheet.kinds.fill(Kind::Point);
        sheet.constraints.iter_mut().for_each(|c| *c = Constraint::sized(c.first, c.second, 300));
    }
    sheet
}

/// A price for each pair: all equal, many ties, many that can't be measured, or any.
fn prices(sheet: &Sheet, random: &mut Random) -> Vec<u16> {
    let n = sheet.n();
    let (most, unmeasured) = random.pick(&[(0, 0), (1, 0), (3, 20), (1_000, 0), (1_000, 10), (5, 60), (1_000, 90)]);
    let price = |random: &mut Random| match random.chance(unmeasured) {
        true => UNMEASURED,
        false => random.below(most + 1) as u16,
    };
    (0..n * (n - 1) / 2).map(|_| price(random)).collect()
}

/// A list of another length, or with a price that is not allowed.
fn faulty(prices: &[u16], random: &mut Random) -> Vec<u16> {
    let mut prices = prices.to_vec();
    match random.below(4) {
        0 => prices.push(0),
        1 => {
            prices.pop();
        }
        _ => {
            let at = random.below(prices.len());
            prices[at] = random.between(usize::from(DEAREST) + 1, usize::from(UNMEASURED) - 1) as u16;
        }
    }
    prices
}

/// The completed sheet has 2n-3 constraints and is not over.
fn complete(run: &mut Run, sheet: &Sheet, answer: &Result<Vec<pattern_tests::missing::Offer>, u8>) {
    let circle = sheet.kinds.iter().any(|kind| kind.radius().is_some());
    match (sheet.kinds.contains(&Kind::Line), circle) {
        (true, true) => run.count("sheets", "with lines and circles"),
        (true, false) => run.count("sheets", "with lines"),
        (false, true) => run.count("sheets", "with circles"),
        (false, false) => {}
    }
    let list = match answer {
        Ok(list) => list,
        Err(_) => return,
    };
    run.count(
        "pairs missing",
        match list.len() {
            0 => "none",
            1..=60 => "some",
            _ => "more than 60",
        },
    );
    let whole = completed(sheet, list);
    run.same("completed", &format_args!("{sheet:?} {list:?}"), whole.e(), 2 * whole.n() - 3);
    let verdict = ffi::verdict(&writer::bytes(&whole));
    run.same("verdict", &format_args!("{sheet:?} {list:?}"), verdict >= 1, true);
}
