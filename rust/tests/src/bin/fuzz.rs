//! Every function on random, damaged and structured inputs, a million calls.

use std::process::ExitCode;

use pattern_tests::facts::{Columns, Constraint, MOST_ELEMENTS};
use pattern_tests::interface::Found;
use pattern_tests::random::Random;
use pattern_tests::run::Run;
use pattern_tests::{calls, damage, dress, reader, tags};

const CALLS: u64 = 1_000_000;

fn main() -> ExitCode {
    let mut run = Run::start("fuzz", 50_463_035);
    while run.calls() < CALLS {
        let bytes = sheet(&mut run.random);
        let found = Found::of(&bytes);
        calls::rewrite(&mut run, &bytes);
        calls::over(&mut run, &bytes);
        calls::initial(&mut run, &bytes);
        calls::plan(&mut run, &bytes, &found);
        calls::report(&mut run, &bytes, &found);
        let (from, to) = (end(&mut run.random), end(&mut run.random));
        let _ = calls::chain(&mut run, &bytes, &found, from, to);
        let saved = found.plan().unwrap_or_default();
        let count = number(saved.len() / 9, &mut run.random);
        let _ = calls::open(&mut run, &bytes, &found, count);
        let number = number(saved.len() / 3, &mut run.random);
        calls::part(&mut run, &bytes, &found, number);
        let plan = plan(&saved, &mut run.random);
        calls::check_plan(&mut run, &bytes, &plan);
        let prices = prices(&bytes, &mut run.random);
        calls::missing(&mut run, &bytes, &prices);
        calls::steps(&mut run, &bytes, &found);
        calls::saved_steps(&mut run, &bytes, &plan);
        calls::hold(&mut run, &bytes);
        let (record, more) = (record(&bytes, &mut run.random), constraint(&bytes, &mut run.random));
        calls::ask(&mut run, &record, &more);
        let held = run.random.below(6);
        calls::place(&mut run, &record, &more, held);
        calls::held(&mut run, &record);
        calls::told_of_held(&mut run, &record);
        let facts = facts(&bytes, &mut run.random);
        calls::write(&mut run, &facts);
        let (a, b) = (run.random.bits(), run.random.bits());
        calls::shared(&mut run, a, b);
        let number = run.random.bits() as usize >> run.random.below(64);
        calls::longest(&mut run, number);
        calls::card(&mut run, number);
    }
    run.finish()
}

/// A sheet's bytes with anything from no damage to noise alone.
fn sheet(random: &mut Random) -> Vec<u8> {
    let most = random.pick(&[4, 8, 8, 16, 16, 24, MOST_ELEMENTS]);
    let sheet = dress::any(most, random);
    let mut bytes = tags::any(&sheet, random);
    match random.below(10) {
        0 => damage::noise(random),
        1 => damage::appended(&bytes, random),
        2 => {
            bytes.truncate(random.below(bytes.len() + 1));
            bytes
        }
        3 => damage::aimed(&bytes, random),
        4 => (0..random.between(1, 5)).fold(bytes, |bytes, _| damage::changed(&bytes, random)),
        5 => {
            let other = dress::any(most, random);
            spliced(bytes, &tags::any(&other, random), random)
        }
        _ => bytes,
    }
}

/// The start of one sheet with the end of another.
fn spliced(mut bytes: Vec<u8>, other: &[u8], random: &mut Random) -> Vec<u8> {
    bytes.truncate(random.below(bytes.len() + 1));
    bytes.extend_from_slice(&other[random.below(other.len())..]);
    bytes
}

/// A cluster's number: one that may be a made cluster's, or any.
fn number(steps: usize, random: &mut Random) -> usize {
    match random.below(8) {
        0 => random.bits() as usize >> random.below(64),
        1 => random.below(300),
        _ => random.below(3 * steps + 4),
    }
}

/// An element, or a number that is none.
fn end(random: &mut Random) -> usize {
    let most = random.pick(&[4, 8, 16, MOST_ELEMENTS]);
    match random.below(16) {
        0 => random.bits() as usize,
        1 => 256 + random.below(64),
        _ => random.below(most),
    }
}

/// A price list for a sheet of at most 16 elements, and now and then one of another length or with a price that is not allowed.
fn prices(sheet: &[u8], random: &mut Random) -> Vec<u16> {
    let n = reader::read(sheet).map_or(3, |sheet| sheet.n()).min(16);
    let length = n * (n - 1) / 2 + usize::from(random.chance(5));
    let most = random.pick(&[1, 4, 1_001]);
    let unmeasured = random.pick(&[0, 20, 80]);
    let dear = if random.chance(5) { 1 } else { 0 };
    let price = |random: &mut Random| if random.chance(unmeasured) { 65_535 - dear } else { random.below(most) as u16 };
    (0..length).map(|_| price(random)).collect()
}

/// A plan: the engine's, that with faults, or random numbers.
fn plan(saved: &[u16], random: &mut Random) -> Vec<u16> {
    match random.below(4) {
        0 => saved.to_vec(),
        1 => (0..random.below(12)).map(|_| random.below(20) as u16).collect(),
        2 => (0..random.between(1, 3)).fold(saved.to_vec(), |plan, _| damage::plan(&plan, random)),
        _ => damage::plan(saved, random),
    }
}

/// A record that counts these bytes, or another number of them.
fn record(bytes: &[u8], random: &mut Random) -> Vec<u8> {
    let count = if random.chance(90) { bytes.len() } else { random.below(2000) };
    let mut out = (count as u16).to_le_bytes().to_vec();
    out.extend_from_slice(bytes);
    let room = out.len() + random.below(40);
    out.resize_with(room, || random.byte());
    out
}

/// A constraint for a sheet: sound or random.
fn constraint(sheet: &[u8], random: &mut Random) -> Constraint {
    match reader::read(sheet) {
        Ok(sheet) if random.chance(80) => dress::next(&sheet.kinds, random),
        _ => Constraint {
            first: random.byte() >> random.below(8),
            second: random.byte() >> random.below(8),
            map: random.byte() >> random.below(8),
            size: random.bits() as i32 >> random.below(32),
        },
    }
}

/// Facts: a sheet's with faults, or random lists.
fn facts(sheet: &[u8], random: &mut Random) -> Columns {
    if let Ok(sheet) = reader::read(sheet) {
        return damage::facts(&sheet, random);
    }
    let mut length = || random.below(8);
    let lengths = [length(), length(), length(), length(), 8 * length(), 8 * length()];
    Columns {
        opening: random.below(4),
        n: random.below(80),
        e: random.below(6),
        kinds: (0..lengths[4]).map(|_| random.byte() % 3).collect(),
        radii: (0..lengths[5]).map(|_| random.bits() as u32 >> random.below(32)).collect(),
        firsts: (0..lengths[0]).map(|_| random.byte() % 4).collect(),
        seconds: (0..lengths[1]).map(|_| random.byte() % 8).collect(),
        maps: (0..lengths[2]).map(|_| random.byte() % 16).collect(),
        sizes: (0..lengths[3]).map(|_| random.bits() as i32 >> random.below(32)).collect(),
    }
}
