//! Damage: sheets, facts and plans with faults.

use crate::facts::{Columns, Constraint, Kind, Opening, Sheet, MOST_ELEMENTS, OTHER, SIZED, TAGGED, TANGENT};
use crate::merging::Merges;
use crate::random::Random;
use crate::{dress, layout};

/// The bytes with one of them changed.
pub fn changed(bytes: &[u8], random: &mut Random) -> Vec<u8> {
    let mut out = bytes.to_vec();
    let at = random.below(out.len());
    alter(&mut out[at], random);
    out
}

/// Changes a byte: a little, one bit, or to any other value.
fn alter(byte: &mut u8, random: &mut Random) {
    let step = random.between(1, 255) as u8;
    *byte = match random.below(4) {
        0 => byte.wrapping_add(1),
        1 => byte.wrapping_sub(1),
        2 => *byte ^ 1 << random.below(8),
        _ => byte.wrapping_add(step),
    };
}

/// The bytes with others after them.
pub fn appended(bytes: &[u8], random: &mut Random) -> Vec<u8> {
    let mut out = bytes.to_vec();
    let more = random.between(1, 12);
    out.extend((0..more).map(|_| random.byte()));
    out
}

/// Random bytes, often with an opening and sound counts.
pub fn noise(random: &mut Random) -> Vec<u8> {
    let mut out: Vec<u8> = (0..random.below(60)).map(|_| random.byte() >> random.below(8)).collect();
    if random.chance(90) {
        let n = random.between(2, MOST_ELEMENTS);
        let opening = random.pick(&[Opening::Pf01, Opening::Pf02]);
        let mut start = opening.bytes().to_vec();
        start.push(n as u8);
        start.extend(vec![0; (opening.kind_bits() * n + 7) / 8]);
        start.push(random.below(4) as u8);
        start.truncate(random.between(4, start.len()));
        out.splice(0..0, start);
    }
    out
}

/// The bytes of a sheet with one fault aimed at a field, and sometimes a second.
pub fn aimed(sheet: &[u8], random: &mut Random) -> Vec<u8> {
    let mut bytes = sheet.to_vec();
    for _ in 0..random.pick(&[1, 1, 1, 2]) {
        aim(sheet, &mut bytes, random);
    }
    bytes
}

/// Puts one fault into the bytes of a sheet, at the place where the sheet has the field.
fn aim(sheet: &[u8], bytes: &mut Vec<u8>, random: &mut Random) {
    let (kinds, count_at, starts) = (layout::kinds(sheet), layout::count_at(sheet), layout::starts(sheet));
    match random.below(if starts.is_empty() { 9 } else { 18 }) {
        0 => alter(&mut bytes[random.below(4)], random),
        1 => bytes[4] = random.pick(&[0, 1, 65, 66, 128, 255]),
        2 => bytes[kinds.end - 1] |= 1 << random.below(8),
        3 => bytes[count_at] = random.between(201, 255) as u8,
        4 => alter(&mut bytes[count_at], random),
        5 => bytes.push(random.byte()),
        6 => {
            let element = random.below(sheet[4].into());
            bytes[kinds.start + element / 4 % kinds.len()] |= 3 << (2 * (element % 4));
        }
        7 => aim_radius(sheet, bytes, random),
        8 => bytes[3] = random.pick(b"12"),
        9 => equal_radii(sheet, bytes, &starts),
        fault => aim_constraint(bytes, random.pick(&starts), fault, &starts, random),
    }
}

/// Radii that no circle has, and some that it has.
const RADII: [u32; 8] = [0, 1, 40_000, 40_001, 40_000 + (1 << 16), 1 << 31, u32::MAX, 300];

/// Puts one fault into a radius, where there is one.
fn aim_radius(sheet: &[u8], bytes: &mut [u8], random: &mut Random) {
    let radii = layout::radii(sheet);
    if !radii.is_empty() {
        let at = radii.start + 4 * random.below(radii.len() / 4);
        bytes[at..at + 4].copy_from_slice(&random.pick(&RADII).to_le_bytes());
    }
}

/// Makes the radii of the first two circles with the other contact equal, where there are such.
fn equal_radii(sheet: &[u8], bytes: &mut [u8], starts: &[usize]) {
    let radii = |&at: &usize| {
        let end = |place: usize| layout::radius_at(sheet, sheet[place].into());
        if sheet[at + 2] & OTHER != 0 {
            Some((end(at)?, end(at + 1)?))
        } else {
            None
        }
    };
    if let Some((a, b)) = starts.iter().find_map(radii) {
        bytes.copy_within(a..a + 4, b);
    }
}

/// Puts one fault into the constraint whose bytes start at `at`.
fn aim_constraint(bytes: &mut [u8], at: usize, fault: usize, starts: &[usize], random: &mut Random) {
    let has_size = bytes[at + 2] & 1 == 1 && at + 7 <= bytes.len(); // an earlier fault may have set the bit
    match fault {
        10 => bytes.swap(at, at + 1),
        11 => bytes[at] = bytes[at + 1],
        12 => bytes[at + 1] = random.pick(&[63, 64, 255]),
        13 | 14 => {
            let other = random.pick(starts);
            bytes.copy_within(other..other + 2, at);
        }
        15 => bytes[at + 2] ^= 1 << random.below(8),
        16 if has_size => {
            let size = random.pick(&[0, -1, 40_001, -40_001, 18_000, -18_000, i32::MIN, i32::MAX, 1 << 16]);
            bytes[at + 3..at + 7].copy_from_slice(&size.to_le_bytes());
        }
        _ => alter(&mut bytes[at + random.below(3)], random),
    }
}

/// The facts of a sheet as lists, with up to three faults; places beyond the counts, and the radii of what is no circle, hold anything.
pub fn facts(sheet: &Sheet, random: &mut Random) -> Columns {
    let mut facts = Columns::of(sheet);
    for i in 0..facts.n {
        if facts.kinds[i] != 2 {
            facts.radii[i] = random.bits() as u32;
        }
    }
    for _ in 0..random.below(20) {
        facts.kinds.push(random.byte() % 4);
        facts.radii.push(random.bits() as u32);
    }
    for _ in 0..random.below(30) {
        facts.firsts.push(random.byte() % 64);
        facts.seconds.push(random.byte() % 64);
        facts.maps.push(random.byte() % 16);
        facts.sizes.push(random.bits() as i32);
    }
    for _ in 0..random.below(4) {
        spoil(&mut facts, random);
    }
    facts
}

/// Puts one fault into facts.
fn spoil(facts: &mut Columns, random: &mut Random) {
    match random.below(44) {
        0 => facts.n = random.pick(&[0, 1, 65, 66, 256, 258, 1 << 32, (1 << 32) + 4, usize::MAX]),
        1 => facts.e = random.pick(&[201, 202, 255, 256, 457, 1 << 32, usize::MAX]),
        2 => facts.e = random.below(201),
        3 => facts.opening = random.pick(&[0, 1, 2, 3, 257, (1 << 32) + 2, usize::MAX]),
        4 => facts.n = random.between(2, 64),
        5..=7 => spoil_elements(facts, random),
        8 | 9 => equal_listed(facts),
        _ => spoil_constraint(facts, random),
    }
}

/// Puts a fault into the kinds or the radii, and often another beside it, so that it shows which rule is tried first.
fn spoil_elements(facts: &mut Columns, random: &mut Random) {
    spoil_element(facts, random);
    match random.below(6) {
        0 => facts.opening = 1,
        1 => facts.e = 201,
        2 => facts.n = random.pick(&[1, 65]),
        3 => spoil_element(facts, random),
        _ => {}
    }
}

/// Puts one fault into the kinds or the radii.
fn spoil_element(facts: &mut Columns, random: &mut Random) {
    if facts.kinds.is_empty() || facts.radii.is_empty() {
        return;
    }
    let (at, circle) = (random.below(facts.kinds.len()), random.below(facts.radii.len()));
    match random.below(8) {
        0 => facts.kinds[at] = random.pick(&[3, 4, 6, 255]),
        1 => facts.kinds[at] = random.pick(&[0, 1, 2]),
        2 => facts.kinds.truncate(at),
        3 => facts.radii.truncate(circle),
        _ => facts.radii[circle] = random.pick(&RADII),
    }
}

/// Makes the radii of the first two circles with the other contact equal, where there are such.
fn equal_listed(facts: &mut Columns) {
    let ends = |i: usize| {
        let (first, second) = (usize::from(*facts.firsts.get(i)?), usize::from(*facts.seconds.get(i)?));
        let circles = facts.kinds.get(first)? & facts.kinds.get(second)? == 2 && first.max(second) < facts.radii.len();
        (facts.maps[i] & OTHER != 0 && circles).then_some((first, second))
    };
    if let Some((first, second)) = (0..facts.maps.len()).find_map(ends) {
        facts.radii[first] = facts.radii[second];
    }
}

/// Puts one fault into a constraint of the facts, where there is one.
fn spoil_constraint(facts: &mut Columns, random: &mut Random) {
    let known = [facts.firsts.len(), facts.seconds.len(), facts.maps.len(), facts.sizes.len()];
    let shortest = known.into_iter().min().unwrap_or(0).min(facts.e);
    if shortest == 0 {
        return;
    }
    let (at, other) = (random.below(shortest), random.below(shortest));
    match random.below(13) {
        0 => std::mem::swap(&mut facts.firsts[at], &mut facts.seconds[at]),
        1 => facts.seconds[at] = random.pick(&[0, facts.firsts[at], 63, 64, 255]),
        2 => facts.firsts[at] = random.pick(&[facts.seconds[at], 64, 255]),
        3 | 4 => (facts.firsts[at], facts.seconds[at]) = (facts.firsts[other], facts.seconds[other]),
        5 => facts.maps[at] ^= 1,
        6 => facts.maps[at] ^= 1 << random.below(8),
        7..=9 => {
            facts.maps[at] |= 1;
            facts.sizes[at] =
                random.pick(&[0, -1, 40_000, 40_001, -40_000, -40_001, 17_999, 18_000, -18_000, i32::MIN, i32::MAX]);
        }
        10 => facts.maps[at] = random.pick(&[TANGENT, TANGENT | OTHER]),
        _ => cut(facts, at, random),
    }
}

/// Makes one of the constraints' lists shorter.
fn cut(facts: &mut Columns, at: usize, random: &mut Random) {
    match random.below(4) {
        0 => facts.firsts.truncate(at),
        1 => facts.seconds.truncate(at),
        2 => facts.maps.truncate(at),
        _ => facts.sizes.truncate(at),
    }
}

/// A constraint for a sketch: sound, or with a fault in one field; a size that is not given may be anything.
pub fn offered(held: &Sheet, random: &mut Random) -> Constraint {
    let mut more = dress::next(&held.kinds, random);
    if !more.is_sized() {
        more.size = random.bits() as i32;
    }
    match random.below(14) {
        0 => more.first = random.byte() >> random.below(8),
        1 => more.second = random.byte() >> random.below(8),
        2 => more.map &= !(SIZED | TANGENT | OTHER),
        3 => {
            more.map = SIZED;
            more.size = random.pick(&[0, 40_001, -40_001, 18_000, -18_000, i32::MIN, i32::MAX]);
        }
        4 => more.map ^= 1 << random.below(8),
        5 => more.map = random.pick(&[TANGENT, TANGENT | OTHER, TANGENT | OTHER | TAGGED]),
        6 if held.e() > 0 => {
            let old = held.constraints[random.below(held.e())];
            (more.first, more.second) = (old.first, old.second);
        }
        7 => more = alike(&held.kinds, random).unwrap_or(more),
        _ => {}
    }
    more
}

/// The other contact of two circles with equal radii, where there are such.
fn alike(kinds: &[Kind], random: &mut Random) -> Option<Constraint> {
    let circles: Vec<usize> = (0..kinds.len()).filter(|&i| kinds[i].radius().is_some()).collect();
    let first = *circles.get(random.below(circles.len().max(1)))?;
    let second = circles.into_iter().find(|&i| i > first && kinds[i] == kinds[first])?;
    Some(Constraint::other_tangent(first as u8, second as u8))
}

/// A plan with the numbers of each step in a random order.
pub fn turned(merges: &Merges, random: &mut Random) -> Vec<u16> {
    let mut plan = merges.numbers();
    plan.chunks_mut(3).for_each(|step| random.shuffle(step));
    plan
}

/// A plan with one fault.
pub fn plan(plan: &[u16], random: &mut Random) -> Vec<u16> {
    let mut out = plan.to_vec();
    let at = random.below(out.len().max(1));
    let step = at / 3 * 3..out.len().min(at / 3 * 3 + 3);
    match random.below(9) {
        0 => out.truncate(at),
        1 => out.truncate(step.start),
        2 => out.push(random.below(200) as u16),
        3 => out.extend([0, 1, 2]),
        _ if out.is_empty() => out.extend([0, 1, random.below(4) as u16]),
        4 => out[at] = out[at].wrapping_add(random.pick(&[1, 256, 65_535])),
        5 => out[at] = random.bits() as u16 >> random.below(16),
        6 => out[at] = random.pick(&plan[step]),
        7 => drop(out.drain(step)),
        _ => out.swap(at, random.below(plan.len())),
    }
    out
}
