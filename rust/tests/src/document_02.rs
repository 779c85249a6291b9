//! The reference on small sheets of document 02, 2026-01: circles of known radius.

use crate::facts::{Columns, Constraint, Kind, Opening, Sheet};
use crate::interface::{self, Found};
use crate::{reader, sketch, writer};

/// A round light of radius 300 mm and one of 50 mm beside it: both stand on line 0 and touch each other, and the large
/// one touches line 1, which is at 90 degrees to line 0.
const ROUND_LIGHT: &[u8] =
    b"PF02\x04\xa5\xb8\x0b\0\0\xf4\x01\0\0\x05\0\x02\x04\0\x03\x04\x02\x03\x04\0\x01\x01\x28\x23\0\0\x01\x02\x04";

/// A PF02 sheet.
fn round(kinds: &[Kind], constraints: &[Constraint]) -> Sheet {
    Sheet { opening: Opening::Pf02, kinds: kinds.to_vec(), constraints: constraints.to_vec() }
}

/// A sheet's report.
fn report(sheet: &Sheet) -> String {
    String::from_utf8(Found::of(&writer::bytes(sheet)).report().expect("an accepted sheet")).expect("ASCII")
}

/// What reading some bytes gives, as a rule's number; 0 where they are accepted.
fn refused(bytes: &[u8]) -> u8 {
    reader::read(bytes).err().unwrap_or(0)
}

#[test]
fn a_round_light() {
    let sheet = round(
        &[Kind::Line, Kind::Line, Kind::Circle(3_000), Kind::Circle(500)],
        &[
            Constraint::tangent(0, 2),
            Constraint::tangent(0, 3),
            Constraint::tangent(2, 3),
            Constraint::sized(0, 1, 9_000),
            Constraint::tangent(1, 2),
        ],
    );
    assert_eq!(reader::read(ROUND_LIGHT).as_ref(), Ok(&sheet));
    assert_eq!(interface::rewrite(ROUND_LIGHT), Ok(ROUND_LIGHT.to_vec()));
    assert_eq!(writer::write(&Columns::of(&sheet)), Ok(ROUND_LIGHT.to_vec()));
    let wanted = "verdict well\n\
                  elements 4 constraints 5\n\
                  step 5 from 0 1 2 joint 0 2 3 kind ppl ways 2\n\
                  step 6 from 3 4 5 joint 0 1 2 kind pll ways ?\n\
                  cluster 6 holds 0 1 2 3 rests on 0 1 2 3 4\n";
    assert_eq!(report(&sheet), wanted);
    assert_eq!(report(&sheet.centres()), wanted);
    // within the large one the small one touches it where it stands
    let mut within = sheet;
    within.constraints[2] = Constraint::other_tangent(2, 3);
    assert_eq!(report(&within), wanted.replace("ways 2", "ways 1"));
    // on the other side of the line it does not reach it from within
    within.constraints[1] = Constraint::other_tangent(0, 3);
    assert_eq!(report(&within), wanted.replace("ways 2", "ways 0"));
}

#[test]
fn what_a_contact_means() {
    let kinds = [Kind::Line, Kind::Circle(300), Kind::Point, Kind::Circle(40_000), Kind::Circle(39_999), Kind::Line];
    let sheet = round(&kinds, &[]);
    for (constraint, distance) in [
        (Constraint::tangent(0, 1), 300),
        (Constraint::other_tangent(0, 1), -300),
        (Constraint::tangent(1, 5), 300),
        (Constraint::other_tangent(1, 5), -300),
        (Constraint::tangent(1, 2), 300),
        (Constraint::tangent(2, 3), 40_000),
        (Constraint::tangent(3, 4), 79_999),
        (Constraint::other_tangent(3, 4), 1),
        (Constraint::other_tangent(1, 3), 39_700),
        (Constraint::sized(0, 1, -5), -5),
        (Constraint::bare(0, 1), 0),
    ] {
        assert_eq!(sheet.distance(&constraint), distance, "{constraint:?}");
        assert_eq!(sketch::next(&sheet, &constraint).map(|next| next.e()), Ok(1), "{constraint:?}");
    }
}

#[test]
fn kinds_and_radii() {
    // five elements: the kinds have two bytes, of which two bits are used in the second
    for (bytes, rule) in [
        (&b"PF02\x05\0"[..], 2),
        (b"PF02\x05\x03\x04", 4),
        (b"PF02\x05\x03\0", 18),
        (b"PF02\x05\0\x03\xff", 18),
        (b"PF02\x05\0\0", 2),
        (b"PF02\x05\0\0\0", 0),
        (b"PF02\x05\0\x02\0\0\0", 2),
        (b"PF02\x05\0\x02\0\0\0\0\xff", 19),
        (b"PF02\x05\0\x02\x01\0\0\0\xff", 5),
        (b"PF02\x05\0\x02\x40\x9c\0\0\0", 0),
        (b"PF02\x05\0\x02\x41\x9c\0\0\0", 19),
        (b"PF02\x05\0\x02\x01\0\0\x80\0", 19),
        (b"PF02\x05\x0a\0\0\0\0\0\x01", 19), // a bad first radius, though the second is cut off
        (b"PF02\x05\x0a\0\x01\0\0\0\x01", 2),
        (b"PF03\x05\0\0\0", 1),
        (b"PF02", 2),
        (b"PF0", 1),
    ] {
        assert_eq!(refused(bytes), rule, "{bytes:02x?}");
    }
}

#[test]
fn maps() {
    let kinds =
        [Kind::Point, Kind::Point, Kind::Line, Kind::Line, Kind::Circle(300), Kind::Circle(300), Kind::Circle(200)];
    let sheet = round(&kinds, &[]);
    // of each kind of pair the maps that are allowed, without bit 1
    for (first, second, allowed) in [
        (0, 1, &[1][..]),
        (0, 2, &[0, 1]),
        (2, 3, &[1]),
        (0, 4, &[1, 4]),
        (2, 4, &[0, 1, 4, 12]),
        (4, 5, &[1, 4]),
        (4, 6, &[1, 4, 12]),
    ] {
        for map in 0..=255_u8 {
            let more = Constraint { first, second, map, size: 7 };
            let rule = sketch::next(&sheet, &more).err().unwrap_or(0);
            let wanted = match map & !2 {
                12 if (first, second) == (4, 5) => 20,
                map if allowed.contains(&map) => 0,
                _ => 8,
            };
            assert_eq!(rule, wanted, "{more:?}");
            let mut bytes = writer::bytes(&sheet);
            *bytes.last_mut().expect("a count") = 1;
            bytes.extend([first, second, map]);
            bytes.extend([7, 0, 0, 0].iter().take(4 * usize::from(map & 1)));
            bytes.extend([9, 9].iter().take(usize::from(map & 2)));
            assert_eq!(refused(&bytes), wanted, "{more:?}");
        }
    }
}

#[test]
fn sizes_with_a_circle() {
    let sheet = round(&[Kind::Circle(1), Kind::Circle(2), Kind::Line, Kind::Point], &[]);
    for (first, second, size, rule) in [
        (0, 1, 40_000, 0),
        (0, 1, 40_001, 9),
        (0, 1, 0, 9),
        (0, 1, -1, 9),
        (0, 2, -40_000, 0),
        (0, 2, -40_001, 9),
        (0, 2, 0, 9),
        (1, 3, 40_000, 0),
        (1, 3, -1, 9),
    ] {
        let more = Constraint::sized(first, second, size);
        assert_eq!(sketch::next(&sheet, &more).err().unwrap_or(0), rule, "{more:?}");
    }
}

#[test]
fn the_writers_order() {
    let sheet = round(&[Kind::Circle(0), Kind::Line], &[Constraint::bare(1, 0)]);
    let mut facts = Columns { opening: 3, n: 1, e: 201, kinds: vec![2, 3], ..Columns::of(&sheet) };
    let rule = |facts: &Columns| writer::write(facts).err().unwrap_or(0);
    assert_eq!(rule(&facts), 1);
    facts.opening = 2;
    assert_eq!(rule(&facts), 3);
    facts.n = 2;
    assert_eq!(rule(&facts), 18);
    facts.kinds[1] = 1;
    assert_eq!(rule(&facts), 19);
    assert_eq!(rule(&Columns { opening: 1, ..facts.clone() }), 18);
    assert_eq!(rule(&Columns { kinds: vec![2], ..facts.clone() }), 18);
    facts.radii[0] = 300;
    assert_eq!(rule(&Columns { radii: vec![], ..facts.clone() }), 19);
    assert_eq!(rule(&facts), 5);
    facts.e = 1;
    assert_eq!(rule(&facts), 6);
}

#[test]
fn a_sheet_keeps_its_opening() {
    for bytes in [&b"PF01\x02\0\0"[..], b"PF02\x02\0\0"] {
        assert_eq!(interface::rewrite(bytes), Ok(bytes.to_vec()));
        assert_eq!(Found::of(bytes).report(), Ok(b"verdict under\nelements 2 constraints 0\n".to_vec()));
    }
}

#[test]
fn a_held_round_light() {
    let record = interface::hold(&ROUND_LIGHT[..ROUND_LIGHT.len() - 3]);
    assert_eq!(record, Err(2));
    let mut bytes = ROUND_LIGHT[..ROUND_LIGHT.len() - 3].to_vec();
    bytes[14] = 4;
    let record = interface::hold(&bytes).expect("a sheet that may be held");
    assert_eq!(sketch::ask(&record, &Constraint::tangent(1, 2)), Ok(2));
    assert_eq!(sketch::ask(&record, &Constraint::tangent(0, 1)), Err(7));
    assert_eq!(sketch::ask(&record, &Constraint::tangent(1, 3)), Ok(2));
    let placed = sketch::place(&record, &Constraint::tangent(1, 2), 4).expect("a constraint that it takes");
    assert_eq!(writer::bytes(&placed), ROUND_LIGHT);
    assert_eq!(sketch::ask(&sketch::record(&placed), &Constraint::tangent(1, 3)), Err(11));
}
