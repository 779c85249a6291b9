//! Where the fields stand in the bytes of an accepted sheet.

use std::ops::Range;

/// Where the kinds stand.
pub fn kinds(sheet: &[u8]) -> Range<usize> {
    5..5 + (width(sheet) * usize::from(sheet[4]) + 7) / 8
}

/// How many bits a kind has.
fn width(sheet: &[u8]) -> usize {
    if sheet[3] == b'2' {
        2
    } else {
        1
    }
}

/// Where the radii of the circles stand.
pub fn radii(sheet: &[u8]) -> Range<usize> {
    let from = kinds(sheet).end;
    from..from + 4 * (0..usize::from(sheet[4])).filter(|&i| radius_at(sheet, i).is_some()).count()
}

/// Where the radius of an element stands, if it is a circle.
pub fn radius_at(sheet: &[u8], element: usize) -> Option<usize> {
    let circle = |i: usize| width(sheet) == 2 && sheet[5 + i / 4] >> (2 * (i % 4)) & 0b10 != 0;
    circle(element).then(|| kinds(sheet).end + 4 * (0..element).filter(|&i| circle(i)).count())
}

/// Where the count of constraints stands.
pub fn count_at(sheet: &[u8]) -> usize {
    radii(sheet).end
}

/// Where each constraint starts.
pub fn starts(sheet: &[u8]) -> Vec<usize> {
    let count_at = count_at(sheet);
    let mut next = count_at + 1;
    let mut start = || {
        let at = next;
        let map = sheet[at + 2];
        next += usize::from(3 + 4 * (map & 1) + (map & 2));
        at
    };
    (0..sheet[count_at]).map(|_| start()).collect()
}
