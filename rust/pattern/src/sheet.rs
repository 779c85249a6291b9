//! Sheets as bytes: written from their facts, written again, and the one with the longest plan.

use crate::answer::written;
use crate::c::{self, len, Length};
use crate::{Facts, Rule, MOST_CONSTRAINTS, MOST_ELEMENTS};

/// Reads a sheet and writes it again: the same sheet without its tags.
///
/// ```
/// use pattern::Rule;
///
/// let mut space = [7; 8];
/// assert_eq!(pattern::rewrite(b"PF01\x02\0\0", &mut space)?, b"PF01\x02\0\0");
/// assert_eq!(space[7], 7); // beyond the answer nothing changes
///
/// // a point on a line, with a tag
/// let mut space = [0; 10];
/// let plain = pattern::rewrite(b"PF01\x02\x01\x01\0\x01\x02\x05\0", &mut space)?;
/// assert_eq!(plain, b"PF01\x02\x01\x01\0\x01\0");
///
/// assert_eq!(pattern::rewrite(b"PF01\x41", &mut space), Err(Rule(3)));
/// assert_eq!(pattern::rewrite(b"PF01\x02\0\0", &mut space[..6]), Err(Rule(17)));
/// # Ok::<(), Rule>(())
/// ```
pub fn rewrite<'a>(sheet: &[u8], out: &'a mut [u8]) -> Result<&'a [u8], Rule> {
    // SAFETY: each list is a live slice of its length, and `out` is borrowed alone.
    let answer = unsafe { c::pattern_rewrite(sheet.as_ptr(), len(sheet), out.as_mut_ptr(), len(out)) };
    written(answer, out)
}

/// Writes a sheet from its facts.
///
/// ```
/// use pattern::{Constraint, Dimension, Facts, Kind, MOST_BYTES, Rule};
///
/// // a point on a line
/// let on = [Constraint::new(0, 1, Dimension::On)];
/// let mut facts = Facts::pf01(&[Kind::Line, Kind::Point], &on);
/// let mut space = [0; MOST_BYTES];
/// assert_eq!(pattern::write(&facts, &mut space)?, b"PF01\x02\x01\x01\0\x01\0");
///
/// // two points have no such constraint
/// facts.kinds = &[Kind::Point; 2];
/// assert_eq!(pattern::write(&facts, &mut space), Err(Rule(8)));
///
/// // a round light of radius 300 mm stands on a sill, and a point of it lies 400 mm above
/// let touches = |first, second| Constraint::new(first, second, Dimension::Tangent);
/// let constraints = [touches(0, 1), touches(1, 2), Constraint::sized(0, 2, 4_000)];
/// let light = Facts::pf02(&[Kind::Line, Kind::Circle(3_000), Kind::Point], &constraints);
/// let sheet = pattern::write(&light, &mut space)?;
/// let steps = pattern::steps(sheet)?;
/// assert_eq!((steps.len(), steps[0].ways), (1, Some(2)));
/// assert_eq!(pattern::write(&Facts::pf01(light.kinds, &constraints), &mut space), Err(Rule(18)));
/// # Ok::<(), Rule>(())
/// ```
pub fn write<'a>(facts: &Facts, out: &'a mut [u8]) -> Result<&'a [u8], Rule> {
    let &Facts { opening, kinds, constraints } = facts;
    let mut columns = Columns::default();
    for (i, kind) in kinds.iter().take(MOST_ELEMENTS).enumerate() {
        columns.kinds[i] = kind.number();
        columns.radii[i] = kind.radius();
    }
    for (i, constraint) in constraints.iter().take(MOST_CONSTRAINTS).enumerate() {
        columns.firsts[i] = constraint.first;
        columns.seconds[i] = constraint.second;
        columns.maps[i] = constraint.map();
        columns.sizes[i] = constraint.size();
    }
    let Columns { kinds: numbers, radii, firsts, seconds, maps, sizes } = &columns;
    // SAFETY: each list is a live slice of its length, and `out` is borrowed alone.
    let answer = unsafe {
        c::pattern_write(
            opening as Length,
            len(kinds),
            len(constraints),
            numbers.as_ptr(),
            len(numbers),
            radii.as_ptr(),
            len(radii),
            firsts.as_ptr(),
            len(firsts),
            seconds.as_ptr(),
            len(seconds),
            maps.as_ptr(),
            len(maps),
            sizes.as_ptr(),
            len(sizes),
            out.as_mut_ptr(),
            len(out),
        )
    };
    written(answer, out)
}

/// The sheet of n points with the longest plan, n - 2 steps, as bytes.
///
/// ```
/// use pattern::Rule;
///
/// let mut space = [0; pattern::MOST_BYTES];
/// let sheet = pattern::longest(64, &mut space)?;
/// let mut plan = [0; pattern::MOST_PLAN];
/// assert_eq!(pattern::plan(sheet, &mut plan)?.len(), 3 * 62);
/// assert_eq!(pattern::longest(65, &mut space), Err(Rule(3)));
/// # Ok::<(), Rule>(())
/// ```
pub fn longest(n: usize, out: &mut [u8]) -> Result<&[u8], Rule> {
    // SAFETY: the list is a live slice of its length, and `out` is borrowed alone.
    let answer = unsafe { c::pattern_longest(n as Length, out.as_mut_ptr(), len(out)) };
    written(answer, out)
}

/// The kinds and radii of the elements and the fields of the constraints, a list each.
struct Columns {
    kinds: [u8; MOST_ELEMENTS],
    radii: [u32; MOST_ELEMENTS],
    firsts: [u8; MOST_CONSTRAINTS],
    seconds: [u8; MOST_CONSTRAINTS],
    maps: [u8; MOST_CONSTRAINTS],
    sizes: [i32; MOST_CONSTRAINTS],
}

impl Default for Columns {
    fn default() -> Columns {
        Columns {
            kinds: [0; MOST_ELEMENTS],
            radii: [0; MOST_ELEMENTS],
            firsts: [0; MOST_CONSTRAINTS],
            seconds: [0; MOST_CONSTRAINTS],
            maps: [0; MOST_CONSTRAINTS],
            sizes: [0; MOST_CONSTRAINTS],
        }
    }
}
