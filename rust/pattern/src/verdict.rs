//! What a sheet is, what makes it over, and what it lacks.

use crate::answer::{counted, written};
use crate::c::{self, len, Length};
use crate::Rule;

/// What is said of a sheet, in the order it is tried.
#[derive(Clone, Copy, PartialEq, Eq, Debug)]
pub enum Verdict {
    /// Some part has a constraint too many.
    Over,
    /// Some three lines are held by their angles alone, or angles run round through four or more parts that share lines.
    Angle,
    /// Fully dimensioned, and built from parts three at a time.
    Well,
    /// As many constraints as that needs, but no such construction.
    Stuck,
    /// Constraints are missing.
    Under,
}

/// The verdicts by their numbers.
const VERDICTS: [Verdict; 5] = [Verdict::Over, Verdict::Angle, Verdict::Well, Verdict::Stuck, Verdict::Under];

impl Verdict {
    /// The verdict in a word.
    pub fn name(self) -> &'static str {
        match self {
            Verdict::Over => "over",
            Verdict::Angle => "angle",
            Verdict::Well => "well",
            Verdict::Stuck => "stuck",
            Verdict::Under => "under",
        }
    }

    /// The verdict that a call answered, or the rule that refused it.
    pub(crate) fn answered(answer: i32) -> Result<Verdict, Rule> {
        counted(answer).map(|number| VERDICTS[number])
    }
}

/// The verdict of a sheet.
///
/// ```
/// use pattern::{Rule, Verdict};
///
/// assert_eq!(pattern::verdict(b"PF01\x02\0\0")?, Verdict::Under);
/// assert_eq!(pattern::verdict(b"PF01\x02\0"), Err(Rule(2)));
/// # Ok::<(), Rule>(())
/// ```
pub fn verdict(sheet: &[u8]) -> Result<Verdict, Rule> {
    // SAFETY: the list is a live slice of its length.
    let answer = unsafe { c::pattern_verdict(sheet.as_ptr(), len(sheet)) };
    Verdict::answered(answer)
}

/// The verdict of five points with some of the ten distances between them: bit 0 of the number is the pair (0,1), then
/// (0,2) and so on in dictionary order to (3,4), bit 9; higher bits have no influence.
///
/// ```
/// use pattern::Verdict;
///
/// // each two of points 0 to 3
/// assert_eq!(pattern::card(0b00_1011_0111), Verdict::Over);
/// assert_eq!(pattern::card(0), Verdict::Under);
/// ```
pub fn card(number: usize) -> Verdict {
    // SAFETY: a number goes in and a number comes out.
    let answer = unsafe { c::pattern_card(number as Length) };
    Verdict::answered(answer).expect("no rule refuses a card")
}

/// What makes a sheet over.
#[derive(Clone, Copy, PartialEq, Eq, Debug)]
pub struct Over {
    /// The number of the first constraint that makes the ones up to it over.
    pub first: usize,
    /// The smallest set of elements that cannot take it: element i as bit i.
    pub set: u64,
}

/// Whether a sheet is over: whether some part of it has a constraint too many.
///
/// ```
/// use pattern::{Constraint, Facts, Kind, MOST_BYTES, Over};
///
/// // four points with all six distances
/// let pairs = [(0, 1), (0, 2), (1, 2), (1, 3), (2, 3), (0, 3)];
/// let constraints = pairs.map(|(first, second)| Constraint::sized(first, second, 300));
/// let mut space = [0; MOST_BYTES];
/// let sheet = pattern::write(&Facts::pf01(&[Kind::Point; 4], &constraints), &mut space)?;
/// assert_eq!(pattern::over(sheet)?, Some(Over { first: 5, set: 0b1111 }));
///
/// assert_eq!(pattern::over(b"PF01\x02\0\0")?, None);
/// # Ok::<(), pattern::Rule>(())
/// ```
pub fn over(sheet: &[u8]) -> Result<Option<Over>, Rule> {
    let mut out = [0; 2];
    // SAFETY: each list is a live slice of its length, and `out` is borrowed alone.
    let answer = unsafe { c::pattern_over(sheet.as_ptr(), len(sheet), out.as_mut_ptr(), len(&out)) };
    Ok(match written(answer, &out)? {
        &[first, set] => Some(Over { first: first as usize, set }),
        _ => None,
    })
}

/// What to measure next: the pairs that bring a sheet to 2n-3 constraints without making it over, at the least total
/// price, by price, then pair. There is one price for each pair, (0,1), (0,2) .., (1,2) ..: 0 to 1,000, or
/// [`crate::UNMEASURED`].
///
/// ```
/// use pattern::{Constraint, Facts, Kind, MOST_BYTES, MOST_MISSING, Rule, UNMEASURED};
///
/// // four points with a triangle on 0, 1 and 2: the draughtsman reaches 3 from 2 easily, from 0 and 1 with a ladder
/// let constraints = [Constraint::sized(0, 1, 300), Constraint::sized(0, 2, 300), Constraint::sized(1, 2, 300)];
/// let mut space = [0; MOST_BYTES];
/// let sheet = pattern::write(&Facts::pf01(&[Kind::Point; 4], &constraints), &mut space)?;
/// let mut space = [0; MOST_MISSING];
/// let measure: Vec<_> = pattern::missing(sheet, &[0, 0, 5, 0, 5, 1], &mut space)?.collect();
/// assert_eq!(measure, [(2, 3), (0, 3)]);
/// let blocked = [0, 0, 5, 0, UNMEASURED, UNMEASURED];
/// assert_eq!(pattern::missing(sheet, &blocked, &mut space).err(), Some(Rule(23)));
/// # Ok::<(), Rule>(())
/// ```
pub fn missing<'a>(
    sheet: &[u8],
    prices: &[u16],
    out: &'a mut [u16],
) -> Result<impl Iterator<Item = (u8, u8)> + 'a, Rule> {
    // SAFETY: each list is a live slice of its length, and `out` is borrowed alone.
    let answer = unsafe {
        c::pattern_missing(sheet.as_ptr(), len(sheet), prices.as_ptr(), len(prices), out.as_mut_ptr(), len(out))
    };
    written(answer, out).map(|pairs| pairs.iter().map(|pair| ((pair >> 8) as u8, *pair as u8)))
}
