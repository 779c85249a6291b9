//! A held sketch, which is asked before it changes.

use crate::answer::{counted, written};
use crate::c::{self, len, Length};
use crate::{Constraint, Rule, Verdict, MOST_RECORD};

/// A held sketch: it owns its record, and placing alone changes it.
///
/// ```
/// use pattern::{Constraint, Dimension, Rule, Sketch, Verdict};
///
/// let mut sketch = Sketch::hold(b"PF01\x02\0\0")?;
/// let (held, more) = (sketch.count(), Constraint::sized(0, 1, 300));
/// assert_eq!(sketch.ask(&more)?, Verdict::Well); // nothing changes
/// assert_eq!(sketch.place(&more, held)?, Verdict::Well);
/// assert_eq!(sketch.count(), 1);
/// assert_eq!(sketch.clusters(&mut [0; 1])?, [0b11]); // elements 0 and 1,
/// assert_eq!(sketch.rests(&mut [0; 2])?, [0b1, 0]); // which rest on constraint 0
///
/// assert_eq!(sketch.ask(&more), Err(Rule(7)));
/// assert_eq!(sketch.place(&more, held), Err(Rule(24))); // another number is held now
///
/// let mut space = [0; pattern::MOST_BYTES];
/// assert_eq!(pattern::verdict(sketch.sheet(&mut space)?)?, Verdict::Well);
///
/// // two circles of radius 1 mm: they touch, and one does not lie within the other
/// let mut sketch = Sketch::hold(b"PF02\x02\x0a\x0a\0\0\0\x0a\0\0\0\0")?;
/// assert_eq!(sketch.ask(&Constraint::new(0, 1, Dimension::OtherTangent)), Err(Rule(20)));
/// sketch.place(&Constraint::new(0, 1, Dimension::Tangent), 0)?;
/// assert_eq!(sketch.count(), 1);
/// # Ok::<(), Rule>(())
/// ```
#[derive(Clone, PartialEq, Eq, Debug)]
pub struct Sketch {
    record: [u8; MOST_RECORD],
}

impl Sketch {
    /// Holds a sheet.
    pub fn hold(sheet: &[u8]) -> Result<Sketch, Rule> {
        let mut record = [0; MOST_RECORD];
        // SAFETY: each list is a live slice of its length, and the record is borrowed alone.
        let answer = unsafe { c::pattern_hold(sheet.as_ptr(), len(sheet), record.as_mut_ptr(), len(&record)) };
        written(answer, &record)?;
        Ok(Sketch { record })
    }

    /// How many constraints it holds.
    pub fn count(&self) -> usize {
        // SAFETY: the record is a live slice of its length.
        let answer = unsafe { c::pattern_held_count(self.record.as_ptr(), len(&self.record)) };
        counted(answer).expect("the record is one that pattern_hold wrote")
    }

    /// The verdict of the sketch with one more constraint.
    pub fn ask(&self, more: &Constraint) -> Result<Verdict, Rule> {
        let (record, size) = (&self.record, more.size());
        // SAFETY: the record is a live slice of its length.
        let answer = unsafe { c::pattern_ask(record.as_ptr(), len(record), more.first, more.second, more.map(), size) };
        Verdict::answered(answer)
    }

    /// Places a constraint that was asked when so many were held: the asked verdict.
    pub fn place(&mut self, more: &Constraint, held: usize) -> Result<Verdict, Rule> {
        let (record, size) = (&mut self.record, more.size());
        let (first, second, map) = (more.first, more.second, more.map());
        // SAFETY: the record is a live slice of its length, and is borrowed alone.
        let answer =
            unsafe { c::pattern_place(record.as_mut_ptr(), len(record), first, second, map, size, held as Length) };
        Verdict::answered(answer)
    }

    /// The sheet that it holds.
    pub fn sheet<'a>(&self, out: &'a mut [u8]) -> Result<&'a [u8], Rule> {
        // SAFETY: each list is a live slice of its length, and `out` is borrowed alone.
        let answer = unsafe { c::pattern_held(self.record.as_ptr(), len(&self.record), out.as_mut_ptr(), len(out)) };
        written(answer, out)
    }

    /// Its clusters, as [`crate::clusters`] gives those of a sheet.
    pub fn clusters<'a>(&self, out: &'a mut [u64]) -> Result<&'a [u64], Rule> {
        let record = &self.record;
        // SAFETY: each list is a live slice of its length, and `out` is borrowed alone.
        let answer = unsafe { c::pattern_held_clusters(record.as_ptr(), len(record), out.as_mut_ptr(), len(out)) };
        written(answer, out)
    }

    /// What they rest on, as [`crate::rests`] does: constraint i is the one that was the i-th held.
    pub fn rests<'a>(&self, out: &'a mut [u64]) -> Result<&'a [u64], Rule> {
        let record = &self.record;
        // SAFETY: each list is a live slice of its length, and `out` is borrowed alone.
        let answer = unsafe { c::pattern_held_rests(record.as_ptr(), len(record), out.as_mut_ptr(), len(out)) };
        written(answer, out)
    }
}
