//! The calls of the proved library that a search makes, counted: it stops after so many of them and not after a time,
//! so that its answer is the same on every machine.

use pattern::{Over, Verdict, MOST_CLUSTERS};

use super::Pair;
use crate::engine;
use crate::sheet::Sheet;

/// The calls that are made and the most that may be.
#[derive(Clone, Debug)]
pub struct Tries {
    made: usize,
    most: usize,
    stopped: bool,
}

impl Tries {
    /// So many calls at most.
    pub fn at_most(most: usize) -> Tries {
        Tries { made: 0, most, stopped: false }
    }

    /// How many calls were made.
    pub fn made(&self) -> usize {
        self.made
    }

    /// Whether a call was wanted that may not be made any more.
    pub fn stopped(&self) -> bool {
        self.stopped
    }

    /// Some search that makes so many calls at most.
    pub fn share<T>(&mut self, most: usize, search: impl FnOnce(&mut Tries) -> T) -> T {
        let mut share = Tries::at_most(most.min(self.most - self.made));
        let found = search(&mut share);
        self.made += share.made;
        self.stopped |= share.stopped;
        found
    }

    /// Counts one call: none where no more may be made.
    fn one(&mut self) -> Option<()> {
        self.stopped |= self.made == self.most;
        (self.made < self.most).then(|| self.made += 1)
    }

    /// The verdict of a sheet.
    pub fn verdict(&mut self, sheet: &Sheet) -> Option<Verdict> {
        self.one()?;
        pattern::verdict(&engine::write(sheet).ok()?).ok()
    }

    /// What makes a sheet over.
    pub fn over(&mut self, sheet: &Sheet) -> Option<Over> {
        self.one()?;
        pattern::over(&engine::write(sheet).ok()?).ok()?
    }

    /// The parts that are left of a sheet that is not over: element i as bit i.
    pub fn parts(&mut self, sheet: &Sheet) -> Option<Vec<u64>> {
        self.one()?;
        let mut space = [0; MOST_CLUSTERS];
        pattern::clusters(&engine::write(sheet).ok()?, &mut space).ok().map(<[u64]>::to_vec)
    }

    /// The cheapest pairs that a sheet lacks by its count.
    pub fn missing(&mut self, sheet: &Sheet, prices: &[u16]) -> Option<Vec<Pair>> {
        self.one()?;
        engine::missing(&engine::write(sheet).ok()?, prices).ok()
    }
}
