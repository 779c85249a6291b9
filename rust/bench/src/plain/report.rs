//! The report.

use super::plan::{merges_of, saved, verdict_of, Merging, Step};
use super::sheet::{read, Sheet};

/// More bytes than any report has.
const MOST_BYTES: usize = 5000;

/// The verdicts' names by number.
const NAMES: [&[u8]; 5] = [b"over", b"angle", b"well", b"stuck", b"under"];
/// The joint kinds by the number of lines.
const KINDS: [&[u8]; 4] = [b"ppp", b"ppl", b"pll", b"lll"];

/// Text that grows at its end.
struct Text {
    bytes: [u8; MOST_BYTES],
    len: usize,
}

impl Text {
    /// Adds words as they stand.
    fn put(&mut self, words: &[u8]) {
        self.bytes[self.len..self.len + words.len()].copy_from_slice(words);
        self.len += words.len();
    }

    /// Adds a number below 1,000.
    fn number(&mut self, number: usize) {
        let digits = [100, 10, 1].map(|unit| b'0' + (number / unit % 10) as u8);
        self.put(&digits[usize::from(number < 100) + usize::from(number < 10)..]);
    }

    /// Adds a word and then the numbers, each after a space.
    fn list(&mut self, word: &[u8], numbers: impl Iterator<Item = usize>) {
        self.put(word);
        numbers.for_each(|number| {
            self.put(b" ");
            self.number(number);
        });
    }

    /// Adds a word and then the elements of a set.
    fn set(&mut self, word: &[u8], mut set: u64) {
        let next = || {
            let element = set.trailing_zeros() as usize;
            set &= set.wrapping_sub(1);
            (element < 64).then_some(element)
        };
        self.list(word, std::iter::from_fn(next));
    }

    /// Adds the numbers of a set from `first` on.
    fn set_from(&mut self, first: usize, mut set: u64) {
        while set != 0 {
            self.put(b" ");
            self.number(first + set.trailing_zeros() as usize);
            set &= set - 1;
        }
    }

    /// Adds the line of a step.
    #[inline(always)]
    fn step(&mut self, sheet: &Sheet, made: usize, step: &Step) {
        let kind = (step.joint & sheet.lines).count_ones() as usize;
        self.list(b"step", [made].into_iter());
        self.list(b" from", step.parts.into_iter());
        self.set(b" joint", step.joint);
        self.put(b" kind ");
        self.put(KINDS[kind]);
        self.put(b" ways ");
        self.put(ways(sheet, step, kind));
        self.put(b"\n");
    }

    /// Adds the lines of steps and final clusters.
    #[inline(always)]
    fn merges(&mut self, sheet: &Sheet, merging: &Merging) {
        for (k, step) in merging.steps().iter().enumerate() {
            self.step(sheet, sheet.e + k, step);
        }
        let rests = rests_of(sheet, merging);
        for (number, &set) in merging.sets().iter().enumerate() {
            if set != 0 {
                self.list(b"cluster", [number].into_iter());
                self.set(b" holds", set);
                self.put(b" rests on");
                self.set(b"", rests[number] as u64);
                self.set_from(64, (rests[number] >> 64) as u64);
                self.put(b"\n");
            }
        }
    }
}

/// The constraints that each cluster came from, as bits.
fn rests_of(sheet: &Sheet, merging: &Merging) -> [u128; 192] {
    let mut rests = [0; 192];
    for (number, rests) in rests.iter_mut().enumerate().take(sheet.e) {
        *rests = 1 << number;
    }
    for (k, step) in merging.steps().iter().enumerate() {
        let [a, b, c] = step.parts;
        rests[sheet.e + k] = rests[a] | rests[b] | rests[c];
    }
    rests
}

/// The placements of a step whose joint has `kind` lines.
fn ways(sheet: &Sheet, step: &Step, kind: usize) -> &'static [u8] {
    if kind == 3 || step.parts[2] >= sheet.e {
        return b"?";
    }
    let [a, b, c] = step.parts.map(|part| sheet.constraints[part]);
    let to_line = |part: &super::sheet::Constraint| sheet.lines >> part.first & 1 != sheet.lines >> part.second & 1;
    let (reach, span) = match kind {
        0 => {
            let longest = a.size.max(b.size).max(c.size);
            (a.size + b.size + c.size - longest, longest)
        }
        1 if !to_line(&a) => (a.size, (b.size - c.size).abs()),
        1 if !to_line(&b) => (b.size, (a.size - c.size).abs()),
        1 => (c.size, (a.size - b.size).abs()),
        _ => (0, 0),
    };
    match reach.cmp(&span) {
        std::cmp::Ordering::Less => b"0",
        std::cmp::Ordering::Equal => b"1",
        std::cmp::Ordering::Greater => b"2",
    }
}

/// The report on a sheet's bytes into lent space: the count of bytes, or minus the rule.
pub fn report(bytes: &[u8], out: &mut [u8]) -> i32 {
    let mut sheet = Sheet::blank();
    if let Err(rule) = read(bytes, &mut sheet) {
        return -i32::from(rule);
    }
    let mut text = Text { bytes: [0; MOST_BYTES], len: 0 };
    match merges_of(&sheet) {
        Err(over) => {
            heading(&mut text, &sheet, 0);
            text.list(b"first", [over.first].into_iter());
            text.set(b"\nset", over.set);
            text.put(b"\n");
        }
        Ok(merging) => merged(&mut text, &sheet, &merging),
    }
    copied(&text, out)
}

/// The report for a saved plan into lent space: the count of bytes, or minus the rule.
pub fn check_plan(bytes: &[u8], plan: &[u16], out: &mut [u8]) -> i32 {
    let mut sheet = Sheet::blank();
    match read(bytes, &mut sheet).and_then(|()| saved(&sheet, plan)) {
        Err(rule) => -i32::from(rule),
        Ok(merging) => {
            let mut text = Text { bytes: [0; MOST_BYTES], len: 0 };
            merged(&mut text, &sheet, &merging);
            copied(&text, out)
        }
    }
}

/// Adds the whole report of a sheet that is not over.
#[inline(always)]
fn merged(text: &mut Text, sheet: &Sheet, merging: &Merging) {
    heading(text, sheet, verdict_of(sheet, merging) as usize);
    text.merges(sheet, merging);
}

/// Copies the text into lent space: the count of bytes, or minus rule 17.
fn copied(text: &Text, out: &mut [u8]) -> i32 {
    match out.get_mut(..text.len) {
        Some(space) => {
            space.copy_from_slice(&text.bytes[..text.len]);
            text.len as i32
        }
        None => -17,
    }
}

/// Adds the first two lines.
fn heading(text: &mut Text, sheet: &Sheet, verdict: usize) {
    text.put(b"verdict ");
    text.put(NAMES[verdict]);
    text.list(b"\nelements", [sheet.n].into_iter());
    text.list(b" constraints", [sheet.e].into_iter());
    text.put(b"\n");
}
