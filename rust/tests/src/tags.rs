//! Tags in the bytes of a sheet: bit 1 of a constraint's map, and two bytes after its other fields.

use crate::facts::Sheet;
use crate::layout::starts;
use crate::random::Random;
use crate::writer;

/// The bytes of a sheet with tags on none, some or all of its constraints.
pub fn any(sheet: &Sheet, random: &mut Random) -> Vec<u8> {
    let hundredths = random.pick(&[0, 0, 50, 100]);
    on(&writer::bytes(sheet), hundredths, random)
}

/// The bytes of a sheet without tags, given tags on so many constraints in a hundred.
pub fn on(plain: &[u8], hundredths: usize, random: &mut Random) -> Vec<u8> {
    let starts = starts(plain);
    let first = starts.first().copied().unwrap_or(plain.len());
    let ends = starts.iter().skip(1).copied().chain([plain.len()]);
    let mut out = plain[..first].to_vec();
    for (&start, end) in starts.iter().zip(ends) {
        out.extend(on_constraint(&plain[start..end], hundredths, random));
    }
    out
}

/// The bytes of a constraint without a tag, given one by a chance of so many in a hundred.
pub fn on_constraint(plain: &[u8], hundredths: usize, random: &mut Random) -> Vec<u8> {
    let mut out = plain.to_vec();
    if random.chance(hundredths) {
        out[2] |= 2;
        out.extend((random.bits() as u16).to_le_bytes());
    }
    out
}

/// How many bytes of a sheet are tags.
pub fn length(sheet: &[u8]) -> usize {
    starts(sheet).iter().map(|at| usize::from(sheet[at + 2] & 2)).sum()
}

#[cfg(test)]
mod tests {
    use crate::interface::{rewrite, Found};

    /// Two points and a line: (0,1) of size 300 with a tag, (0,2) without size with a tag, (1,2) of size -5 without.
    const TAGGED: &[u8] =
        b"PF01\x03\x04\x03\0\x01\x03\x2c\x01\0\0\x34\x12\0\x02\x02\xff\xff\x01\x02\x01\xfb\xff\xff\xff";
    const PLAIN: &[u8] = b"PF01\x03\x04\x03\0\x01\x01\x2c\x01\0\0\0\x02\0\x01\x02\x01\xfb\xff\xff\xff";

    #[test]
    fn tags_go() {
        assert_eq!(crate::layout::starts(TAGGED), [7, 16, 21]);
        assert_eq!(super::length(TAGGED), 4);
        assert_eq!(rewrite(TAGGED), Ok(PLAIN.to_vec()));
        assert_eq!(rewrite(PLAIN), Ok(PLAIN.to_vec()));
        assert_eq!(Found::of(TAGGED).report(), Found::of(PLAIN).report());
    }

    #[test]
    fn a_cut_tag() {
        let cut = |at: usize| rewrite(&TAGGED[..at]).unwrap_err();
        assert_eq!([14, 15, 19, 20].map(cut), [2; 4]);
    }
}
