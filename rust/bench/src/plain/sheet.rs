//! Reader and writer.

/// The number of the rule that refuses.
pub type Rule = u8;

/// The most bytes of a written sheet.
pub const MOST_BYTES: usize = 1678;
/// The most bytes of a constraint that is read, its tag included.
const LONGEST: usize = 9;
/// The most bytes of a written constraint.
const LONGEST_WRITTEN: usize = 7;

/// The two contacts, as maps.
const TANGENT: u8 = 4;
const OTHER_TANGENT: u8 = 12;

/// A constraint; its map has bit 0 of a given size or a contact's bits, and its size is what it means: the given one, the contact's distance, or 0.
#[derive(Clone, Copy)]
pub struct Constraint {
    pub first: u8,
    pub second: u8,
    pub map: u8,
    pub size: i32,
}

/// A sheet's facts in blocks. The opening's last byte tells the openings apart; the radius of what is no circle is 0.
pub struct Sheet {
    opening: u8,
    pub n: usize,
    pub e: usize,
    pub lines: u64,
    circles: u64,
    radii: [u32; 64],
    pub constraints: [Constraint; 200],
}

const BLANK: Constraint = Constraint { first: 0, second: 0, map: 0, size: 0 };

impl Sheet {
    /// A sheet to read into.
    pub fn blank() -> Sheet {
        Sheet { opening: b'1', n: 0, e: 0, lines: 0, circles: 0, radii: [0; 64], constraints: [BLANK; 200] }
    }

    /// Adds a constraint to fewer than 200, by rules 6, 7, 8, 20 and 9; bit 1 of its map has no influence, nor its size without bit 0.
    pub fn add(&mut self, more: &Constraint) -> Result<(), Rule> {
        let &Constraint { first, second, size, .. } = more;
        let map = more.map & !2;
        let elements = Elements { n: self.n, lines: self.lines, circles: self.circles, radii: &self.radii };
        let mut pairs = Pairs([0; 64]);
        if self.constraints[..self.e].iter().any(|c| c.first == first && c.second == second) {
            pairs.take(first, second, self.n)?;
        }
        check(&Constraint { first, second, map, size }, elements, &mut pairs)?;
        let size = match map {
            0 => 0,
            1 => size,
            _ => elements.contact(first, second, map)?,
        };
        self.constraints[self.e] = Constraint { first, second, map, size };
        self.e += 1;
        Ok(())
    }

    /// Where the count of constraints stands in the sheet's bytes.
    fn count_at(&self) -> usize {
        let kinds = if self.opening == b'1' { (self.n + 7) / 8 } else { (self.n + 3) / 4 };
        5 + kinds + 4 * self.circles.count_ones() as usize
    }

    /// Writes the sheet into space that begins with the `len` bytes it had before its last constraint was added; the count of bytes. Where they
    /// have no tag, only that constraint is written.
    pub fn write_last(&self, len: usize, out: &mut [u8]) -> Result<usize, Rule> {
        let count_at = self.count_at();
        let (last, before) = self.constraints[..self.e].split_last().expect("a constraint was added");
        if count_at + 1 + before.iter().map(|c| length(c.map)).sum::<usize>() != len {
            return write(self, out);
        }
        let mut bytes = [0; LONGEST_WRITTEN];
        let added = write_constraint(last, &mut bytes);
        out.get_mut(len..len + added).ok_or(17)?.copy_from_slice(&bytes[..added]);
        out[count_at] = self.e as u8;
        Ok(len + added)
    }
}

/// The elements, as far as rules on constraints look at them.
#[derive(Clone, Copy)]
struct Elements<'a> {
    n: usize,
    lines: u64,
    circles: u64,
    radii: &'a [u32; 64],
}

impl Elements<'_> {
    /// How many of the two ends are lines.
    fn lines_of(&self, first: u8, second: u8) -> usize {
        ((self.lines >> (first & 63) & 1) + (self.lines >> (second & 63) & 1)) as usize
    }

    /// The distance that a contact means, by rules 8 and 20.
    fn contact(&self, first: u8, second: u8, map: u8) -> Result<i32, Rule> {
        let circles = (self.circles >> (first & 63) & 1) + (self.circles >> (second & 63) & 1);
        let (r, s) = (self.radii[usize::from(first & 63)] as i32, self.radii[usize::from(second & 63)] as i32);
        match (circles, self.lines_of(first, second), map) {
            (1 | 2, _, TANGENT) => Ok(r + s),
            (1, 1, OTHER_TANGENT) => Ok(-r - s),
            (2, _, OTHER_TANGENT) if r == s => Err(20),
            (2, _, OTHER_TANGENT) => Ok((r - s).abs()),
            _ => Err(8),
        }
    }
}

/// The even bits of a number, side by side.
fn even_bits(kinds: u128) -> u64 {
    let mut bits = kinds & (u128::MAX / 3);
    for (by, mask) in [
        (1, u128::MAX / 5),
        (2, u128::MAX / 17),
        (4, u128::MAX / 257),
        (8, u128::MAX / 65_537),
        (16, u128::MAX / 4_294_967_297),
        (32, u128::MAX >> 64),
    ] {
        bits = (bits | bits >> by) & mask;
    }
    bits as u64
}

/// A set with a 0 between each two of its bits.
fn spread(set: u64) -> u128 {
    let mut bits = u128::from(set);
    for (by, mask) in [
        (32, u128::MAX / 4_294_967_297),
        (16, u128::MAX / 65_537),
        (8, u128::MAX / 257),
        (4, u128::MAX / 17),
        (2, u128::MAX / 5),
        (1, u128::MAX / 3),
    ] {
        bits = (bits | bits << by) & mask;
    }
    bits
}

/// The lowest size and the span of sizes, 0 aside, for no, one and two lines.
const RANGES: [(i32, u32); 3] = [(1, 39_999), (-40_000, 80_000), (-17_999, 35_998)];

/// Whether a size is in the range of a pair with so many lines.
fn in_range(lines: usize, size: i32) -> bool {
    let (lowest, span) = RANGES[lines & 3];
    size != 0 && size.wrapping_sub(lowest) as u32 <= span
}

/// The pairs that stand: for each first end the second ends.
struct Pairs([u64; 64]);

impl Pairs {
    /// Rules 6 and 7; then the pair stands.
    fn take(&mut self, first: u8, second: u8, n: usize) -> Result<(), Rule> {
        if first >= second || usize::from(second) >= n {
            return Err(6);
        }
        let seconds = &mut self.0[usize::from(first & 63)];
        let bit = 1 << (second & 63);
        if *seconds & bit != 0 {
            return Err(7);
        }
        *seconds |= bit;
        Ok(())
    }
}

/// Reads a sheet.
pub fn read(bytes: &[u8], sheet: &mut Sheet) -> Result<(), Rule> {
    if let Some(rest) = bytes.strip_prefix(b"PF01") {
        let (n, rest) = read_count(rest)?;
        let (kinds, rest) = split(rest, (n + 7) / 8)?;
        let lines = kinds.iter().rev().fold(0, |lines, &byte| lines << 8 | u64::from(byte));
        if n < 64 && lines >> n != 0 {
            return Err(4);
        }
        (sheet.opening, sheet.n, sheet.lines, sheet.circles) = (b'1', n, lines, 0);
        read_constraints::<false>(rest, sheet)
    } else {
        let (n, rest) = read_count(bytes.strip_prefix(b"PF02").ok_or(1)?)?;
        let rest = read_round(n, rest, sheet)?;
        read_constraints::<true>(rest, sheet)
    }
}

/// The first bytes and those after them; rule 2 where there are fewer.
fn split(bytes: &[u8], count: usize) -> Result<(&[u8], &[u8]), Rule> {
    if count <= bytes.len() {
        Ok(bytes.split_at(count))
    } else {
        Err(2)
    }
}

/// Reads the element count; the bytes after it.
fn read_count(bytes: &[u8]) -> Result<(usize, &[u8]), Rule> {
    let (&count, rest) = bytes.split_first().ok_or(2)?;
    let n = usize::from(count);
    if (2..=64).contains(&n) {
        Ok((n, rest))
    } else {
        Err(3)
    }
}

/// Reads the kinds of PF02 and the radii; the bytes after them.
fn read_round<'a>(n: usize, bytes: &'a [u8], sheet: &mut Sheet) -> Result<&'a [u8], Rule> {
    let (field, mut rest) = split(bytes, (n + 3) / 4)?;
    let mut padded = [0; 16];
    padded[..field.len()].copy_from_slice(field);
    let kinds = u128::from_le_bytes(padded);
    if n < 64 && kinds >> (2 * n) != 0 {
        return Err(4);
    }
    let (lines, circles) = (even_bits(kinds), even_bits(kinds >> 1));
    if lines & circles != 0 {
        return Err(18);
    }
    (sheet.opening, sheet.n, sheet.lines, sheet.circles) = (b'2', n, lines, circles);
    let mut left = circles;
    while left != 0 {
        let (field, after) = split(rest, 4)?;
        let radius = u32::from_le_bytes(field.try_into().expect("four bytes"));
        if !(1..=40_000).contains(&radius) {
            return Err(19);
        }
        sheet.radii[left.trailing_zeros() as usize] = radius;
        left &= left - 1;
        rest = after;
    }
    Ok(rest)
}

/// Reads the constraint count and the constraints, which may be contacts where the sheet is `ROUND`.
fn read_constraints<const ROUND: bool>(bytes: &[u8], sheet: &mut Sheet) -> Result<(), Rule> {
    let (&count, mut rest) = bytes.split_first().ok_or(2)?;
    let e = usize::from(count);
    if e > 200 {
        return Err(5);
    }
    sheet.e = e;
    let elements = Elements { n: sheet.n, lines: sheet.lines, circles: sheet.circles, radii: &sheet.radii };
    let mut pairs = Pairs([0; 64]);
    for constraint in &mut sheet.constraints[..e] {
        rest = match rest.get(..LONGEST).map(|bytes| bytes.try_into().expect("so many bytes")) {
            Some(bytes) => &rest[read_constraint::<ROUND>(bytes, elements, &mut pairs, constraint)?..],
            None => read_near_end::<ROUND>(rest, elements, &mut pairs, constraint)?,
        };
    }
    if rest.is_empty() {
        Ok(())
    } else {
        Err(10)
    }
}

/// Reads a constraint from bytes that hold any; its length.
#[inline(always)]
fn read_constraint<const ROUND: bool>(
    bytes: &[u8; LONGEST],
    elements: Elements,
    pairs: &mut Pairs,
    constraint: &mut Constraint,
) -> Result<usize, Rule> {
    let [first, second, map, ..] = *bytes;
    pairs.take(first, second, elements.n)?;
    if ROUND && map > 3 {
        let size = elements.contact(first, second, map & !2)?;
        *constraint = Constraint { first, second, map: map & !2, size };
        return Ok(length(map));
    }
    let lines = elements.lines_of(first, second);
    if map > 3 || map & 1 == 0 && lines != 1 {
        return Err(8);
    }
    let mut size = i32::from_le_bytes(bytes[3..7].try_into().expect("four bytes"));
    if map & 1 == 0 {
        size = 0;
    } else if !in_range(lines, size) {
        return Err(9);
    }
    *constraint = Constraint { first, second, map: map & 1, size };
    Ok(length(map))
}

/// Reads a constraint where the bytes may end inside it; the bytes after it.
#[cold]
fn read_near_end<'a, const ROUND: bool>(
    bytes: &'a [u8],
    elements: Elements,
    pairs: &mut Pairs,
    constraint: &mut Constraint,
) -> Result<&'a [u8], Rule> {
    let mut padded = [0; LONGEST];
    padded[..bytes.len()].copy_from_slice(bytes);
    if bytes.len() < 2 {
        return Err(2);
    }
    if bytes.len() < 3 {
        pairs.take(padded[0], padded[1], elements.n)?;
        return Err(2);
    }
    let size_is_cut = padded[2] & 1 == 1 && bytes.len() < 7;
    match read_constraint::<ROUND>(&padded, elements, pairs, constraint) {
        Err(9) if size_is_cut => Err(2),
        Err(rule) => Err(rule),
        Ok(length) => bytes.get(length..).ok_or(2),
    }
}

/// Writes a sheet into lent space; the count of bytes.
pub fn write(sheet: &Sheet, out: &mut [u8]) -> Result<usize, Rule> {
    let &Sheet { opening, n, e, lines, circles, ref radii, ref constraints } = sheet;
    if !(2..=64).contains(&n) {
        return Err(3);
    }
    let (lines, circles) = (lines & u64::MAX >> (64 - n), circles & u64::MAX >> (64 - n));
    if circles != 0 && opening == b'1' {
        return Err(18);
    }
    let mut bytes = [0; MOST_BYTES + LONGEST_WRITTEN];
    bytes[..4].copy_from_slice(&[b'P', b'F', b'0', opening]);
    bytes[4] = n as u8;
    let mut at = if opening == b'1' {
        bytes[5..13].copy_from_slice(&lines.to_le_bytes());
        5 + (n + 7) / 8
    } else {
        bytes[5..21].copy_from_slice(&(spread(lines) | spread(circles) << 1).to_le_bytes());
        5 + (n + 3) / 4
    };
    let mut left = circles;
    while left != 0 {
        let radius = radii[left.trailing_zeros() as usize];
        if !(1..=40_000).contains(&radius) {
            return Err(19);
        }
        bytes[at..at + 4].copy_from_slice(&radius.to_le_bytes());
        at += 4;
        left &= left - 1;
    }
    if e > 200 {
        return Err(5);
    }
    bytes[at] = e as u8;
    at += 1;
    let elements = Elements { n, lines, circles, radii };
    let mut pairs = Pairs([0; 64]);
    for constraint in &constraints[..e] {
        check(constraint, elements, &mut pairs)?;
        let own = &mut bytes[at..at + LONGEST_WRITTEN];
        at += write_constraint(constraint, own.try_into().expect("room for a constraint"));
    }
    out.get_mut(..at).ok_or(17)?.copy_from_slice(&bytes[..at]);
    Ok(at)
}

/// Tries rules 6, 7, 8, 20 and 9.
#[inline(always)]
fn check(constraint: &Constraint, elements: Elements, pairs: &mut Pairs) -> Result<(), Rule> {
    let &Constraint { first, second, map, size } = constraint;
    pairs.take(first, second, elements.n)?;
    if map > 3 {
        return elements.contact(first, second, map).map(|_| ());
    }
    let lines = elements.lines_of(first, second);
    if map == 0 {
        return if lines == 1 { Ok(()) } else { Err(8) };
    }
    if in_range(lines, size) {
        Ok(())
    } else {
        Err(9)
    }
}

/// Writes a constraint into bytes that have room for any; its length.
#[inline(always)]
fn write_constraint(constraint: &Constraint, bytes: &mut [u8; LONGEST_WRITTEN]) -> usize {
    let &Constraint { first, second, map, size } = constraint;
    bytes[..3].copy_from_slice(&[first, second, map]);
    bytes[3..].copy_from_slice(&size.to_le_bytes());
    length(map)
}

/// The length of a constraint with this map.
fn length(map: u8) -> usize {
    usize::from(3 + 4 * (map & 1) + (map & 2))
}

/// Reads a sheet and writes it again: the count of bytes, or minus the rule.
pub fn rewrite(bytes: &[u8], out: &mut [u8]) -> i32 {
    let mut sheet = Sheet::blank();
    match read(bytes, &mut sheet).and_then(|()| write(&sheet, out)) {
        Ok(count) => count as i32,
        Err(rule) => -i32::from(rule),
    }
}
