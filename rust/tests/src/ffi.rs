//! The C interface of the proved library, made safe: a slice goes in as its pointer and length.
//!
//! Each wrapper is `#[inline]`, so that a program links only the functions it calls.

use crate::facts::{Columns, Constraint};

#[path = "../../pattern/src/c.rs"]
mod c;

use c::{len, Length};

/// `pattern_rewrite`
#[inline]
pub fn rewrite(sheet: &[u8], out: &mut [u8]) -> i32 {
    unsafe { c::pattern_rewrite(sheet.as_ptr(), len(sheet), out.as_mut_ptr(), len(out)) }
}

/// `pattern_write`
#[inline]
pub fn write(facts: &Columns, out: &mut [u8]) -> i32 {
    unsafe {
        c::pattern_write(
            facts.opening as Length,
            facts.n as Length,
            facts.e as Length,
            facts.kinds.as_ptr(),
            len(&facts.kinds),
            facts.radii.as_ptr(),
            len(&facts.radii),
            facts.firsts.as_ptr(),
            len(&facts.firsts),
            facts.seconds.as_ptr(),
            len(&facts.seconds),
            facts.maps.as_ptr(),
            len(&facts.maps),
            facts.sizes.as_ptr(),
            len(&facts.sizes),
            out.as_mut_ptr(),
            len(out),
        )
    }
}

/// `pattern_over`
#[inline]
pub fn over(sheet: &[u8], out: &mut [u64]) -> i32 {
    unsafe { c::pattern_over(sheet.as_ptr(), len(sheet), out.as_mut_ptr(), len(out)) }
}

/// `pattern_verdict`
#[inline]
pub fn verdict(sheet: &[u8]) -> i32 {
    unsafe { c::pattern_verdict(sheet.as_ptr(), len(sheet)) }
}

/// `pattern_card`
#[inline]
pub fn card(number: usize) -> i32 {
    unsafe { c::pattern_card(number as Length) }
}

/// `pattern_longest`
#[inline]
pub fn longest(n: usize, out: &mut [u8]) -> i32 {
    unsafe { c::pattern_longest(n as Length, out.as_mut_ptr(), len(out)) }
}

/// `pattern_plan`
#[inline]
pub fn plan(sheet: &[u8], out: &mut [u16]) -> i32 {
    unsafe { c::pattern_plan(sheet.as_ptr(), len(sheet), out.as_mut_ptr(), len(out)) }
}

/// `pattern_shared`
#[inline]
pub fn shared(a: u64, b: u64) -> u64 {
    unsafe { c::pattern_shared(a, b) }
}

/// `pattern_initial`
#[inline]
pub fn initial(sheet: &[u8], out: &mut [u64]) -> i32 {
    unsafe { c::pattern_initial(sheet.as_ptr(), len(sheet), out.as_mut_ptr(), len(out)) }
}

/// `pattern_clusters`
#[inline]
pub fn clusters(sheet: &[u8], out: &mut [u64]) -> i32 {
    unsafe { c::pattern_clusters(sheet.as_ptr(), len(sheet), out.as_mut_ptr(), len(out)) }
}

/// `pattern_rests`
#[inline]
pub fn rests(sheet: &[u8], out: &mut [u64]) -> i32 {
    unsafe { c::pattern_rests(sheet.as_ptr(), len(sheet), out.as_mut_ptr(), len(out)) }
}

/// `pattern_report`
#[inline]
pub fn report(sheet: &[u8], out: &mut [u8]) -> i32 {
    unsafe { c::pattern_report(sheet.as_ptr(), len(sheet), out.as_mut_ptr(), len(out)) }
}

/// `pattern_part_steps`
#[inline]
pub fn part_steps(sheet: &[u8], number: usize) -> i32 {
    unsafe { c::pattern_part_steps(sheet.as_ptr(), len(sheet), number as Length) }
}

/// `pattern_part_bytes`
#[inline]
pub fn part_bytes(sheet: &[u8], number: usize) -> i32 {
    unsafe { c::pattern_part_bytes(sheet.as_ptr(), len(sheet), number as Length) }
}

/// `pattern_part`
#[inline]
pub fn part(sheet: &[u8], number: usize, out: &mut [u8]) -> i32 {
    unsafe { c::pattern_part(sheet.as_ptr(), len(sheet), number as Length, out.as_mut_ptr(), len(out)) }
}

/// `pattern_missing`
#[inline]
pub fn missing(sheet: &[u8], prices: &[u16], out: &mut [u16]) -> i32 {
    let (list, count) = (prices.as_ptr(), len(prices));
    unsafe { c::pattern_missing(sheet.as_ptr(), len(sheet), list, count, out.as_mut_ptr(), len(out)) }
}

/// `pattern_check_plan`
#[inline]
pub fn check_plan(sheet: &[u8], plan: &[u16], out: &mut [u8]) -> i32 {
    let (list, count) = (plan.as_ptr(), len(plan));
    unsafe { c::pattern_check_plan(sheet.as_ptr(), len(sheet), list, count, out.as_mut_ptr(), len(out)) }
}

/// `pattern_steps`
#[inline]
pub fn steps(sheet: &[u8], out: &mut [u64]) -> i32 {
    unsafe { c::pattern_steps(sheet.as_ptr(), len(sheet), out.as_mut_ptr(), len(out)) }
}

/// `pattern_saved_steps`
#[inline]
pub fn saved_steps(sheet: &[u8], plan: &[u16], out: &mut [u64]) -> i32 {
    let (list, count) = (plan.as_ptr(), len(plan));
    unsafe { c::pattern_saved_steps(sheet.as_ptr(), len(sheet), list, count, out.as_mut_ptr(), len(out)) }
}

/// `pattern_hold`
#[inline]
pub fn hold(sheet: &[u8], record: &mut [u8]) -> i32 {
    unsafe { c::pattern_hold(sheet.as_ptr(), len(sheet), record.as_mut_ptr(), len(record)) }
}

/// `pattern_ask`
#[inline]
pub fn ask(record: &[u8], more: &Constraint) -> i32 {
    let &Constraint { first, second, map, size } = more;
    unsafe { c::pattern_ask(record.as_ptr(), len(record), first, second, map, size) }
}

/// `pattern_place`
#[inline]
pub fn place(record: &mut [u8], more: &Constraint, held: usize) -> i32 {
    let &Constraint { first, second, map, size } = more;
    unsafe { c::pattern_place(record.as_mut_ptr(), len(record), first, second, map, size, held as Length) }
}

/// `pattern_held`
#[inline]
pub fn held(record: &[u8], out: &mut [u8]) -> i32 {
    unsafe { c::pattern_held(record.as_ptr(), len(record), out.as_mut_ptr(), len(out)) }
}

/// `pattern_held_count`
#[inline]
pub fn held_count(record: &[u8]) -> i32 {
    unsafe { c::pattern_held_count(record.as_ptr(), len(record)) }
}

/// `pattern_held_clusters`
#[inline]
pub fn held_clusters(record: &[u8], out: &mut [u64]) -> i32 {
    unsafe { c::pattern_held_clusters(record.as_ptr(), len(record), out.as_mut_ptr(), len(out)) }
}

/// `pattern_held_rests`
#[inline]
pub fn held_rests(record: &[u8], out: &mut [u64]) -> i32 {
    unsafe { c::pattern_held_rests(record.as_ptr(), len(record), out.as_mut_ptr(), len(out)) }
}

#[cfg(test)]
mod tests {
    use super::c;
    use std::ptr::{null, null_mut};

    const LINE_AND_POINT: &[u8] = b"PF01\x02\x01\0";

    /// Where a count is 0, its pointer may be null.
    #[test]
    fn null_lists() {
        let (sheet, len) = (LINE_AND_POINT.as_ptr(), c::len(LINE_AND_POINT));
        let mut bytes = [0; 64];
        let (out, room) = (bytes.as_mut_ptr(), c::len(&bytes));
        unsafe {
            assert_eq!(c::pattern_rewrite(null(), 0, out, room), -1);
            assert_eq!(c::pattern_rewrite(sheet, len, null_mut(), 0), -17);
            let kinds = [1, 0].as_ptr();
            let write = |kinds, count, out, room| {
                c::pattern_write(
                    1,
                    2,
                    0,
                    kinds,
                    count,
                    null(),
                    0,
                    null(),
                    0,
                    null(),
                    0,
                    null(),
                    0,
                    null(),
                    0,
                    out,
                    room,
                )
            };
            assert_eq!(write(kinds, 2, out, room), 7);
            assert_eq!(write(kinds, 2, null_mut(), 0), -17);
            assert_eq!(write(null(), 0, out, room), -18);
            assert_eq!(c::pattern_over(null(), 0, null_mut(), 0), -1);
            assert_eq!(c::pattern_over(sheet, len, null_mut(), 0), 0);
            assert_eq!(c::pattern_verdict(null(), 0), -1);
            assert_eq!(c::pattern_plan(null(), 0, null_mut(), 0), -1);
            assert_eq!(c::pattern_plan(sheet, len, null_mut(), 0), 0);
            assert_eq!(c::pattern_initial(null(), 0, null_mut(), 0), -1);
            assert_eq!(c::pattern_initial(sheet, len, null_mut(), 0), 0);
            assert_eq!(c::pattern_clusters(null(), 0, null_mut(), 0), -1);
            assert_eq!(c::pattern_clusters(sheet, len, null_mut(), 0), 0);
            assert_eq!(c::pattern_rests(null(), 0, null_mut(), 0), -1);
            assert_eq!(c::pattern_rests(sheet, len, null_mut(), 0), 0);
            assert_eq!(c::pattern_report(null(), 0, out, room), -1);
            assert_eq!(c::pattern_report(sheet, len, null_mut(), 0), -17);
            assert_eq!(c::pattern_missing(null(), 0, null(), 0, null_mut(), 0), -1);
            assert_eq!(c::pattern_missing(sheet, len, null(), 0, null_mut(), 0), -21);
            assert_eq!(c::pattern_check_plan(null(), 0, null(), 0, null_mut(), 0), -1);
            assert_eq!(c::pattern_check_plan(sheet, len, null(), 0, null_mut(), 0), -17);
            assert_eq!(c::pattern_check_plan(sheet, len, null(), 0, out, room), 39);
            assert_eq!(c::pattern_steps(null(), 0, null_mut(), 0), -1);
            assert_eq!(c::pattern_steps(sheet, len, null_mut(), 0), 0);
            assert_eq!(c::pattern_saved_steps(null(), 0, null(), 0, null_mut(), 0), -1);
            assert_eq!(c::pattern_saved_steps(sheet, len, null(), 0, null_mut(), 0), 0);
            assert_eq!(c::pattern_hold(null(), 0, null_mut(), 0), -1);
            assert_eq!(c::pattern_hold(sheet, len, null_mut(), 0), -17);
            assert_eq!(c::pattern_hold(sheet, len, out, room), 9);
            assert_eq!(c::pattern_ask(null(), 0, 0, 1, 0, 0), -27);
            assert_eq!(c::pattern_ask(out, room, 0, 1, 0, 0), 2);
            assert_eq!(c::pattern_place(null_mut(), 0, 0, 1, 0, 0, 0), -27);
            assert_eq!(c::pattern_place(out, room, 0, 1, 0, 0, 1), -24);
            assert_eq!(c::pattern_place(out, 9, 0, 1, 0, 0, 0), -17);
            assert_eq!(c::pattern_held(null(), 0, null_mut(), 0), -27);
            assert_eq!(c::pattern_held(out, room, null_mut(), 0), -17);
            assert_eq!(c::pattern_held_count(null(), 0), -27);
            assert_eq!(c::pattern_held_count(out, room), 0);
            assert_eq!(c::pattern_held_clusters(null(), 0, null_mut(), 0), -27);
            assert_eq!(c::pattern_held_clusters(out, room, null_mut(), 0), 0);
            assert_eq!(c::pattern_held_rests(null(), 0, null_mut(), 0), -27);
            assert_eq!(c::pattern_held_rests(out, room, null_mut(), 0), 0);
            assert_eq!(c::pattern_open(null(), 0, 0, null_mut(), 0), -1);
            assert_eq!(c::pattern_open(sheet, len, 0, null_mut(), 0), 0);
        }
    }
}

/// `pattern_chain`
#[inline]
pub fn chain(sheet: &[u8], from: usize, to: usize, out: &mut [u16]) -> i32 {
    unsafe { c::pattern_chain(sheet.as_ptr(), len(sheet), from as Length, to as Length, out.as_mut_ptr(), len(out)) }
}

/// `pattern_open`
#[inline]
pub fn open(sheet: &[u8], steps: usize, out: &mut [u16]) -> i32 {
    unsafe { c::pattern_open(sheet.as_ptr(), len(sheet), steps as Length, out.as_mut_ptr(), len(out)) }
}
