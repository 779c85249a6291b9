//! The functions of `include/pattern.h`, as Rust declares them: the wrapper, the tests and the bench share these lines.

/// A count or a number as the library takes it: 64 bits on every target, also where a pointer has 32.
pub type Length = u64;

/// How many items a list has.
#[inline]
pub fn len<T>(list: &[T]) -> Length {
    list.len() as Length
}

extern "C" {
    pub fn pattern_rewrite(sheet: *const u8, len: Length, out: *mut u8, room: Length) -> i32;
    pub fn pattern_write(
        opening: Length,
        n: Length,
        e: Length,
        kinds: *const u8,
        kinds_len: Length,
        radii: *const u32,
        radii_len: Length,
        firsts: *const u8,
        firsts_len: Length,
        seconds: *const u8,
        seconds_len: Length,
        maps: *const u8,
        maps_len: Length,
        sizes: *const i32,
        sizes_len: Length,
        out: *mut u8,
        room: Length,
    ) -> i32;
    pub fn pattern_over(sheet: *const u8, len: Length, out: *mut u64, room: Length) -> i32;
    pub fn pattern_verdict(sheet: *const u8, len: Length) -> i32;
    pub fn pattern_plan(sheet: *const u8, len: Length, out: *mut u16, room: Length) -> i32;
    pub fn pattern_shared(a: u64, b: u64) -> u64;
    pub fn pattern_initial(sheet: *const u8, len: Length, out: *mut u64, room: Length) -> i32;
    pub fn pattern_clusters(sheet: *const u8, len: Length, out: *mut u64, room: Length) -> i32;
    pub fn pattern_rests(sheet: *const u8, len: Length, out: *mut u64, room: Length) -> i32;
    pub fn pattern_report(sheet: *const u8, len: Length, out: *mut u8, room: Length) -> i32;
    pub fn pattern_check_plan(
        sheet: *const u8,
        len: Length,
        plan: *const u16,
        count: Length,
        out: *mut u8,
        room: Length,
    ) -> i32;
    pub fn pattern_steps(sheet: *const u8, len: Length, out: *mut u64, room: Length) -> i32;
    pub fn pattern_saved_steps(
        sheet: *const u8,
        len: Length,
        plan: *const u16,
        count: Length,
        out: *mut u64,
        room: Length,
    ) -> i32;
    pub fn pattern_hold(sheet: *const u8, len: Length, record: *mut u8, room: Length) -> i32;
    pub fn pattern_ask(record: *const u8, room: Length, first: u8, second: u8, map: u8, size: i32) -> i32;
    pub fn pattern_place(record: *mut u8, room: Length, first: u8, second: u8, map: u8, size: i32, held: Length)
        -> i32;
    pub fn pattern_held(record: *const u8, record_room: Length, out: *mut u8, room: Length) -> i32;
    pub fn pattern_held_count(record: *const u8, room: Length) -> i32;
    pub fn pattern_held_clusters(record: *const u8, record_room: Length, out: *mut u64, room: Length) -> i32;
    pub fn pattern_held_rests(record: *const u8, record_room: Length, out: *mut u64, room: Length) -> i32;
    pub fn pattern_part_steps(sheet: *const u8, len: Length, number: Length) -> i32;
    pub fn pattern_part_bytes(sheet: *const u8, len: Length, number: Length) -> i32;
    pub fn pattern_part(sheet: *const u8, len: Length, number: Length, out: *mut u8, room: Length) -> i32;
    pub fn pattern_missing(
        sheet: *const u8,
        len: Length,
        prices: *const u16,
        prices_len: Length,
        out: *mut u16,
        room: Length,
    ) -> i32;
    pub fn pattern_card(number: Length) -> i32;
    pub fn pattern_chain(sheet: *const u8, len: Length, from: Length, to: Length, out: *mut u16, room: Length) -> i32;
    pub fn pattern_longest(n: Length, out: *mut u8, room: Length) -> i32;
    pub fn pattern_open(sheet: *const u8, len: Length, steps: Length, out: *mut u16, room: Length) -> i32;
}
