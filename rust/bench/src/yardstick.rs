//! The yardstick's C engine, made safe: a slice goes in as its pointer and length.

mod c {
    extern "C" {
        pub fn yard_rewrite_facts(sheet: *const u8, len: usize, out: *mut u8, room: usize) -> i32;
        pub fn yard_over(sheet: *const u8, len: usize, set: *mut u64) -> i32;
        pub fn yard_verdict(sheet: *const u8, len: usize) -> i32;
        pub fn yard_plan(sheet: *const u8, len: usize, out: *mut u16, room: usize) -> i32;
        pub fn yard_report(sheet: *const u8, len: usize, out: *mut u8, room: usize) -> i32;
    }
}

/// What `yard_over` answers of a sheet that is not over.
const SOUND: i32 = 256;

/// Reads a sheet and writes it again, tags included.
pub fn rewrite(sheet: &[u8], out: &mut [u8]) -> i32 {
    unsafe { c::yard_rewrite_facts(sheet.as_ptr(), sheet.len(), out.as_mut_ptr(), out.len()) }
}

/// First and set of an over sheet: how many items there are.
pub fn over(sheet: &[u8], out: &mut [u64]) -> i32 {
    match unsafe { c::yard_over(sheet.as_ptr(), sheet.len(), &mut out[1]) } {
        SOUND => 0,
        refused if refused < 0 => refused,
        first => {
            out[0] = first as u64;
            2
        }
    }
}

/// The verdict.
pub fn verdict(sheet: &[u8]) -> i32 {
    unsafe { c::yard_verdict(sheet.as_ptr(), sheet.len()) }
}

/// The engine's plan.
pub fn plan(sheet: &[u8], out: &mut [u16]) -> i32 {
    unsafe { c::yard_plan(sheet.as_ptr(), sheet.len(), out.as_mut_ptr(), out.len()) }
}

/// The report.
pub fn report(sheet: &[u8], out: &mut [u8]) -> i32 {
    unsafe { c::yard_report(sheet.as_ptr(), sheet.len(), out.as_mut_ptr(), out.len()) }
}
