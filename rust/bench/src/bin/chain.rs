//! The chain between the first and the last element, reading and merging included, beside plain Rust and beside the list of final clusters.

use pattern_bench::timing::Contender;
use pattern_bench::{cases, plain, table};
use pattern_tests::ffi;

fn main() {
    let cases = cases::for_chain();
    let mut contenders = vec![chain("proved", ffi::chain), chain("plain Rust", plain::chain::chain)];
    table::print("chain", &cases, &mut contenders);
    let mut run = [0; 64];
    let mut sets = [0; 128];
    let mut contenders = vec![
        Contender::new("chain", move |bytes| none(ffi::chain(bytes, 0, last(bytes), &mut run))),
        Contender::new("clusters", move |bytes| none(ffi::clusters(bytes, &mut sets))),
    ];
    table::print("chain beside the list of clusters", &cases, &mut contenders);
}

/// A contender with lent numbers of its own.
fn chain(name: &'static str, chain: fn(&[u8], usize, usize, &mut [u16]) -> i32) -> Contender {
    let mut out = [0; 64];
    Contender::new(name, move |bytes| chain(bytes, 0, last(bytes), &mut out))
}

/// No answer, where two calls answer different things.
fn none(_answer: i32) -> i32 {
    0
}

/// The last element of a sheet.
fn last(bytes: &[u8]) -> usize {
    usize::from(bytes[4]) - 1
}
