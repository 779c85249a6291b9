//! The cheapest missing dimensions: prices of all kinds, all equal, and an element that can't be brought in, so that every pair is tried.

use pattern_bench::timing::Contender;
use pattern_bench::{cases, plain, table};
use pattern_tests::ffi;
use pattern_tests::missing::UNMEASURED;

type Call = fn(&[u8], &[u16], &mut [u16]) -> i32;
type Prices = fn(usize) -> Vec<u16>;

fn main() {
    let kinds: [(&str, Prices); 3] = [
        ("missing, prices 0 to 1,000", of_all_kinds),
        ("missing, all prices equal", equal),
        ("missing, all prices equal, one pair of the last element", last_once),
    ];
    for (title, prices) in kinds {
        let mut contenders =
            vec![with("proved", prices, ffi::missing), with("plain Rust", prices, plain::missing::missing)];
        table::print(title, &cases::for_missing(), &mut contenders);
    }
}

/// Prices 0 to 1,000 for the pairs of n elements.
fn of_all_kinds(n: usize) -> Vec<u16> {
    (0..n * (n - 1) / 2).map(|i| (i * 7919 % 65_521 % 1_001) as u16).collect()
}

/// The price 0 for each.
fn equal(n: usize) -> Vec<u16> {
    vec![0; n * (n - 1) / 2]
}

/// The price 0 for each but those of the last element: of these the first alone can be measured.
fn last_once(n: usize) -> Vec<u16> {
    let pairs = (0..n).flat_map(|u| (u + 1..n).map(move |v| (u, v)));
    pairs.map(|(u, v)| if v == n - 1 && u > 0 { UNMEASURED } else { 0 }).collect()
}

/// A contender with prices and lent places of its own.
fn with(name: &'static str, prices: Prices, call: Call) -> Contender {
    let mut of_n: Vec<Vec<u16>> = (0..=64).map(|_| Vec::new()).collect();
    let mut out = [0; 125];
    Contender::new(name, move |bytes| {
        let n = usize::from(bytes[4]);
        if of_n[n].is_empty() {
            of_n[n] = prices(n);
        }
        call(bytes, &of_n[n], &mut out)
    })
}
