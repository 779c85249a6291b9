//! The one table: a row for each call and shape, grouped by call, and then the worst ratio of each call.

use crate::cases::Case;
use crate::table::agree;
use crate::timing::{lowest_of_rounds, Contender, ROUNDS, SAMPLES, TURNS};
use crate::words;

/// A call, the sheets it is timed on, and who is timed: ours and then plain Rust.
pub struct Group {
    pub call: &'static str,
    pub cases: Vec<Case>,
    pub contenders: [Contender; 2],
}

impl Group {
    /// A call that is lent so much space.
    pub fn lending<T: Default + Copy + 'static, const ROOM: usize>(
        call: &'static str,
        cases: Vec<Case>,
        ours: fn(&[u8], &mut [T]) -> i32,
        plain: fn(&[u8], &mut [T]) -> i32,
    ) -> Group {
        let contenders =
            [Contender::lending::<T, ROOM>("ours", ours), Contender::lending::<T, ROOM>("plain Rust", plain)];
        Group { call, cases, contenders }
    }
}

/// A call's highest ratio, and where it was met.
struct Worst {
    call: &'static str,
    rows: usize,
    ratio: f64,
    shape: &'static str,
    n: usize,
}

/// Times every call on every shape and prints the table.
pub fn print(groups: Vec<Group>) {
    println!(
        "µs a call, bytes in and answer out, of the proved library (ours) and of plain Rust, both of which returned the same numbers: \
         the lowest of {} medians of {SAMPLES} samples over sheets of one shape with n elements and e constraints",
        ROUNDS * TURNS
    );
    println!();
    println!("{:<14}{:<46}{:>3}{:>5}{:>9}{:>12}{:>8}", "call", "shape", "n", "e", "ours", "plain Rust", "ratio");
    let worst: Vec<Worst> = groups.into_iter().map(rows).collect();
    for Worst { call, rows, ratio, shape, n } in worst {
        println!("{call}: the worst ratio of {rows} is {ratio:.2} ({shape}, n {n})");
    }
}

/// The rows of a call, and its worst.
fn rows(mut group: Group) -> Worst {
    let call = group.call;
    let mut worst = Worst { call, rows: group.cases.len(), ratio: 0.0, shape: "", n: 0 };
    for case in &group.cases {
        agree(case, &mut group.contenders);
    }
    let times = lowest_of_rounds(&mut group.contenders, &group.cases);
    for (case, times) in group.cases.iter().zip(times) {
        let (ours, plain, ratio) = (times[0] / 1000.0, times[1] / 1000.0, times[0] / times[1]);
        let (shape, n, e) = (words::of(&case.name), case.n, case.e);
        println!("{call:<14}{shape:<46}{n:>3}{e:>5}{ours:>9.2}{plain:>12.2}{ratio:>8.2}");
        if ratio > worst.ratio {
            worst = Worst { ratio, shape, n, ..worst };
        }
    }
    println!();
    worst
}
