//! Time a call, in nanoseconds.

use std::arch::asm;
use std::time::Instant;

use crate::cases::Case;

/// How often each contender has its turn; the lowest of its medians counts.
pub const TURNS: usize = 6;
/// How often all cases are gone through, where a disturbance of the machine is to spoil one round of a case alone.
pub const ROUNDS: usize = 3;
/// Samples a turn; their median counts.
pub const SAMPLES: usize = 41;
/// The least time of a sample.
const SAMPLE_NS: f64 = 50_000.0;

/// A call to be timed on each sheet of a pool.
pub type Call = Box<dyn FnMut(&[u8]) -> i32>;

/// Who is timed.
pub struct Contender {
    pub name: &'static str,
    pub call: Call,
    /// Whether it writes the tags that it reads.
    pub keeps_tags: bool,
}

impl Contender {
    /// A contender by its name and what it calls.
    pub fn new(name: &'static str, call: impl FnMut(&[u8]) -> i32 + 'static) -> Contender {
        Contender { name, call: Box::new(call), keeps_tags: false }
    }

    /// A contender with lent space of its own.
    pub fn lending<T: Default + Copy + 'static, const ROOM: usize>(
        name: &'static str,
        call: fn(&[u8], &mut [T]) -> i32,
    ) -> Contender {
        let mut out = [T::default(); ROOM];
        Contender::new(name, move |bytes| call(bytes, &mut out))
    }

    /// The contender as one that writes the tags that it reads.
    pub fn keeping_tags(self) -> Contender {
        Contender { keeps_tags: true, ..self }
    }
}

/// For each contender the lowest of its medians; they take turns, so that all meet the same machine.
pub fn lowest_medians(contenders: &mut [Contender], pool: &[Vec<u8>]) -> Vec<f64> {
    let mut lowest = vec![f64::INFINITY; contenders.len()];
    for _ in 0..TURNS {
        for (contender, lowest) in contenders.iter_mut().zip(&mut lowest) {
            *lowest = lowest.min(median(&mut contender.call, pool));
        }
    }
    lowest
}

/// For each case the lowest medians of the contenders over all rounds.
pub fn lowest_of_rounds(contenders: &mut [Contender], cases: &[Case]) -> Vec<Vec<f64>> {
    let mut lowest = vec![vec![f64::INFINITY; contenders.len()]; cases.len()];
    for _ in 0..ROUNDS {
        for (case, lowest) in cases.iter().zip(&mut lowest) {
            lower(lowest, lowest_medians(contenders, &case.pool));
        }
    }
    lowest
}

/// Keeps the lower time of each contender.
pub fn lower(times: &mut [f64], again: Vec<f64>) {
    for (time, again) in times.iter_mut().zip(again) {
        *time = time.min(again);
    }
}

/// The median time of a call over some samples, each of several passes over the pool.
fn median(call: &mut Call, pool: &[Vec<u8>]) -> f64 {
    let passes = (SAMPLE_NS / sample(call, pool, 1)).ceil() as usize;
    let mut times: Vec<f64> = (0..SAMPLES).map(|_| sample(call, pool, passes)).collect();
    times.sort_by(f64::total_cmp);
    times[SAMPLES / 2] / (pool.len() * passes) as f64
}

/// The value itself, handed to no instruction at all, through which the compiler does not see.
#[inline(always)]
pub fn black_box<T>(value: T) -> T {
    // SAFETY: nothing is executed.
    unsafe { asm!("/* {} */", in(reg) &value, options(nostack, preserves_flags)) };
    value
}

/// The time of some passes over the pool.
fn sample(call: &mut Call, pool: &[Vec<u8>], passes: usize) -> f64 {
    let start = Instant::now();
    for _ in 0..passes {
        for bytes in pool {
            black_box(call(black_box(bytes)));
        }
    }
    (start.elapsed().as_nanos() as f64).max(1.0)
}
