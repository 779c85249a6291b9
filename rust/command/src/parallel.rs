//! Work on many items, on all cores.

use std::io::Write;
use std::sync::atomic::{AtomicUsize, Ordering};
use std::sync::mpsc;
use std::thread;
use std::time::{Duration, Instant};

/// How often the progress line is drawn.
const PERIOD: Duration = Duration::from_millis(100);

/// The results of some work on each item, in the order of the items. A terminal at standard error is told how far it is.
pub fn map<T: Sync, R: Send>(items: &[T], work: impl Fn(&T) -> R + Sync) -> Vec<R> {
    let workers = thread::available_parallelism().map_or(1, usize::from).min(items.len());
    let next = AtomicUsize::new(0);
    let mut results: Vec<Option<R>> = items.iter().map(|_| None).collect();
    thread::scope(|scope| {
        let (sender, receiver) = mpsc::channel();
        for _ in 0..workers {
            let (sender, next, work) = (sender.clone(), &next, &work);
            scope.spawn(move || {
                while let Some((i, item)) =
                    Some(next.fetch_add(1, Ordering::Relaxed)).and_then(|i| Some((i, items.get(i)?)))
                {
                    if sender.send((i, work(item))).is_err() {
                        break;
                    }
                }
            });
        }
        drop(sender);
        let mut progress = Progress::of(items.len());
        for (done, (i, result)) in receiver.into_iter().enumerate() {
            results[i] = Some(result);
            progress.tell(done + 1);
        }
        progress.clear();
    });
    results.into_iter().flatten().collect()
}

/// A line on a terminal that says how far the work is.
struct Progress {
    all: usize,
    shown: bool,
    last: Instant,
}

impl Progress {
    /// A line for so many items.
    fn of(all: usize) -> Progress {
        Progress { all, shown: false, last: Instant::now() }
    }

    /// Says how many are done, from time to time.
    fn tell(&mut self, done: usize) {
        if self.all > 1 && self.last.elapsed() >= PERIOD && at_terminal() {
            let _ = write!(std::io::stderr(), "\r{done} of {} files", self.all);
            (self.shown, self.last) = (true, Instant::now());
        }
    }

    /// Takes the line away.
    fn clear(&self) {
        if self.shown {
            let _ = write!(std::io::stderr(), "\r\x1b[K");
        }
    }
}

/// Whether standard error is a terminal. Windows' C library has an underscore before the name.
fn at_terminal() -> bool {
    extern "C" {
        #[cfg_attr(windows, link_name = "_isatty")]
        fn isatty(file: i32) -> i32;
    }
    const STANDARD_ERROR: i32 = 2;
    // SAFETY: the call looks at the number of a file alone.
    unsafe { isatty(STANDARD_ERROR) != 0 }
}
