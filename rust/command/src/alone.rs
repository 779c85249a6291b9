//! Work on many items in a page, which has one thread.

/// The results of some work on each item, in the order of the items.
pub fn map<T, R>(items: &[T], work: impl Fn(&T) -> R) -> Vec<R> {
    items.iter().map(work).collect()
}
