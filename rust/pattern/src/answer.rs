//! What a call answered.

use crate::Rule;

/// The count that a call answered, or the rule that refused it.
pub fn counted(answer: i32) -> Result<usize, Rule> {
    usize::try_from(answer).map_err(|_| Rule(answer.unsigned_abs() as u8))
}

/// The items that a call wrote, or the rule that refused it.
pub fn written<T>(answer: i32, out: &[T]) -> Result<&[T], Rule> {
    counted(answer).map(|count| &out[..count])
}
