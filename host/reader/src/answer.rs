//! What a step of any walk answers: an item, the end, or a refusal. The next
//! state stands beside it; after the end or a refusal it is the ended state.

use crate::number::Refusal;

/// The answer of one step.
#[derive(Clone, Copy, Debug, PartialEq, Eq)]
pub enum Answer<T> {
    /// The next item.
    Item(T),
    /// There is no further item.
    Ended,
    /// The step met this number; the walk is over.
    Refused(Refusal),
}

/// Turns what a step found into its answer and the next state. `ended` is the
/// one ended value of the state.
pub(crate) fn answer<T, S>(found: Result<Option<(T, S)>, Refusal>, ended: S) -> (Answer<T>, S) {
    match found {
        Ok(Some((item, next))) => (Answer::Item(item), next),
        Ok(None) => (Answer::Ended, ended),
        Err(number) => (Answer::Refused(number), ended),
    }
}
