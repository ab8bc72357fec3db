//! How far the steps of a move have gone.

/// What [`Panel::finish`](crate::Panel::finish) has done.
#[derive(Clone, Copy, Debug, PartialEq, Eq)]
pub struct Stepped {
    /// The steps that were made, up to the limit.
    pub steps: usize,
    /// Whether no move runs any more. Else the limit was reached before the move had ended.
    pub is_idle: bool,
}
