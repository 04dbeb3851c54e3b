//! The independent second program.
//!
//! It is written from the scope paper (01) and the change requests (02) alone
//! and shares nothing with the proved library. [`slow`] says 01 once more, word
//! by word; [`fast`] gives the same answers in nearly linear time, for large
//! files and as a measure of speed; [`desk`] is the desk program; [`chain`]
//! gives the reasons behind a yes (02, M-100). The two engines share only
//! [`Report`].

pub mod chain;
pub mod desk;
pub mod fast;
pub mod slow;

/// An engine: the file, the journal buffer, its used length, the limit n and
/// the answer buffer.
pub type Run = fn(&[u8], &mut [u8], usize, usize, &mut [u8]) -> Report;

/// What a run returns.
#[derive(Clone, Debug, PartialEq, Eq)]
pub struct Report {
    /// 0, or the code of a refusal.
    pub code: usize,
    /// 0, or the place that goes with the code.
    pub place: usize,
    /// Records in the kept part.
    pub kept: usize,
    /// Records added right after it.
    pub added: usize,
    /// Whether the journal as left has no next record.
    pub finished: bool,
    /// The new used length.
    pub used: usize,
}

impl Report {
    /// "A refusal returns its code and place, kept 0, added 0, not finished,
    /// and the used length as it was given."
    pub fn refusal(code: usize, place: usize, used: usize) -> Report {
        Report {
            code,
            place,
            kept: 0,
            added: 0,
            finished: false,
            used,
        }
    }
}
