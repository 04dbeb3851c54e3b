//! Which lien messages a registry may record, and whether its journal holds the
//! reason: the proved library as a safe crate.
//!
//! [`run`] is the call of the papers: it reads a policy file, keeps what is good
//! of a journal, adds the next records and answers the file's queries, a byte
//! each. [`settle`] makes the same run and gives the text to print in place of the
//! bytes. [`chain`] gives the records that a yes rests on. Every slice, used length,
//! limit and count gets an answer; a call that is refused changes neither the journal
//! nor the answers nor what was lent for a chain. None of them allocates, keeps
//! anything between calls, or needs more than 192 KiB of stack.
//!
//! **Before you act on a yes, bring the first `used` bytes of the journal to
//! safety.** They hold the record that the yes rests on.
//!
//! ```
//! let policy = b"H > S bank paid paid\nH S bank paid\nQ paid\nQ P bank paid\nQ S bank lien\n";
//! let mut journal = vec![0; brimusket::JOURNAL_BYTES];
//! let mut answers = [0; brimusket::QUERIES];
//!
//! // The first call begins with an empty journal, and may add one record.
//! let first = brimusket::run(policy, &mut journal, 0, 1, &mut answers);
//! assert_eq!((first.code, first.added, first.finished), (0, 1, false));
//! assert_eq!(answers[..3], [brimusket::OPEN; 3]);
//!
//! // The next one goes on from its used bytes, to the end.
//! let report = brimusket::run(policy, &mut journal, first.used, brimusket::ALL, &mut answers);
//! assert_eq!((report.kept, report.added, report.finished), (1, 3, true));
//! assert_eq!(report.used, 36);
//! use brimusket::{NO, YES};
//! assert_eq!(answers[..3], [YES, YES, NO]);
//! ```
//!
//! A refusal has a code and a place; `docs/CODES.md` says what each means:
//!
//! ```
//! let report = brimusket::run(b"H b\nQ  b\n", &mut [], 0, brimusket::ALL, &mut []);
//! assert_eq!((report.code, report.place), (2, 4));
//! ```
#![deny(unsafe_code)]

mod boundary;

pub use boundary::{chain, run, settle};

/// The longest policy file that is not refused with code 1.
pub const FILE_BYTES: usize = 32_768;
/// Bytes of a record.
pub const RECORD_BYTES: usize = 9;
/// A journal buffer of this length is long enough for every file.
pub const JOURNAL_BYTES: usize = 36_864;
/// An answer buffer of this length is long enough for every file.
pub const QUERIES: usize = 1_024;
/// [`settle`] prints into a text buffer of this length or a longer one.
pub const TEXT_BYTES: usize = 65_536;
/// A limit that lets a call add all that is missing, whatever the file. A larger
/// one does the same.
pub const ALL: usize = 4_096;

/// The answer to a query that does not follow, in a finished journal.
pub const NO: u8 = 0;
/// The answer to a query whose record the journal holds.
pub const YES: u8 = 1;
/// The answer to any other query: call again, with records still to add.
pub const OPEN: u8 = 2;

/// What a call returns. After a refusal: its code and place, kept 0, added 0, not
/// finished, and `used` as it was given; journal and answers are as they were.
#[repr(C)]
#[derive(Clone, Copy, Debug, PartialEq, Eq)]
pub struct Report {
    /// 0, or the code of the refusal, 1 to 8.
    pub code: usize,
    /// Where in the file the refused line starts; 0 where the code names no line.
    pub place: usize,
    /// Records kept of the journal as it was given.
    pub kept: usize,
    /// Records added behind them.
    pub added: usize,
    /// No record is left to add.
    pub finished: bool,
    /// The journal's new used length, nine times the sum of kept and added. After
    /// code 7 it is what the caller gave, and larger than the buffer.
    pub used: usize,
}

/// What [`chain`] returns. After a refusal: its code and place, and no records; the
/// lent buffer is as it was.
#[repr(C)]
#[derive(Clone, Copy, Debug, PartialEq, Eq)]
pub struct Chained {
    /// 0, or the code of the refusal: 1 to 5, 7 or 31 to 33.
    pub code: usize,
    /// Where in the file the refused line starts; 0 where the code names no line.
    pub place: usize,
    /// Records of the chain.
    pub records: usize,
}

/// What a call did not keep of the journal that it was given.
#[derive(Clone, Copy, Debug, PartialEq, Eq)]
pub enum Dropped {
    /// All of it was kept.
    Nothing,
    /// All but a last record that was cut off.
    Torn,
    /// Whole records, or bytes that are no record's.
    More,
}

/// What [`settle`] returns.
#[derive(Clone, Copy, Debug, PartialEq, Eq)]
pub struct Settlement {
    /// What a run returns.
    pub report: Report,
    /// Whole records that the journal had; 0 after a refusal.
    pub records: usize,
    /// What was not kept of the journal; nothing after a refusal.
    pub dropped: Dropped,
    /// How many bytes of the text buffer are to be printed.
    pub length: usize,
}
