//! Which engine is under test: the one switch between the proved library and
//! its stand-in.

use crate::chains::Call;
use second::{fast, slow, Run};

#[cfg(feature = "proved")]
pub use proved::{plain, run as under_test};
#[cfg(not(feature = "proved"))]
pub use second::fast::run as under_test;

/// The call for a chain of the engine under test. The fast sibling has none.
#[cfg(feature = "proved")]
pub const CHAIN: Option<Call> = Some(proved::chain);
#[cfg(not(feature = "proved"))]
pub const CHAIN: Option<Call> = None;

/// What the engine under test is called in what is printed.
pub const NAME: &str = if cfg!(feature = "proved") {
    "proved library"
} else {
    "fast sibling"
};

/// How many files with long lists a gate run takes. Without the proved library
/// only the slow engine is left to compare with, and few will do.
pub const LARGE_FILES: usize = if cfg!(feature = "proved") { 60 } else { 15 };

/// The longest list for which the slow engine is quick enough in every case of a
/// gate run.
const LONGEST_SLOW_LIST: usize = 400;

/// The engine to compare with on this file: the slow one, and for long lists
/// the fast sibling unless it is itself under test.
pub fn reference(file: &[u8]) -> Run {
    let list = fast::read(file).and_then(|parsed| fast::list(&parsed));
    let is_long = list.is_ok_and(|list| list.listed() > LONGEST_SLOW_LIST);
    if cfg!(feature = "proved") && is_long {
        fast::run
    } else {
        slow::run
    }
}

#[cfg(feature = "proved")]
mod proved {
    use second::chain::Chain;
    use second::Report;

    /// A report of the proved library as one of the second program.
    pub fn plain(report: brimusket::Report) -> Report {
        Report {
            code: report.code,
            place: report.place,
            kept: report.kept,
            added: report.added,
            finished: report.finished,
            used: report.used,
        }
    }

    /// The proved library's run.
    pub fn run(
        file: &[u8],
        journal: &mut [u8],
        used: usize,
        limit: usize,
        answers: &mut [u8],
    ) -> Report {
        plain(brimusket::run(file, journal, used, limit, answers))
    }

    /// The proved library's chain.
    pub fn chain(file: &[u8], journal: &[u8], used: usize, query: usize, out: &mut [u8]) -> Chain {
        let chained = brimusket::chain(file, journal, used, query, out);
        Chain {
            code: chained.code,
            place: chained.place,
            records: chained.records,
        }
    }
}
