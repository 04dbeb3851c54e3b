//! The C boundary of the proved library, as `include/brimusket.h` declares it.
//! All `unsafe` blocks of this repository stand here, one for each function.
#![allow(unsafe_code)]

use crate::{Chained, Dropped, Report, Settlement};

#[repr(C)]
struct Settled {
    report: Report,
    records: usize,
    dropped: usize,
    length: usize,
}

extern "C" {
    fn brimusket_run(
        file: *const u8,
        file_len: usize,
        journal: *mut u8,
        journal_len: usize,
        used: usize,
        limit: usize,
        answers: *mut u8,
        answers_len: usize,
    ) -> Report;

    fn brimusket_settle(
        file: *const u8,
        file_len: usize,
        journal: *mut u8,
        journal_len: usize,
        used: usize,
        limit: usize,
        questions: bool,
        text: *mut u8,
        text_len: usize,
    ) -> Settled;

    fn brimusket_chain(
        file: *const u8,
        file_len: usize,
        journal: *const u8,
        journal_len: usize,
        used: usize,
        query: usize,
        out: *mut u8,
        out_len: usize,
    ) -> Chained;
}

/// Keeps what is good of the journal's first `used` bytes, adds at most `limit`
/// records behind it, and writes a byte for each query of the file to the front
/// of `answers`, in the file's order. The other bytes of both buffers stay.
pub fn run(
    file: &[u8],
    journal: &mut [u8],
    used: usize,
    limit: usize,
    answers: &mut [u8],
) -> Report {
    // SAFETY: each pointer comes with the length of its own slice, no two of the
    // slices overlap, and the library keeps none of them.
    unsafe {
        brimusket_run(
            file.as_ptr(),
            file.len(),
            journal.as_mut_ptr(),
            journal.len(),
            used,
            limit,
            answers.as_mut_ptr(),
            answers.len(),
        )
    }
}

/// The same run, with the text to print in place of the answers: a line for each
/// query, behind it the question itself where `questions` says so, or the refusal
/// alone. It goes to the front of `text`, whose other bytes stay.
///
/// A text buffer shorter than [`TEXT_BYTES`](crate::TEXT_BYTES) has room for no
/// answer: nothing is printed, and a file that asks something is refused with
/// code 8.
///
/// ```
/// let policy = b"H > S bank paid paid\nH S bank paid\nQ paid\nQ P bank paid\nQ S bank lien\n";
/// let mut journal = vec![0; brimusket::JOURNAL_BYTES];
/// let mut text = vec![0; brimusket::TEXT_BYTES];
/// let settled = brimusket::settle(policy, &mut journal, 0, brimusket::ALL, true, &mut text);
/// assert_eq!(settled.report.used, 36);
/// assert_eq!(&text[..settled.length], b"1 yes paid\n2 yes P bank paid\n3 no S bank lien\n");
/// ```
pub fn settle(
    file: &[u8],
    journal: &mut [u8],
    used: usize,
    limit: usize,
    questions: bool,
    text: &mut [u8],
) -> Settlement {
    // SAFETY: as for `run`.
    let settled = unsafe {
        brimusket_settle(
            file.as_ptr(),
            file.len(),
            journal.as_mut_ptr(),
            journal.len(),
            used,
            limit,
            questions,
            text.as_mut_ptr(),
            text.len(),
        )
    };
    Settlement {
        report: settled.report,
        records: settled.records,
        dropped: match settled.dropped {
            0 => Dropped::Nothing,
            1 => Dropped::Torn,
            _ => Dropped::More,
        },
        length: settled.length,
    }
}

/// The reasons behind a yes, and only those: the records that a query rests on, in
/// the journal's order, the query's own last. They go together to the front of
/// `out`, whose other bytes stay.
///
/// `query` counts the file's queries from 1. What a run would keep of the journal's
/// first `used` bytes is looked at; nothing is run. A buffer of as many bytes as
/// `used` has room for every chain.
///
/// ```
/// let policy = b"H > S bank paid paid\nH S bank paid\nQ paid\nQ P bank paid\nQ S bank lien\n";
/// let mut journal = vec![0; brimusket::JOURNAL_BYTES];
/// let mut answers = [0; brimusket::QUERIES];
/// let used = brimusket::run(policy, &mut journal, 0, brimusket::ALL, &mut answers).used;
///
/// // "P bank paid" rests on the second line of the file alone.
/// let mut out = vec![0; used];
/// let chained = brimusket::chain(policy, &journal, used, 2, &mut out);
/// assert_eq!((chained.code, chained.records), (0, 2));
/// assert_eq!(out[..18], journal[9..27]);
///
/// // "S bank lien" was answered no.
/// assert_eq!(brimusket::chain(policy, &journal, used, 3, &mut out).code, 32);
/// ```
pub fn chain(file: &[u8], journal: &[u8], used: usize, query: usize, out: &mut [u8]) -> Chained {
    // SAFETY: each pointer comes with the length of its own slice; `out` overlaps
    // neither of the others, which are only read; the library keeps none of them.
    unsafe {
        brimusket_chain(
            file.as_ptr(),
            file.len(),
            journal.as_ptr(),
            journal.len(),
            used,
            query,
            out.as_mut_ptr(),
            out.len(),
        )
    }
}
