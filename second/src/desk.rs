//! The desk program.

use crate::fast;

/// Bytes of a journal that has room for the longest list.
const JOURNAL_BYTES: usize = 9 * 4_096;

/// "Starts with an empty journal, runs to the end and prints one line per
/// query: the query's count from 1, a space, `yes` or `no`. For a refusal it
/// prints only `refused`, the code and the place, with single spaces."
pub fn desk(file: &[u8]) -> String {
    let mut journal = vec![0; JOURNAL_BYTES];
    let mut answers = vec![0; queries(file)];
    let report = fast::run(file, &mut journal, 0, usize::MAX, &mut answers);
    if report.code != 0 {
        return format!("refused {} {}\n", report.code, report.place);
    }
    let words = answers.iter().map(|answer| match answer {
        1 => "yes",
        _ => "no",
    });
    words
        .zip(1..)
        .map(|(word, count)| format!("{count} {word}\n"))
        .collect()
}

/// The lines that begin with `Q`; in an accepted file, the queries.
fn queries(file: &[u8]) -> usize {
    let lines = file.split(|byte| *byte == b'\n');
    lines.filter(|line| line.starts_with(b"Q")).count()
}
