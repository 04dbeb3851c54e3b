//! The call that prints, `brimusket::settle`, against the second program: its
//! report, its journal, its text, and what it tells of a journal that is not kept
//! whole.
#![cfg(feature = "proved")]

use against::cases;
use against::compare::Case;
use against::engine::{plain, reference};
use against::journals::{self, RECORD};
use against::machine::{is_tested, share};
use against::rng::Rng;
use brimusket::{Dropped, TEXT_BYTES};
use second::Report;

const FILLER: u8 = 0xEE;

/// What a call is given beside the case: whether the questions are asked for, and
/// the length of the text buffer.
#[derive(Clone, Copy, Debug)]
struct Printed {
    questions: bool,
    room: usize,
}

/// What a call returns and leaves behind.
#[derive(PartialEq)]
struct Left {
    report: Report,
    records: usize,
    dropped: Dropped,
    length: usize,
    journal: Vec<u8>,
    text: Vec<u8>,
}

/// The questions of a file, as it has them.
fn questions(file: &[u8]) -> Vec<String> {
    let text = String::from_utf8_lossy(file);
    let asked = text.lines().filter_map(|line| line.strip_prefix("Q "));
    asked.map(String::from).collect()
}

/// What of the used bytes a call with this report did not keep.
fn dropped(old: &[u8], kept: usize) -> Dropped {
    match &old[RECORD * kept..] {
        [] => Dropped::Nothing,
        [b'L'] | [b'L', b'Q'] => Dropped::Torn,
        [b'L', b'Q', 1..=8, rest @ ..] if rest.len() < RECORD - 3 => Dropped::Torn,
        _ => Dropped::More,
    }
}

/// The text of answers or of a refusal.
fn text_of(report: &Report, file: &[u8], answers: &[u8], asked: bool) -> String {
    if report.code != 0 {
        return format!("refused {} {}\n", report.code, report.place);
    }
    let lines = questions(file).into_iter().zip(answers).zip(1..);
    let lines = lines.map(|((question, answer), count)| {
        let word = ["no", "yes", "open"][usize::from(*answer)];
        let behind = if asked {
            format!(" {question}")
        } else {
            String::new()
        };
        format!("{count} {word}{behind}\n")
    });
    lines.collect()
}

/// What the second program's run makes of the call.
fn expected(case: &Case, printed: Printed) -> Left {
    let whole = printed.room >= TEXT_BYTES;
    let mut answers = vec![FILLER; if whole { 1_024 } else { 0 }];
    let mut journal = case.journal.clone();
    let run = reference(&case.file);
    let report = run(
        &case.file,
        &mut journal,
        case.used,
        case.limit,
        &mut answers,
    );
    let shown = text_of(&report, &case.file, &answers, printed.questions);
    let shown = if whole { shown } else { String::new() };
    let mut text = vec![FILLER; printed.room];
    text[..shown.len()].copy_from_slice(shown.as_bytes());
    let accepted = report.code == 0;
    let dropped = accepted.then(|| dropped(&case.journal[..case.used], report.kept));
    Left {
        report,
        records: if accepted { case.used / RECORD } else { 0 },
        dropped: dropped.unwrap_or(Dropped::Nothing),
        length: shown.len(),
        journal,
        text,
    }
}

/// What the proved call makes of it.
fn left(case: &Case, printed: Printed) -> Left {
    let mut journal = case.journal.clone();
    let mut text = vec![FILLER; printed.room];
    let (used, limit, asked) = (case.used, case.limit, printed.questions);
    let settled = brimusket::settle(&case.file, &mut journal, used, limit, asked, &mut text);
    Left {
        report: plain(settled.report),
        records: settled.records,
        dropped: settled.dropped,
        length: settled.length,
        journal,
        text,
    }
}

fn assert_settled(case: &Case, printed: Printed) -> Left {
    let left = left(case, printed);
    assert!(
        left == expected(case, printed),
        "{printed:?} on\n{case}left {:?}",
        left.report
    );
    left
}

/// A text buffer that is long enough, often by nothing, or too short.
fn any_room(rng: &mut Rng) -> usize {
    match rng.below(4) {
        0 => rng.below(TEXT_BYTES),
        1 => TEXT_BYTES + rng.below(100),
        2 => TEXT_BYTES - 1,
        _ => TEXT_BYTES,
    }
}

#[test]
fn made_up_files_and_journals_are_settled_alike() {
    let mut counts = [0; 3];
    for at in 0..share(3_000) as u64 {
        let mut rng = Rng::for_case(91, at);
        let case = cases::any(&mut rng);
        let printed = Printed {
            questions: rng.once_in(2),
            room: any_room(&mut rng),
        };
        counts[assert_settled(&case, printed).dropped as usize] += 1;
    }
    assert!(counts.iter().all(|count| *count > share(40)), "{counts:?}");
}

#[test]
fn a_journal_cut_at_any_byte_drops_a_torn_record_at_most() {
    let printed = Printed {
        questions: false,
        room: TEXT_BYTES,
    };
    for accepted in cases::accepted(92).take(share(40)) {
        for cut in 0..=accepted.uncut.len().min(60) {
            let case = cases::from_journal(&accepted.file, &accepted.uncut[..cut]);
            let settled = assert_settled(&case, printed);
            let torn = !cut.is_multiple_of(RECORD);
            let told = if torn {
                Dropped::Torn
            } else {
                Dropped::Nothing
            };
            assert_eq!(settled.dropped, told, "{case}");
            assert_eq!(settled.records, settled.report.kept);
        }
    }
}

/// Every short row of bytes behind good records is a torn record or foreign.
#[test]
fn foreign_bytes_are_told_from_a_torn_record() {
    let file = b"H b\nQ b\n";
    let good = journals::finished(file);
    let printed = Printed {
        questions: true,
        room: TEXT_BYTES,
    };
    let mut row = 0..;
    for first in [0, b'K', b'L', b'M', b'Q', 255] {
        for second in [0, b'P', b'Q', b'R', b'L'] {
            for (rule, length) in [0, 1, 8, 9, 255]
                .iter()
                .flat_map(|rule| (1..RECORD).map(move |n| (*rule, n)))
            {
                let mut rest = vec![first, second, rule, 0, 0, 0, 0, 0];
                rest.truncate(length);
                for kept in [&good[..0], &good] {
                    if row.next().is_some_and(is_tested) {
                        let case = cases::from_journal(file, &[kept, &rest[..]].concat());
                        assert_settled(&case, printed);
                    }
                }
            }
        }
    }
}

/// Used lengths far above that of the longest journal: all used records are counted,
/// and what is not kept of them is told.
#[test]
fn a_journal_used_far_beyond_the_list_is_settled_alike() {
    let printed = Printed {
        questions: true,
        room: TEXT_BYTES,
    };
    let mut rng = Rng::new(93);
    for accepted in cases::accepted(94)
        .filter(|made| !made.uncut.is_empty())
        .take(8)
    {
        for case in cases::used_far(&mut rng, &accepted.file, &accepted.uncut) {
            let settled = assert_settled(&case, printed);
            assert_eq!(settled.records, case.used / RECORD);
            assert_eq!(settled.dropped, Dropped::More);
        }
    }
}

/// The longest text there is, with and without its questions: 1,024 of them.
#[test]
fn the_most_and_the_longest_questions_fit() {
    let longest = "q".repeat(16);
    let rows = [
        "Q T\n".repeat(1_024),
        format!("Q {longest}\n").repeat(1_024),
        format!("Q S {longest} S {longest} S {longest} S {longest} {longest}\n").repeat(204),
    ];
    for file in rows {
        for questions in [false, true] {
            let printed = Printed {
                questions,
                room: TEXT_BYTES,
            };
            let settled = assert_settled(&cases::from_empty(file.as_bytes()), printed);
            assert_eq!(settled.report.code, 0);
        }
    }
}
