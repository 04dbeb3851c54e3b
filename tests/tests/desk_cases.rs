//! The desk cases of 01 with the exact bytes they lead to, on the engine under
//! test and on the reference.

use against::cases::{from_empty, from_journal, sizes};
use against::compare::{Checker, Outcome};
use against::desk::{self, bytes, file, Record, NONE};
use second::Report;

const NO: u8 = 0;
const YES: u8 = 1;
const OPEN: u8 = 2;

/// A file (a slash for each line feed, one more at the end), L, its uncut
/// journal and its answers.
struct DeskCase(&'static str, usize, &'static [Record], &'static [u8]);

const CASE_2: DeskCase = DeskCase(
    "H > S bank paid paid/H S bank paid/Q paid/Q P bank paid/Q S bank lien",
    6,
    &[
        (1, 0, NONE, NONE),
        (1, 1, NONE, NONE),
        (3, 2, 1, NONE),
        (7, 3, 1, 0),
    ],
    &[YES, YES, NO],
);

/// Case 2's journal as the paper prints it.
const JOURNAL_2: [u8; 36] = [
    0x4C, 0x51, 0x01, 0x00, 0x00, 0xFF, 0xFF, 0xFF, 0xFF, //
    0x4C, 0x51, 0x01, 0x00, 0x01, 0xFF, 0xFF, 0xFF, 0xFF, //
    0x4C, 0x51, 0x03, 0x00, 0x02, 0x00, 0x01, 0xFF, 0xFF, //
    0x4C, 0x51, 0x07, 0x00, 0x03, 0x00, 0x01, 0x00, 0x00, //
];

const DESK_CASES: [DeskCase; 15] = [
    CASE_2,
    DeskCase(
        "Q S a T",
        2,
        &[(2, 0, NONE, NONE), (2, 1, NONE, NONE)],
        &[YES],
    ),
    DeskCase("H P a b/Q S a b", 2, &[(1, 0, NONE, NONE)], &[NO]),
    DeskCase(
        "H S a b/Q P a b",
        2,
        &[(1, 0, NONE, NONE), (3, 1, 0, NONE)],
        &[YES],
    ),
    DeskCase(
        "H b/Q > c b",
        3,
        &[(1, 0, NONE, NONE), (8, 1, 0, NONE)],
        &[YES],
    ),
    DeskCase("Q > b b", 2, &[], &[NO]),
    DeskCase(
        "H > b c/H > c d/Q > b d",
        6,
        &[(1, 0, NONE, NONE), (1, 3, NONE, NONE)],
        &[NO],
    ),
    DeskCase(
        "H + S a b S a c/Q S a + b c",
        7,
        &[
            (1, 0, NONE, NONE),
            (4, 1, 0, NONE),
            (3, 2, 1, NONE),
            (5, 3, 0, NONE),
            (3, 4, 3, NONE),
            (6, 5, 1, 3),
            (3, 6, 5, NONE),
        ],
        &[YES],
    ),
    DeskCase(
        "H S a > b c/H P a b/Q P a c/Q S a c",
        6,
        &[
            (1, 0, NONE, NONE),
            (3, 1, 0, NONE),
            (1, 3, NONE, NONE),
            (7, 5, 3, 1),
        ],
        &[YES, NO],
    ),
    DeskCase(
        "H P a S c b/Q S a P c b",
        3,
        &[(1, 0, NONE, NONE), (3, 1, 0, NONE)],
        &[NO],
    ),
    DeskCase(
        "H S a + b c/Q b",
        7,
        &[
            (1, 0, NONE, NONE),
            (3, 1, 0, NONE),
            (4, 2, 0, NONE),
            (3, 3, 2, NONE),
            (5, 4, 0, NONE),
            (3, 5, 4, NONE),
        ],
        &[NO],
    ),
    DeskCase("Q b/H b", 1, &[(1, 0, NONE, NONE)], &[YES]),
    // Of the slips: weakening below an implication.
    DeskCase("H > c S a b/Q > c P a b", 5, &[(1, 0, NONE, NONE)], &[NO]),
    // Both premises one formula, and a hypothesis that is also a pref T.
    DeskCase(
        "H b/Q + b b",
        2,
        &[(1, 0, NONE, NONE), (6, 1, 0, 0)],
        &[YES],
    ),
    DeskCase(
        "H S a T/Q P a T",
        2,
        &[(1, 0, NONE, NONE), (2, 1, NONE, NONE)],
        &[YES],
    ),
];

/// Formulas that follow in several ways when their turn comes: the least first
/// premise, and for the same first premise the least second one.
const TIES: [DeskCase; 5] = [
    DeskCase(
        "H S a S b c",
        4,
        &[
            (1, 0, NONE, NONE),
            (3, 1, 0, NONE),
            (3, 2, 0, NONE),
            (3, 3, 0, NONE),
        ],
        &[],
    ),
    DeskCase(
        "Q + b c/H > + b d + b c/H + b d",
        6,
        &[
            (1, 3, NONE, NONE),
            (1, 4, NONE, NONE),
            (7, 0, 4, 3),
            (4, 1, 0, NONE),
            (5, 2, 0, NONE),
            (5, 5, 4, NONE),
        ],
        &[YES],
    ),
    DeskCase(
        "H + + c b b",
        4,
        &[
            (1, 0, NONE, NONE),
            (4, 1, 0, NONE),
            (4, 2, 1, NONE),
            (5, 3, 0, NONE),
        ],
        &[],
    ),
    DeskCase(
        "Q c/H > b d/H > c d/H + b c",
        6,
        &[
            (1, 1, NONE, NONE),
            (1, 4, NONE, NONE),
            (1, 5, NONE, NONE),
            (5, 0, 5, NONE),
            (4, 2, 5, NONE),
            (7, 3, 0, 4),
        ],
        &[YES],
    ),
    DeskCase(
        "Q S a c/H S a > b c/H > S a b S a c/H > t S a b/H t",
        9,
        &[
            (1, 2, NONE, NONE),
            (3, 3, 2, NONE),
            (1, 6, NONE, NONE),
            (1, 7, NONE, NONE),
            (1, 8, NONE, NONE),
            (7, 4, 8, 7),
            (7, 0, 4, 2),
            (3, 1, 0, NONE),
            (3, 5, 4, NONE),
        ],
        &[YES],
    ),
];

/// Checks that a run returned this, and left these journal bytes and answers
/// with the buffers' filling behind them.
fn assert_left(outcome: &Outcome, report: Report, journal: &[u8], answers: &[u8]) {
    assert_eq!(outcome.report, report);
    let (left, rest) = outcome.journal.split_at(journal.len());
    assert_eq!(left, journal);
    assert!(rest.iter().all(|byte| *byte == 0xEE), "{rest:02X?}");
    let (left, rest) = outcome.answers.split_at(answers.len());
    assert_eq!(left, answers);
    assert!(rest.iter().all(|byte| *byte == 0xEE), "{rest:02X?}");
}

fn success(kept: usize, added: usize, finished: bool) -> Report {
    Report {
        code: 0,
        place: 0,
        kept,
        added,
        finished,
        used: 9 * (kept + added),
    }
}

#[test]
fn case_1() {
    let outcome = Checker::default().check(&from_empty(b""));
    assert_eq!(sizes(b""), Some((0, 0)));
    assert_left(&outcome, success(0, 0, true), &[], &[]);
}

fn assert_desk_case(DeskCase(spelling, listed, records, answers): &DeskCase) {
    let file = file(spelling);
    assert_eq!(sizes(&file), Some((*listed, answers.len())), "{spelling}");
    let outcome = Checker::default().check(&from_empty(&file));
    let report = success(0, records.len(), true);
    assert_left(&outcome, report, &bytes(records), answers);
}

#[test]
fn cases_2_to_11_and_slips() {
    DESK_CASES.iter().for_each(assert_desk_case);
}

#[test]
fn ties() {
    TIES.iter().for_each(assert_desk_case);
}

/// Runs case 2 from the given journal.
fn case_2_from(journal: &[u8], limit: usize) -> Outcome {
    let mut case = from_journal(&file(CASE_2.0), journal);
    case.limit = limit;
    Checker::default().check(&case)
}

#[test]
fn case_2_from_empty_by_limit() {
    let answers = [
        [OPEN, OPEN, OPEN],
        [OPEN, OPEN, OPEN],
        [OPEN, OPEN, OPEN],
        [OPEN, YES, OPEN],
        [YES, YES, NO],
        [YES, YES, NO],
    ];
    assert_eq!(bytes(CASE_2.2), JOURNAL_2);
    for (limit, answers) in answers.iter().enumerate() {
        let added = limit.min(4);
        let report = success(0, added, limit >= 4);
        assert_left(
            &case_2_from(&[], limit),
            report,
            &JOURNAL_2[..9 * added],
            answers,
        );
    }
}

#[test]
fn case_2_cut_to_20() {
    let answers = [YES, YES, NO];
    let outcome = case_2_from(&JOURNAL_2[..20], 2);
    assert_left(&outcome, success(2, 2, true), &JOURNAL_2, &answers);

    // Bytes 18 and 19 of the cut journal stay where no record is added.
    let outcome = case_2_from(&JOURNAL_2[..20], 0);
    assert_left(&outcome, success(2, 0, false), &JOURNAL_2[..20], &[OPEN; 3]);
}

#[test]
fn case_2_exchanged() {
    let exchanged = [&JOURNAL_2[9..18], &JOURNAL_2[..9], &JOURNAL_2[18..]].concat();
    let outcome = case_2_from(&exchanged, 4);
    assert_left(&outcome, success(4, 0, true), &exchanged, &[YES, YES, NO]);
}

#[test]
fn case_2_only_the_fourth() {
    let outcome = case_2_from(&JOURNAL_2[27..], 4);
    assert_left(&outcome, success(0, 4, true), &JOURNAL_2, &[YES, YES, NO]);
}

#[test]
fn case_12() {
    for (file, code, place) in desk::case_12() {
        let outcome = Checker::default().check(&from_empty(file.as_bytes()));
        assert_eq!((outcome.report.code, outcome.report.place), (code, place));
    }
}
