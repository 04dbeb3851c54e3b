//! The desk cases of 01, on both engines.

use second::desk::desk;
use second::slow::Policy;
use second::{fast, slow, Report, Run};

const ENGINES: [Run; 2] = [slow::run, fast::run];

const CASE_2: &str = "H > S bank paid paid/H S bank paid/Q paid/Q P bank paid/Q S bank lien";

/// Case 2's journal from empty.
const JOURNAL_2: [[u8; 9]; 4] = [
    [0x4C, 0x51, 1, 0, 0, 0xFF, 0xFF, 0xFF, 0xFF],
    [0x4C, 0x51, 1, 0, 1, 0xFF, 0xFF, 0xFF, 0xFF],
    [0x4C, 0x51, 3, 0, 2, 0, 1, 0xFF, 0xFF],
    [0x4C, 0x51, 7, 0, 3, 0, 1, 0, 0],
];

/// "A slash stands for a line feed, and one ends each file."
fn file(spelling: &str) -> Vec<u8> {
    let mut file = spelling.replace('/', "\n").into_bytes();
    file.push(b'\n');
    file
}

/// Runs both engines from an empty journal to the end.
fn run_to_the_end(file: &[u8]) -> [(Report, Vec<u8>, Vec<u8>); 2] {
    ENGINES.map(|run| {
        let mut journal = vec![0; 9 * 4_096];
        let mut answers = vec![7; 16];
        let report = run(file, &mut journal, 0, usize::MAX, &mut answers);
        (report, journal, answers)
    })
}

fn assert_answers(spelling: &str, expected: &[u8]) {
    for (report, _, answers) in run_to_the_end(&file(spelling)) {
        assert_eq!(report.code, 0, "{spelling}");
        assert!(report.finished, "{spelling}");
        assert_eq!(answers[..expected.len()], *expected, "{spelling}");
        assert!(answers[expected.len()..].iter().all(|byte| *byte == 7));
    }
}

fn assert_refused(file: &[u8], code: usize, place: usize) {
    for (report, journal, answers) in run_to_the_end(file) {
        assert_eq!(report, Report::refusal(code, place, 0));
        assert!(journal.iter().all(|byte| *byte == 0));
        assert!(answers.iter().all(|byte| *byte == 7));
    }
}

#[test]
fn case_1_the_empty_file() {
    for (report, ..) in run_to_the_end(b"") {
        let finished = Report {
            finished: true,
            ..Report::refusal(0, 0, 0)
        };
        assert_eq!(report, finished);
    }
    assert_eq!(
        Policy::read(b"").ok().map(|policy| policy.listed()),
        Some(0)
    );
}

#[test]
fn cases_2_to_11_answers() {
    assert_answers(CASE_2, &[1, 1, 0]);
    assert_answers("Q S a T", &[1]);
    assert_answers("H P a b/Q S a b", &[0]);
    assert_answers("H S a b/Q P a b", &[1]);
    assert_answers("H b/Q > c b", &[1]);
    assert_answers("Q > b b", &[0]);
    assert_answers("H > b c/H > c d/Q > b d", &[0]);
    assert_answers("H + S a b S a c/Q S a + b c", &[1]);
    assert_answers("H S a > b c/H P a b/Q P a c/Q S a c", &[1, 0]);
    assert_answers("H P a S c b/Q S a P c b", &[0]);
    assert_answers("H S a + b c/Q b", &[0]);
    assert_answers("Q b/H b", &[1]);
}

#[test]
fn slips_seen_proposed() {
    assert_answers("H > c S a b/Q > c P a b", &[0]);
    assert_answers("H T/Q > T S a b/Q + T T", &[0, 1]);
}

#[test]
fn case_2_numbers() {
    let policy = Policy::read(&file(CASE_2)).expect("accepted");
    let expected = [
        "> S bank paid paid",
        "S bank paid",
        "P bank paid",
        "paid",
        "S bank lien",
        "P bank lien",
    ];
    assert!(policy.spellings().eq(expected));
}

/// Runs case 2 from a journal buffer of 54 bytes that begins with `old`.
fn run_case_2(run: Run, old: &[u8], limit: usize) -> (Report, Vec<u8>) {
    let mut journal = vec![0xAA; 54];
    journal[..old.len()].copy_from_slice(old);
    let mut answers = [7; 3];
    let report = run(&file(CASE_2), &mut journal, old.len(), limit, &mut answers);
    (report, journal)
}

fn assert_case_2(old: &[u8], kept: usize, added: usize, expected: &[u8]) {
    for run in ENGINES {
        let (report, journal) = run_case_2(run, old, 4);
        let expected_report = Report {
            kept,
            added,
            finished: true,
            ..Report::refusal(0, 0, 36)
        };
        assert_eq!(report, expected_report);
        assert_eq!(journal[..36], *expected);
        assert!(journal[36..].iter().all(|byte| *byte == 0xAA));
    }
}

#[test]
fn case_2_journals() {
    let whole = JOURNAL_2.concat();
    assert_case_2(&[], 0, 4, &whole);
    assert_case_2(&whole[..20], 2, 2, &whole);
    let [first, second, third, fourth] = JOURNAL_2;
    let exchanged = [second, first, third, fourth].concat();
    assert_case_2(&exchanged, 4, 0, &exchanged);
    assert_case_2(&fourth, 0, 4, &whole);
}

#[test]
fn case_2_with_a_limit() {
    for run in ENGINES {
        let (report, journal) = run_case_2(run, &JOURNAL_2.concat()[..20], 1);
        let expected = Report {
            kept: 2,
            added: 1,
            ..Report::refusal(0, 0, 27)
        };
        assert_eq!(report, expected);
        assert_eq!(journal[..27], JOURNAL_2.concat()[..27]);
        assert!(journal[27..].iter().all(|byte| *byte == 0xAA));
    }
}

#[test]
fn case_12_codes() {
    assert_answers("Q S a S a S a S a b", &[0]);
    assert_refused(b"Q b\nQ S a S a S a S a S a b\n", 4, 4);
    assert_answers("Q abcdefghijklmn-9", &[0]);
    assert_refused(b"Q abcdefghijklmn-90\n", 2, 0);
    assert_refused(b"H b", 2, 0);
    assert_refused(b"H b\nQ  b\n", 2, 4);
    assert_refused(&[b'x'; 32_769], 1, 0);
    assert_refused(&[b'x'; 32_768], 2, 0);
    assert_refused(&b"H b\n".repeat(8_192), 3, 4 * 1_024);
}

#[test]
fn deep_nesting_gets_an_exact_code() {
    let operators = 16_000;
    let mut file = b"H b\nH ".to_vec();
    file.extend(b"+ ".repeat(operators));
    assert_refused(&file, 2, 4);
    file.truncate(6);
    file.extend(b"> b ".repeat(8_000));
    file.extend(b"b\n");
    assert_refused(&file, 3, 4);
    file.truncate(6);
    file.extend(b"S a ".repeat(8_000));
    file.extend(b"b\n");
    assert_refused(&file, 3, 4);
}

#[test]
fn desk_prints() {
    assert_eq!(desk(&file(CASE_2)), "1 yes\n2 yes\n3 no\n");
    assert_eq!(desk(b""), "");
    assert_eq!(desk(b"H b\n"), "");
    assert_eq!(desk(b"H b\nQ  b\n"), "refused 2 4\n");
}
