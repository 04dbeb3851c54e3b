//! M-100's chain on files and journals worked out by hand.

use second::chain::{chain, Chain};
use second::slow;

/// Fills the lent buffer beforehand.
const OLD: u8 = 0xAA;

const CASE_2: &str = "H > S bank paid paid/H S bank paid/Q paid/Q P bank paid/Q S bank lien";

/// Case 2's journal as 01 prints it.
const JOURNAL_2: &str = "
    4C51 01 0000 FFFF FFFF
    4C51 01 0001 FFFF FFFF
    4C51 03 0002 0001 FFFF
    4C51 07 0003 0001 0000";

/// The chain of case 2's first query: the journal without `P bank paid`.
const CHAIN_OF_PAID: &str = "
    4C51 01 0000 FFFF FFFF
    4C51 01 0001 FFFF FFFF
    4C51 07 0003 0001 0000";

/// "A slash stands for a line feed, and one ends each file."
fn file(spelling: &str) -> Vec<u8> {
    let mut file = spelling.replace('/', "\n").into_bytes();
    file.push(b'\n');
    file
}

/// The bytes of records printed as in 01.
fn bytes(printed: &str) -> Vec<u8> {
    let digits: Vec<u32> = printed.chars().filter_map(|c| c.to_digit(16)).collect();
    let pairs = digits.chunks(2);
    pairs.map(|pair| (16 * pair[0] + pair[1]) as u8).collect()
}

/// Asks with a lent buffer that just fits, and with one that has five bytes
/// more, for the chain expected.
fn assert_chain(spelling: &str, journal: &[u8], query: usize, expected: &str) {
    let expected = bytes(expected);
    for more in [0, 5] {
        let mut out = vec![OLD; expected.len() + more];
        let given = chain(&file(spelling), journal, journal.len(), query, &mut out);
        let success = Chain {
            code: 0,
            place: 0,
            records: expected.len() / 9,
        };
        assert_eq!(given, success, "{spelling}, query {query}");
        let (front, later) = out.split_at(expected.len());
        assert_eq!(front, expected, "{spelling}, query {query}");
        assert_eq!(later, vec![OLD; more]);
    }
}

/// Asks with a lent buffer of `room` bytes for a refusal that leaves it alone.
fn assert_refused(
    file: &[u8],
    (journal, used): (&[u8], usize),
    query: usize,
    room: usize,
    (code, place): (usize, usize),
) {
    let mut out = vec![OLD; room];
    let refusal = Chain {
        code,
        place,
        records: 0,
    };
    assert_eq!(chain(file, journal, used, query, &mut out), refusal);
    assert_eq!(out, vec![OLD; room]);
}

/// Asks case 2 for a refusal at place 0, the lent buffer long enough.
fn assert_case_2_refused(journal: &[u8], used: usize, query: usize, code: usize) {
    assert_refused(&file(CASE_2), (journal, used), query, 100, (code, 0));
}

/// The journal of a run to the end from empty.
fn finished_journal(file: &[u8]) -> Vec<u8> {
    let mut journal = vec![0; 9 * 100];
    let report = slow::run(file, &mut journal, 0, usize::MAX, &mut [0; 8]);
    assert!(report.finished);
    journal.truncate(report.used);
    journal
}

#[test]
fn case_2() {
    let journal = bytes(JOURNAL_2);
    assert_chain(CASE_2, &journal, 1, CHAIN_OF_PAID);
    let chain_of_put = "
        4C51 01 0001 FFFF FFFF
        4C51 03 0002 0001 FFFF";
    assert_chain(CASE_2, &journal, 2, chain_of_put);
    assert_case_2_refused(&journal, 36, 3, 32);
}

#[test]
fn case_2_with_its_first_two_records_exchanged() {
    let journal = "
        4C51 01 0001 FFFF FFFF
        4C51 01 0000 FFFF FFFF
        4C51 03 0002 0001 FFFF
        4C51 07 0003 0001 0000";
    let expected = "
        4C51 01 0001 FFFF FFFF
        4C51 01 0000 FFFF FFFF
        4C51 07 0003 0001 0000";
    assert_chain(CASE_2, &bytes(journal), 1, expected);
}

/// Numbers: 0 `+ b c`, 1 `b`, 2 `c`, 3 `> b d`, 4 `d`, 5 `e`, 6 `> e e`.
#[test]
fn what_the_query_does_not_rest_on_is_left_out() {
    let spelling = "H + b c/H > b d/H e/Q d/Q e/Q > e e";
    let journal = bytes(
        "4C51 01 0000 FFFF FFFF
         4C51 04 0001 0000 FFFF
         4C51 05 0002 0000 FFFF
         4C51 01 0003 FFFF FFFF
         4C51 07 0004 0001 0003
         4C51 01 0005 FFFF FFFF
         4C51 08 0006 0005 FFFF",
    );
    assert_eq!(finished_journal(&file(spelling)), journal);
    let chain_of_d = "
        4C51 01 0000 FFFF FFFF
        4C51 04 0001 0000 FFFF
        4C51 01 0003 FFFF FFFF
        4C51 07 0004 0001 0003";
    assert_chain(spelling, &journal, 1, chain_of_d);
    assert_chain(spelling, &journal, 2, "4C51 01 0005 FFFF FFFF");
    let chain_of_implication = "
        4C51 01 0005 FFFF FFFF
        4C51 08 0006 0005 FFFF";
    assert_chain(spelling, &journal, 3, chain_of_implication);
}

/// Numbers: 0 `S a > b c`, 1 `P a > b c`, 2 `S a b`, 3 `P a b`, 4 `S a c`,
/// 5 `P a c`.
#[test]
fn case_9_rests_on_premises_of_premises() {
    let spelling = "H S a > b c/H P a b/Q P a c/Q S a c";
    let journal = "
        4C51 01 0000 FFFF FFFF
        4C51 03 0001 0000 FFFF
        4C51 01 0003 FFFF FFFF
        4C51 07 0005 0003 0001";
    assert_eq!(finished_journal(&file(spelling)), bytes(journal));
    assert_chain(spelling, &bytes(journal), 1, journal);
}

#[test]
fn a_query_that_is_given_rests_on_itself_alone() {
    let hypothesis = "4C51 01 0000 FFFF FFFF";
    assert_chain("Q b/H b", &bytes(hypothesis), 1, hypothesis);
    assert_chain("H b/Q b/Q b", &bytes(hypothesis), 2, hypothesis);
    let truth = "4C51 02 0000 FFFF FFFF";
    assert_chain("Q S a T", &bytes(truth), 1, truth);
}

/// Numbers: 0 `b`, 1 `+ > c b > d b`, 2 `> c b`, 3 `c`, 4 `> d b`, 5 `d`.
#[test]
fn a_premise_used_twice_is_listed_once() {
    let journal = "
        4C51 01 0000 FFFF FFFF
        4C51 08 0002 0000 FFFF
        4C51 08 0004 0000 FFFF
        4C51 06 0001 0002 0004";
    assert_chain("H b/Q + > c b > d b", &bytes(journal), 1, journal);
    let both_premises_one_formula = "
        4C51 01 0000 FFFF FFFF
        4C51 06 0001 0000 0000";
    let journal = bytes(both_premises_one_formula);
    assert_chain("H b/Q + b b", &journal, 1, both_premises_one_formula);
}

/// Numbers: 0 `b`, 1 `> b c`, 2 `c`, 3 `+ c d`, 4 `d`. The journal may hold
/// another way to `c` than the next record would be.
#[test]
fn the_reasons_are_those_of_the_journal() {
    let spelling = "H b/H > b c/H + c d/Q c";
    let by_implication = "
        4C51 01 0000 FFFF FFFF
        4C51 01 0001 FFFF FFFF
        4C51 07 0002 0000 0001";
    let journal = finished_journal(&file(spelling));
    assert_chain(spelling, &journal, 1, by_implication);
    let journal = "
        4C51 01 0000 FFFF FFFF
        4C51 01 0003 FFFF FFFF
        4C51 01 0001 FFFF FFFF
        4C51 04 0002 0003 FFFF";
    let by_conjunction = "
        4C51 01 0003 FFFF FFFF
        4C51 04 0002 0003 FFFF";
    assert_chain(spelling, &bytes(journal), 1, by_conjunction);
}

#[test]
fn codes_1_to_5_come_first() {
    let mut long_list = b"Q b\nQ S a S b S c S d".to_vec();
    for leaf in 0..128 {
        long_list.extend(format!(" + x{leaf}").bytes());
    }
    long_list.extend(b" y\n");
    let refused: [(&[u8], usize, usize); 6] = [
        (&[b'x'; 32_769], 1, 0),
        (b"H b\nQ  b\n", 2, 4),
        (b"Q b", 2, 0),
        (&b"Q b\n".repeat(1_025), 3, 4 * 1_024),
        (b"Q b\nQ S a S a S a S a S a b\n", 4, 4),
        (&long_list, 5, 4),
    ];
    for (file, code, place) in refused {
        for (used, query) in [(1, 0), (usize::MAX, usize::MAX), (0, 0), (0, 1)] {
            assert_refused(file, (&[], used), query, 0, (code, place));
        }
    }
}

#[test]
fn code_7_comes_before_31_to_33() {
    let journal = bytes(JOURNAL_2);
    for used in [37, 100, usize::MAX] {
        for query in [0, 1, 3, 4, usize::MAX] {
            assert_case_2_refused(&journal, used, query, 7);
        }
        assert_refused(&file(CASE_2), (&journal, used), 1, 0, (7, 0));
    }
    assert_case_2_refused(&[], 1, 1, 7);
    assert_chain(CASE_2, &journal, 1, CHAIN_OF_PAID);
}

#[test]
fn code_31_is_for_a_count_outside_the_file() {
    let journal = bytes(JOURNAL_2);
    for query in [0, 4, 5, usize::MAX] {
        assert_case_2_refused(&journal, 36, query, 31);
        assert_case_2_refused(&[], 0, query, 31);
        assert_refused(&file(CASE_2), (&journal, 36), query, 0, (31, 0));
    }
    for query in [1, 3] {
        assert_case_2_refused(&[], 0, query, 32);
    }
    for query in [0, 1, usize::MAX] {
        assert_refused(b"", (&[], 0), query, 9, (31, 0));
        assert_refused(b"H b\n", (&[], 0), query, 9, (31, 0));
    }
}

#[test]
fn code_32_is_for_a_query_that_is_not_recorded() {
    let journal = bytes(JOURNAL_2);
    for used in [0, 8, 9, 26, 27, 35] {
        assert_case_2_refused(&journal, used, 1, 32);
        assert_case_2_refused(&journal[..used], used, 1, 32);
    }
    assert_refused(&file(CASE_2), (&journal, 35), 1, 0, (32, 0));
    assert_refused(&file(CASE_2), (&journal, 36), 1, 0, (33, 0));
    assert_case_2_refused(&journal, 26, 2, 32);
    let mut out = [OLD; 18];
    let given = chain(&file(CASE_2), &journal, 27, 2, &mut out);
    assert_eq!((given.code, given.records), (0, 2));
    assert_eq!(out, journal[9..27]);
}

#[test]
fn code_33_is_for_a_buffer_too_short() {
    let journal = bytes(JOURNAL_2);
    for room in [0, 1, 9, 18, 26] {
        assert_refused(&file(CASE_2), (&journal, 36), 1, room, (33, 0));
    }
    for room in [27, 28, 36, 100] {
        let mut out = vec![OLD; room];
        let given = chain(&file(CASE_2), &journal, 36, 1, &mut out);
        assert_eq!((given.code, given.place, given.records), (0, 0, 3));
        assert_eq!(out[..27], bytes(CHAIN_OF_PAID));
        assert!(out[27..].iter().all(|byte| *byte == OLD));
    }
}

#[test]
fn records_behind_damage_do_not_count() {
    let whole = bytes(JOURNAL_2);
    for (place, byte) in [(0, 0x4D), (1, 0x50), (2, 0), (2, 9), (3, 1), (6, 0), (8, 0)] {
        let mut journal = whole.clone();
        journal[18 + place] = byte;
        assert_case_2_refused(&journal, 36, 1, 32);
        assert_case_2_refused(&journal, 36, 2, 32);
    }
    let mut journal = whole.clone();
    journal[27] = 0;
    assert_case_2_refused(&journal, 36, 1, 32);
    let chain_of_put = "
        4C51 01 0001 FFFF FFFF
        4C51 03 0002 0001 FFFF";
    assert_chain(CASE_2, &journal, 2, chain_of_put);
    for tail in [&b"LQ"[..], &whole[27..], &[0; 9], &[0xFF; 40]] {
        assert_chain(CASE_2, &[&whole, tail].concat(), 1, CHAIN_OF_PAID);
    }
}

/// `P bank paid` recorded twice, from the second time on all is cut off.
#[test]
fn a_repeated_record_ends_the_kept_part() {
    let whole = bytes(JOURNAL_2);
    let journal = [&whole[..27], &whole[18..]].concat();
    assert_case_2_refused(&journal, 45, 1, 32);
}

/// "Every premise of a listed record is listed before it, and every record but
/// the last is a premise of a later listed one."
fn assert_well_ordered(chain: &[u8], query: usize) {
    let records = chain.chunks_exact(9).map(slow::Record::from_bytes);
    let records: Vec<slow::Record> = records.map(|record| record.expect("marked")).collect();
    let premises = |record: &slow::Record| [record.first, record.second].into_iter().flatten();
    for (at, record) in records.iter().enumerate() {
        let (before, after) = (&records[..at], &records[at + 1..]);
        assert!(premises(record).all(|number| before.iter().any(|b| b.formula == number)));
        let is_premise = after
            .iter()
            .any(|a| premises(a).any(|p| p == record.formula));
        assert!(is_premise || after.is_empty());
    }
    assert_eq!(records.last().map(|record| record.formula), Some(query));
}

#[test]
fn every_chain_is_a_journal_of_reasons_only() {
    for spelling in [
        CASE_2,
        "H + S a b S a c/H S a > + b c d/Q S a + b c/Q P a d/Q > e P a d",
        "H S a S b + c > c d/H > P a P b d + e e/Q e/Q P a S b d/Q + e + e T",
        "H b/H > b c/H > c d/H > d b/H S a T/Q d/Q + b d/Q S a > b T/Q P a T",
    ] {
        let file = file(spelling);
        let policy = slow::Policy::read(&file).expect("accepted");
        let journal = finished_journal(&file);
        for count in 1..=policy.queries() {
            let query = policy.query(count).expect("inside the file");
            let mut out = vec![OLD; journal.len()];
            let given = chain(&file, &journal, journal.len(), count, &mut out);
            if given.code == 0 {
                out.truncate(9 * given.records);
                assert_well_ordered(&out, query);
                assert_eq!(policy.kept_part(&out).len(), given.records);
                assert_chain_is_its_own(&file, &out, count);
            } else {
                assert_eq!((given.code, spelling, count), (32, CASE_2, 3));
            }
        }
    }
}

/// A chain taken as the journal gives the same chain.
fn assert_chain_is_its_own(file: &[u8], journal: &[u8], query: usize) {
    let mut out = vec![OLD; journal.len()];
    let given = chain(file, journal, journal.len(), query, &mut out);
    assert_eq!((given.code, given.records), (0, journal.len() / 9));
    assert_eq!(out, journal);
}
