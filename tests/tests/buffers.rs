//! Codes 6, 7 and 8 at the length where they stop and one below, alone and
//! together, what a refusal leaves alone, and buffers longer than any list.

use against::cases::{accepted, from_empty, used_far, Accepted};
use against::compare::{Case, Checker};
use against::journals::{self, RECORD};
use against::machine::{is_tested, share};
use against::night::NIGHT;
use against::rng::Rng;
use against::{kinds, made_up};
use second::slow::Policy;
use second::{fast, Report};

const FILLER: u8 = 0x3C;

/// So many accepted files that ask something, each with the bytes of a journal
/// that has room for its list, and the number of its queries.
fn asking(seed: u64, count: usize) -> impl Iterator<Item = (Vec<u8>, usize, usize)> {
    let sized = accepted(seed).map(|Accepted { file, policy, .. }| {
        let room = RECORD * policy.listed();
        (file, room, policy.queries())
    });
    let asking = sized.filter(|(.., queries)| *queries > 0);
    asking.take(share(count))
}

/// A case with buffers of these lengths.
fn case(file: &[u8], journal: usize, used: usize, answers: usize) -> Case {
    Case {
        file: file.to_vec(),
        journal: vec![FILLER; journal],
        used,
        limit: 3,
        answers: vec![FILLER; answers],
    }
}

/// Checks that the case is refused with this code and nothing else happens.
fn assert_refused(checker: &mut Checker, case: &Case, code: usize, place: usize) {
    let outcome = checker.check(case);
    assert_eq!(outcome.report, Report::refusal(code, place, case.used));
    assert_eq!(outcome.journal, case.journal);
    assert_eq!(outcome.answers, case.answers);
}

#[test]
fn at_and_one_below() {
    let mut checker = Checker::default();
    for (file, room, queries) in asking(31, 120) {
        let accepted = checker.check(&case(&file, room, room, queries));
        assert_eq!(accepted.report.code, 0);
        assert_refused(&mut checker, &case(&file, room - 1, 0, queries), 6, 0);
        assert_refused(&mut checker, &case(&file, room, room + 1, queries), 7, 0);
        assert_refused(&mut checker, &case(&file, room, usize::MAX, queries), 7, 0);
        assert_refused(&mut checker, &case(&file, room, room, queries - 1), 8, 0);
        assert_refused(&mut checker, &case(&file, 0, 0, 0), 6, 0);
    }
    println!("{} calls", checker.calls);
}

#[test]
fn the_first_that_applies() {
    let mut checker = Checker::default();
    for (file, room, queries) in asking(32, 80) {
        assert_refused(
            &mut checker,
            &case(&file, room - 1, room, queries - 1),
            6,
            0,
        );
        assert_refused(&mut checker, &case(&file, room - 1, room, queries), 6, 0);
        assert_refused(&mut checker, &case(&file, room - 1, 0, queries - 1), 6, 0);
        assert_refused(
            &mut checker,
            &case(&file, room, room + 9, queries - 1),
            7,
            0,
        );
        let place = file.len();
        let damaged = [&file[..], b"Q  b\n"].concat();
        assert_refused(&mut checker, &case(&damaged, room - 1, room, 0), 2, place);
    }
    println!("{} calls", checker.calls);
}

#[test]
fn longer_buffers_than_needed() {
    let mut checker = Checker::default();
    let mut rng = Rng::new(33);
    for (file, room, queries) in asking(34, 100) {
        let (journal, answers) = (room + rng.below(50), queries + rng.below(5));
        let outcome = checker.check(&case(&file, journal, rng.below(journal + 1), answers));
        assert_eq!(outcome.report.code, 0);
        assert!(outcome.answers[queries..]
            .iter()
            .all(|byte| *byte == FILLER));
    }
    println!("{} calls", checker.calls);
}

/// Checks a file's runs in buffers that are used far beyond its list, against both
/// engines, from this much of its uncut journal: it is kept, the rest is added, and
/// every byte behind that stays.
fn check_used_far(checker: &mut Checker, policy: &Policy, file: &[u8], records: usize) {
    let uncut = journals::finished(file);
    let mut rng = Rng::new(35);
    let cases = used_far(&mut rng, file, &uncut[..RECORD * records]);
    let tested = cases
        .iter()
        .enumerate()
        .filter(|(count, _)| is_tested(*count));
    for (_, case) in tested {
        checker.check_against(fast::run, case);
        let outcome = checker.check_read(policy, case);
        assert_eq!(outcome.report.kept, records);
        assert_eq!(outcome.report.used, uncut.len());
        let (left, behind) = outcome.journal.split_at(uncut.len());
        assert!(left == uncut && *behind == case.journal[uncut.len()..]);
    }
}

#[test]
fn used_far_beyond_the_list() {
    let mut checker = Checker::default();
    let made = accepted(36).filter(|made| made.uncut.len() > 4 * RECORD);
    let made: Vec<Vec<u8>> = made.map(|made| made.file).take(4).collect();
    for file in made.iter().map(Vec::as_slice).chain([NIGHT]) {
        let policy = Policy::read(file).expect("accepted");
        let all = journals::finished(file).len() / RECORD;
        for records in [1, all / 2, all] {
            check_used_far(&mut checker, &policy, file, records);
        }
    }
    println!("{} calls", checker.calls);
}

/// The longest list there is: 4,096 records fill 36,864 bytes, and nothing of what
/// is used behind this many of them is kept.
fn check_used_far_beyond_the_longest(records: usize) {
    let mut checker = Checker::default();
    let file = kinds::one_name(1_024);
    let policy = Policy::read(&file).expect("accepted");
    check_used_far(&mut checker, &policy, &file, records);
    println!("{} calls", checker.calls);
}

#[test]
fn used_far_beyond_the_longest_list() {
    check_used_far_beyond_the_longest(4_096);
}

#[test]
fn used_far_beyond_the_longest_list_but_its_last() {
    check_used_far_beyond_the_longest(4_095);
}

/// A file's own codes leave the buffers alone and the used length as it was,
/// also one over the buffer.
#[test]
fn refused_files() {
    let mut checker = Checker::default();
    let edges = [
        made_up::edges_of_length(),
        made_up::edges_of_form(),
        made_up::edges_of_nodes(),
        made_up::edges_of_depth(),
    ];
    for edge in edges.iter().flatten().filter(|edge| edge.code != 0) {
        for used in [0, 7, 20, 21] {
            let case = case(&edge.file, 20, used, 2);
            assert_refused(&mut checker, &case, edge.code, edge.place);
        }
    }
    println!("{} calls", checker.calls);
}

/// With nothing listed and nothing asked, empty buffers do.
#[test]
fn no_buffers_at_all() {
    let mut checker = Checker::default();
    let empty = case(b"", 0, 0, 0);
    assert!(checker.check(&empty).report.finished);
    assert_refused(&mut checker, &case(b"", 0, 1, 0), 7, 0);
    let no_query = Case {
        answers: Vec::new(),
        ..from_empty(b"H b\n")
    };
    assert_eq!(checker.check(&no_query).report.added, 1);
}
