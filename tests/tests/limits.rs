//! The limit n: every n from 0 to one more than all, at once and one by one.

use against::cases::{accepted, from_empty};
use against::compare::{Case, Checker};
use against::journals::RECORD;
use against::machine::share;
use against::rng::Rng;

/// So many accepted files of 2 to 24 records, each with their number.
fn short(seed: u64, count: usize) -> impl Iterator<Item = (Vec<u8>, usize)> {
    let files = accepted(seed).map(|made| (made.file, made.uncut.len() / RECORD));
    let short = files.filter(|(_, all)| (2..25).contains(all));
    short.take(share(count))
}

#[test]
fn every_limit_from_empty() {
    let mut checker = Checker::default();
    for (file, all) in short(21, 80) {
        let uncut = checker.check(&from_empty(&file)).journal;
        for limit in 0..=all + 1 {
            let case = Case {
                limit,
                ..from_empty(&file)
            };
            let outcome = checker.check(&case);
            assert_eq!(outcome.report.added, limit.min(all));
            assert_eq!(outcome.report.finished, limit >= all);
            let (added, rest) = outcome.journal.split_at(RECORD * limit.min(all));
            assert_eq!(added, &uncut[..added.len()]);
            assert_eq!(rest, &case.journal[added.len()..]);
        }
    }
    assert!(checker.answers[2] > share(500), "{:?}", checker.answers);
    println!("{} calls", checker.calls);
}

/// Runs with limit 1, as many as the limit of one run, leave what that one run
/// leaves, journal and answers.
#[test]
fn at_once_or_one_by_one() {
    let mut checker = Checker::default();
    let mut rng = Rng::new(22);
    for (file, all) in short(23, 60) {
        let total = rng.below(all + 2);
        let mut case = from_empty(&file);
        case.limit = total;
        let at_once = checker.check(&case);

        case.limit = 1;
        for _ in 0..total {
            let outcome = checker.check(&case);
            assert_eq!(outcome.report.kept, case.used / RECORD);
            case.journal = outcome.journal;
            case.used = outcome.report.used;
        }
        case.limit = 0;
        let one_by_one = checker.check(&case);
        assert_eq!(one_by_one.report.used, at_once.report.used);
        assert_eq!(one_by_one.report.finished, at_once.report.finished);
        assert_eq!(one_by_one.journal, at_once.journal);
        assert_eq!(one_by_one.answers, at_once.answers);
    }
    println!("{} calls", checker.calls);
}

/// A limit far over the list is no fault.
#[test]
fn the_greatest_limits() {
    let mut checker = Checker::default();
    for (file, all) in short(24, 30) {
        for limit in [
            4_097,
            65_536,
            usize::MAX / 9,
            usize::MAX / 9 + 1,
            usize::MAX,
        ] {
            let case = Case {
                limit,
                ..from_empty(&file)
            };
            assert_eq!(checker.check(&case).report.added, all);
        }
    }
    println!("{} calls", checker.calls);
}
