//! Made-up journals: what is kept, and what is added behind it.

use against::cases::{accepted, from_journal, with_any_journal, Accepted};
use against::compare::Checker;
use against::journals::{self, RECORD};
use against::machine::{is_tested, share};
use against::made_up;
use against::rng::Rng;
use second::slow::{Policy, Record};

const CASE_2: &[u8] =
    b"H > S bank paid paid\nH S bank paid\nQ paid\nQ P bank paid\nQ S bank lien\n";

/// Files whose journals are worth going through byte by byte.
const FILES: [&[u8]; 4] = [
    CASE_2,
    b"H + S a b S a c\nQ S a + b c\nQ > d S a b\n",
    b"H S a > b c\nH P a b\nQ P a c\nQ S a c\nQ P a T\n",
    b"H > + b c d\nH b\nH c\nQ d\nQ + d b\n",
];

/// So many accepted files with more than one record to their journals.
fn recording(seed: u64, count: usize) -> impl Iterator<Item = Accepted> {
    let files = accepted(seed).filter(|made| made.uncut.len() > RECORD);
    files.take(share(count))
}

#[test]
fn cut_at_every_byte() {
    let mut checker = Checker::default();
    for file in FILES {
        let uncut = journals::finished(file);
        assert!(uncut.len() >= 4 * RECORD);
        for length in 0..=uncut.len() {
            let outcome = checker.check(&from_journal(file, &uncut[..length]));
            assert_eq!(outcome.report.kept, length / RECORD);
            assert_eq!(outcome.journal[..outcome.report.used], uncut);
        }
    }
    println!("{} calls", checker.calls);
}

#[test]
fn damaged_at_every_byte() {
    let mut checker = Checker::default();
    for file in FILES {
        let uncut = journals::finished(file);
        for at in 0..uncut.len() {
            for change in [1, 0x80] {
                let mut journal = uncut.clone();
                journal[at] ^= change;
                let outcome = checker.check(&from_journal(file, &journal));
                assert!(outcome.report.kept >= at / RECORD);
            }
        }
    }
    assert!(checker.kept_less > 100);
    println!("{} calls", checker.calls);
}

#[test]
fn every_two_records_exchanged() {
    let mut checker = Checker::default();
    for file in FILES {
        let uncut = journals::finished(file);
        for start in (0..uncut.len()).step_by(RECORD) {
            for other in (0..start).step_by(RECORD) {
                let mut journal = uncut.clone();
                journals::exchange(&mut journal, start, other);
                checker.check(&from_journal(file, &journal));
            }
        }
    }
    assert!(checker.kept_less > 0);
    println!("{} calls", checker.calls);
}

/// In place of each record, every one for the same formula: any rule, any
/// premises on the list, one past it, or none.
#[test]
fn every_other_record_for_the_formula() {
    let mut checker = Checker::default();
    let mut row = 0..;
    for file in [CASE_2, b"H + b c\nQ + c b\nQ > b c\n"] {
        let uncut = journals::finished(file);
        let listed = Policy::read(file).expect("accepted").listed();
        let premises = || (0..=listed).map(Some).chain([None]);
        for start in (0..uncut.len()).step_by(RECORD) {
            let own = Record::from_bytes(&uncut[start..]).expect("a record");
            for rule in 0..=9 {
                for (first, second) in premises().flat_map(|p| premises().map(move |q| (p, q))) {
                    if !row.next().is_some_and(is_tested) {
                        continue;
                    }
                    let forged = Record {
                        rule,
                        first,
                        second,
                        ..own
                    };
                    let journal = [&uncut[..start], &forged.to_bytes()].concat();
                    checker.check(&from_journal(file, &journal));
                }
            }
        }
    }
    println!("{} calls", checker.calls);
}

#[test]
fn any_good_record_instead_of_the_next() {
    let mut checker = Checker::default();
    let mut rng = Rng::new(11);
    let mut in_another_order = 0;
    for made in recording(12, 800) {
        let journal = journals::wandering(&mut rng, &made.policy);
        let outcome = checker.check(&from_journal(&made.file, &journal));
        assert_eq!(outcome.report.kept, journal.len() / RECORD);
        assert_eq!(outcome.journal[..journal.len()], journal);
        assert_eq!(outcome.report.used, made.uncut.len());
        in_another_order += usize::from(!made.uncut.starts_with(&journal));
    }
    assert!(in_another_order > share(500), "{in_another_order}");
    println!("{} calls", checker.calls);
}

#[test]
fn spoiled() {
    let mut checker = Checker::default();
    let mut rng = Rng::new(13);
    for made in recording(14, 1_200) {
        let mut journal = made.uncut;
        if rng.once_in(3) {
            journal = journals::wandering(&mut rng, &made.policy);
        }
        for _ in 0..1 + rng.below(2) {
            journals::spoil(&mut rng, &mut journal, made.policy.listed());
        }
        let mut case = from_journal(&made.file, &journal);
        if rng.once_in(2) {
            case.limit = rng.below(8);
        }
        checker.check(&case);
    }
    assert!(checker.kept_less > share(400), "{}", checker.kept_less);
    println!("{} calls", checker.calls);
}

#[test]
fn random_bytes() {
    let mut checker = Checker::default();
    let mut rng = Rng::new(15);
    for Accepted { file, .. } in recording(16, 200) {
        let length = rng.below(60);
        let outcome = checker.check(&from_journal(&file, &rng.bytes(length)));
        assert_eq!(outcome.report.kept, 0);
    }
    println!("{} calls", checker.calls);
}

/// Bytes behind the used length are not looked at, even where they would be
/// good records, and stay where nothing is added over them.
#[test]
fn padded() {
    let mut checker = Checker::default();
    let mut rng = Rng::new(17);
    for Accepted { file, uncut, .. } in recording(18, 400) {
        let mut journal = uncut.clone();
        let padding = rng.below(30);
        journal.extend(rng.bytes(padding));
        let mut case = from_journal(&file, &journal);
        case.used = rng.below(uncut.len() + 1);
        case.limit = rng.below(3);
        let outcome = checker.check(&case);
        assert_eq!(outcome.report.kept, case.used / RECORD);
        assert_eq!(outcome.journal, case.journal);
    }
    println!("{} calls", checker.calls);
}

#[test]
fn anything() {
    let mut checker = Checker::default();
    let mut rng = Rng::new(19);
    for _ in 0..share(800) {
        let file = made_up::any(&mut rng);
        checker.check(&with_any_journal(&mut rng, &file));
    }
    assert!(checker.kept > share(200));
    println!("{} calls", checker.calls);
}
