//! Lists far longer than those of the other tests, up to the most that a file may
//! have, against the slow engine: it reads each file once and then runs from several
//! journals.

use against::cases::{from_empty, from_journal, sizes};
use against::compare::{Case, Checker};
use against::journals::{self, RECORD};
use against::machine::{is_tested, share};
use against::rng::Rng;
use against::{kinds, made_up};
use second::slow::Policy;

/// A file, and how many formulas it lists.
type Listing = (Vec<u8>, usize);

/// Runs on the file: from several journals to the end, and from an empty one half
/// the way.
fn runs(rng: &mut Rng, policy: &Policy, file: &[u8]) -> Vec<Case> {
    let uncut = journals::finished(file);
    let halfway = Case {
        limit: uncut.len() / RECORD / 2,
        ..from_empty(file)
    };
    let journals = journals::several(rng, policy, &uncut);
    let cases = journals.iter().map(|journal| from_journal(file, journal));
    cases.chain([halfway]).collect()
}

/// Checks all runs on these files; each must list as many formulas as is said.
fn check(seed: u64, files: &[Listing]) -> Checker {
    let mut checker = Checker::default();
    let mut rng = Rng::new(seed);
    let counted = files.iter().enumerate();
    let files: Vec<&Listing> = counted
        .filter(|(count, _)| is_tested(*count))
        .map(|(_, file)| file)
        .collect();
    for (file, listed) in &files {
        let policy = Policy::read(file).expect("accepted");
        assert_eq!(policy.listed(), *listed);
        let uncut = journals::finished(file);
        for case in runs(&mut rng, &policy, file) {
            let outcome = checker.check_read(&policy, &case);
            assert!(outcome.report.finished == (case.limit == usize::MAX));
            assert!(!outcome.report.finished || outcome.report.used == uncut.len());
        }
    }
    assert!(checker.kept_less >= files.len(), "{}", checker.kept_less);
    println!("{} calls", checker.calls);
    checker
}

/// Made-up files with a list of hundreds.
#[test]
fn made_up_lists() {
    let mut rng = Rng::new(51);
    let files = (0..30).map(|_| made_up::large(&mut rng));
    let listings = files.filter_map(|file| {
        let (listed, _) = sizes(&file)?;
        (listed > 400).then_some((file, listed))
    });
    let listings: Vec<Listing> = listings.collect();
    assert!(listings.len() > 20, "{}", listings.len());
    let checker = check(52, &listings);
    assert!(checker.answers.iter().all(|count| *count > share(20)));
}

#[test]
fn lists_of_five_hundred_to_a_thousand() {
    check(
        53,
        &[
            (kinds::night(1_024), 452),
            (kinds::nested(512), 511),
            (kinds::nested(1_024), 1_023),
            (kinds::clerks(1_024), 1_080),
            (kinds::full(256), 1_008),
        ],
    );
}

#[test]
fn lists_of_two_thousand() {
    check(
        54,
        &[
            (kinds::dense(512), 1_872),
            (kinds::one_name(512), 2_016),
            (kinds::parts(512), 2_032),
            (kinds::reverse(512), 2_080),
        ],
    );
}

#[test]
fn lists_of_four_thousand() {
    check(
        55,
        &[
            (kinds::dense(1_024), 3_920),
            (kinds::reverse(1_008), 4_064),
            (kinds::full(1_024), 4_080),
            (kinds::one_name(1_024), 4_096),
        ],
    );
}
