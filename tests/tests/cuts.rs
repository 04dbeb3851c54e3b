//! Demand 3: from an empty journal, however the runs are limited and wherever
//! the journal is cut between them, the finished journal is the uncut one byte
//! for byte.

use against::cases::from_empty;
use against::compare::{Case, Checker};
use against::journals;
use against::machine::share;
use against::made_up;
use against::rng::Rng;

/// Cuts the journal at any byte; now and then the bytes behind the cut are
/// lost as well.
fn cut(rng: &mut Rng, case: &mut Case) {
    case.used = rng.below(case.used + 1);
    if rng.once_in(3) {
        case.journal[case.used..].fill(0);
    }
}

/// Runs to the end with cuts on the way; the bytes of the finished journal.
fn run_with_cuts(rng: &mut Rng, checker: &mut Checker, file: &[u8]) -> Vec<u8> {
    let mut case = from_empty(file);
    let mut cuts = rng.below(8);
    loop {
        case.limit = if cuts > 0 {
            rng.below(12)
        } else {
            1 + rng.below(12)
        };
        let outcome = checker.check(&case);
        assert_eq!(outcome.report.code, 0);
        case.journal = outcome.journal;
        case.used = outcome.report.used;
        if cuts > 0 {
            cuts -= 1;
            cut(rng, &mut case);
        } else if outcome.report.finished {
            case.journal.truncate(case.used);
            return case.journal;
        }
    }
}

#[test]
fn cut_and_limited_runs_end_in_the_uncut_journal() {
    let mut checker = Checker::default();
    let mut rng = Rng::new(41);
    let mut files = 0;
    while files < share(150) {
        let file = made_up::any(&mut rng);
        let uncut = journals::finished(&file);
        if uncut.len() < 27 {
            continue;
        }
        files += 1;
        assert_eq!(run_with_cuts(&mut rng, &mut checker, &file), uncut);
    }
    assert!(checker.kept > share(300), "{}", checker.kept);
    println!("{} calls", checker.calls);
}
