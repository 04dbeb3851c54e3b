//! Made-up files, from an empty journal.

use against::cases::from_empty;
use against::compare::Checker;
use against::machine::share;
use against::made_up::{self, Edge, Maker};
use against::rng::Rng;
use against::{cases, engine};

/// Checks so many files, half of them with some limit.
fn check_many(seed: u64, count: usize, maker: Maker) -> Checker {
    let mut checker = Checker::default();
    let mut rng = Rng::new(seed);
    for _ in 0..share(count) {
        let mut case = from_empty(&maker(&mut rng));
        if rng.once_in(2) {
            case.limit = rng.below(20);
        }
        checker.check(&case);
    }
    println!("{} calls", checker.calls);
    checker
}

/// Checks that each of no, yes and open was answered at least so often.
fn assert_answered(checker: &Checker, least: usize) {
    assert!(
        checker.answers.iter().all(|count| *count >= share(least)),
        "{:?}",
        checker.answers
    );
}

#[test]
fn small() {
    assert_answered(&check_many(1, 1_500, made_up::small), 100);
}

#[test]
fn lenders() {
    assert_answered(&check_many(2, 300, made_up::lenders), 100);
}

#[test]
fn tangled() {
    assert_answered(&check_many(3, 900, made_up::tangled), 100);
}

#[test]
fn late() {
    assert_answered(&check_many(8, 600, made_up::late), 100);
}

#[test]
fn deep() {
    let checker = check_many(4, 400, made_up::deep);
    assert_answered(&checker, 50);
    assert!(checker.codes[4] > share(5), "{:?}", checker.codes);
}

#[test]
fn large() {
    let mut checker = Checker::default();
    let mut rng = Rng::new(5);
    for _ in 0..share(engine::LARGE_FILES) {
        checker.check(&from_empty(&made_up::large(&mut rng)));
    }
    println!("{} calls", checker.calls);
    assert!(checker.added > 200 * checker.calls, "{}", checker.added);
}

#[test]
fn damaged() {
    let checker = check_many(6, 2_000, |rng| {
        let file = made_up::any(rng);
        made_up::damaged(rng, file)
    });
    assert!(checker.codes[0] > share(40), "{:?}", checker.codes);
    assert!(checker.codes[2] > share(1_000), "{:?}", checker.codes);
}

#[test]
fn anything() {
    let mut checker = Checker::default();
    for count in 0..share(1_500) as u64 {
        checker.check(&cases::any(&mut Rng::for_case(7, count)));
    }
    println!("{} calls", checker.calls);
    for code in [2, 4, 6, 7, 8] {
        assert!(
            checker.codes[code] > share(5),
            "code {code}: {:?}",
            checker.codes
        );
    }
}

/// Checks each file's code and place against those given with it.
fn check_edges(edges: Vec<Edge>) {
    let mut checker = Checker::default();
    for Edge {
        what,
        file,
        code,
        place,
    } in edges
    {
        let report = checker.check(&from_empty(&file)).report;
        let start = file[..file.len().min(40)].escape_ascii();
        assert_eq!(
            (report.code, report.place),
            (code, place),
            "{what}: {start}"
        );
    }
    println!("{} calls", checker.calls);
}

#[test]
fn at_the_limit_of_length() {
    check_edges(made_up::edges_of_length());
}

#[test]
fn at_the_edges_of_form() {
    check_edges(made_up::edges_of_form());
}

#[test]
fn at_the_limit_of_nodes() {
    check_edges(made_up::edges_of_nodes());
}

#[test]
fn at_the_limit_of_depth() {
    check_edges(made_up::edges_of_depth());
}

#[test]
fn at_the_limit_of_the_list() {
    check_edges(made_up::edges_of_list());
}
