//! The chain of a query (02, M-100): the proved library against the second program,
//! and what 02 says of a chain on the library's own bytes.
#![cfg(feature = "proved")]

use against::cases::{accepted, sizes, used_far, Accepted};
use against::chains::{Asked, Checker};
use against::desk::{self, bytes, file, Record, NONE};
use against::journals::{self, finished, RECORD};
use against::machine::{is_tested, share};
use against::rng::Rng;
use against::{kinds, made_up};
use second::chain::Chain;
use std::collections::BTreeSet;
use std::iter;

/// The longest list for which the second program is quick enough in every call.
const LONGEST_LIST: usize = 40;

/// The least number that needs more than 32 bits; its low 32 are zero.
const BEYOND_32_BITS: usize = 1 << 32;

/// So many accepted files that ask something and record more than one formula.
fn asking(seed: u64, count: usize) -> impl Iterator<Item = Accepted> {
    let asking = accepted(seed).filter(|made| {
        let is_short = made.policy.listed() <= LONGEST_LIST;
        is_short && made.policy.queries() > 0 && made.uncut.len() > RECORD
    });
    asking.take(share(count))
}

/// Checks that the call is refused with this code and place and leaves the lent
/// buffer alone.
fn assert_refused(checker: &mut Checker, asked: &Asked, code: usize, place: usize) {
    let given = checker.check(asked);
    let records = 0;
    assert_eq!(
        given.chain,
        Chain {
            code,
            place,
            records
        }
    );
    assert_eq!(given.out, asked.out);
}

// ---------------------------------------------------------------------------
// Desk cases
// ---------------------------------------------------------------------------

/// A file (a slash for each line feed, one more at the end) and the chain of each of
/// its queries from the finished journal; no records where the query has none.
struct DeskCase(&'static str, &'static [&'static [Record]]);

/// The desk cases of 01 in its order.
const DESK_CASES: [DeskCase; 12] = [
    DeskCase(
        "H > S bank paid paid/H S bank paid/Q paid/Q P bank paid/Q S bank lien",
        &[
            &[(1, 0, NONE, NONE), (1, 1, NONE, NONE), (7, 3, 1, 0)],
            &[(1, 1, NONE, NONE), (3, 2, 1, NONE)],
            &[],
        ],
    ),
    DeskCase("Q S a T", &[&[(2, 0, NONE, NONE)]]),
    DeskCase("H P a b/Q S a b", &[&[]]),
    DeskCase("H S a b/Q P a b", &[&[(1, 0, NONE, NONE), (3, 1, 0, NONE)]]),
    DeskCase("H b/Q > c b", &[&[(1, 0, NONE, NONE), (8, 1, 0, NONE)]]),
    DeskCase("Q > b b", &[&[]]),
    DeskCase("H > b c/H > c d/Q > b d", &[&[]]),
    DeskCase(
        "H + S a b S a c/Q S a + b c",
        &[&[
            (1, 0, NONE, NONE),
            (4, 1, 0, NONE),
            (5, 3, 0, NONE),
            (6, 5, 1, 3),
        ]],
    ),
    DeskCase(
        "H S a > b c/H P a b/Q P a c/Q S a c",
        &[
            &[
                (1, 0, NONE, NONE),
                (3, 1, 0, NONE),
                (1, 3, NONE, NONE),
                (7, 5, 3, 1),
            ],
            &[],
        ],
    ),
    DeskCase("H P a S c b/Q S a P c b", &[&[]]),
    DeskCase("H S a + b c/Q b", &[&[]]),
    DeskCase("Q b/H b", &[&[(1, 0, NONE, NONE)]]),
];

const FURTHER_CASES: [DeskCase; 8] = [
    // Both premises one formula; a pref T as a premise.
    DeskCase("H b/Q + b b", &[&[(1, 0, NONE, NONE), (6, 1, 0, 0)]]),
    DeskCase(
        "H b/Q + T b",
        &[&[(1, 0, NONE, NONE), (2, 2, NONE, NONE), (6, 1, 2, 0)]],
    ),
    // A pref T rests on nothing, though a hypothesis is stronger.
    DeskCase("H S a T/Q P a T", &[&[(2, 1, NONE, NONE)]]),
    // One formula asked twice, and as a hypothesis.
    DeskCase(
        "H b/H c/Q c/Q b/Q c",
        &[
            &[(1, 1, NONE, NONE)],
            &[(1, 0, NONE, NONE)],
            &[(1, 1, NONE, NONE)],
        ],
    ),
    // One record as a premise of several: it is listed once.
    DeskCase(
        "H + b c/H > b d/Q + d + b c",
        &[&[
            (1, 0, NONE, NONE),
            (4, 1, 0, NONE),
            (1, 3, NONE, NONE),
            (7, 4, 1, 3),
            (6, 5, 4, 0),
        ]],
    ),
    // The journal's order is not that of the numbers.
    DeskCase(
        "Q + b c/H > + b d + b c/H + b d",
        &[&[(1, 3, NONE, NONE), (1, 4, NONE, NONE), (7, 0, 4, 3)]],
    ),
    DeskCase(
        "Q S a c/H S a > b c/H > S a b S a c/H > t S a b/H t",
        &[&[
            (1, 2, NONE, NONE),
            (1, 7, NONE, NONE),
            (1, 8, NONE, NONE),
            (7, 4, 8, 7),
            (7, 0, 4, 2),
        ]],
    ),
    // Left, right, weaker, both, implied and attached in one chain, which leaves out
    // the third record of the journal.
    DeskCase(
        "H S a + b c/H P a > + c b d/Q P a > e d",
        &[&[
            (1, 0, NONE, NONE),
            (4, 2, 0, NONE),
            (3, 3, 2, NONE),
            (5, 4, 0, NONE),
            (3, 5, 4, NONE),
            (1, 6, NONE, NONE),
            (6, 7, 5, 3),
            (7, 8, 7, 6),
            (8, 9, 8, NONE),
        ]],
    ),
];

/// Checks each query's chain, and that there is no query behind the last.
fn assert_chains(checker: &mut Checker, DeskCase(spelling, chains): &DeskCase) {
    let file = file(spelling);
    let journal = finished(&file);
    for (place, chain) in chains.iter().enumerate() {
        let asked = Asked::about(&file, &journal, place + 1);
        if chain.is_empty() {
            assert_refused(checker, &asked, 32, 0);
            continue;
        }
        let given = checker.check(&asked);
        let (records, behind) = given.out.split_at(RECORD * chain.len());
        assert_eq!(given.chain.records, chain.len(), "{spelling}");
        assert_eq!(records, bytes(chain), "{spelling}");
        assert_eq!(behind, &asked.out[records.len()..]);
    }
    let behind_the_last = Asked::about(&file, &journal, chains.len() + 1);
    assert_refused(checker, &behind_the_last, 31, 0);
}

#[test]
fn desk_cases() {
    let mut checker = Checker::default();
    assert_refused(&mut checker, &Asked::about(b"", b"", 1), 31, 0);
    for case in DESK_CASES.iter().chain(&FURTHER_CASES) {
        assert_chains(&mut checker, case);
    }
    println!("{} calls", checker.calls);
}

/// Case 2's exchanged journal keeps its order in the chain; cut to 20 bytes it
/// records the first two formulas alone.
#[test]
fn case_2_exchanged_and_cut() {
    let mut checker = Checker::default();
    let file = file(DESK_CASES[0].0);
    let uncut = finished(&file);
    let exchanged = [&uncut[9..18], &uncut[..9], &uncut[18..]].concat();
    let given = checker.check(&Asked::about(&file, &exchanged, 1));
    assert_eq!(given.out[..18], exchanged[..18]);
    assert_eq!(given.out[18..27], exchanged[27..]);
    for query in [1, 2, 3] {
        let cut = Asked::about(&file, &uncut[..20], query);
        assert_refused(&mut checker, &cut, 32, 0);
    }
}

/// Nothing is recorded where case 12's files are accepted.
#[test]
fn case_12() {
    let mut checker = Checker::default();
    for (file, code, place) in desk::case_12() {
        let code = if code == 0 { 32 } else { code };
        let asked = Asked::about(file.as_bytes(), b"", 1);
        assert_refused(&mut checker, &asked, code, place);
    }
}

// ---------------------------------------------------------------------------
// Counts and journals
// ---------------------------------------------------------------------------

/// Calls with one journal each: finished, unfinished, cut, exchanged, damaged,
/// wandering, any, and used up to any byte with good records and other bytes behind.
fn calls(rng: &mut Rng, made: &Accepted) -> Vec<Asked> {
    let Accepted {
        file,
        policy,
        uncut,
    } = made;
    let records = rng.below(uncut.len() / RECORD);
    let further = [
        uncut[..RECORD * records].to_vec(),
        journals::any(rng, policy, uncut),
    ];
    let journals = journals::several(rng, policy, uncut)
        .into_iter()
        .chain(further);
    let padding = rng.below(30);
    let padded = Asked {
        journal: [&uncut[..], &rng.bytes(padding)].concat(),
        used: rng.below(uncut.len() + 1),
        ..Asked::about(file, uncut, 1)
    };
    let calls = journals.map(|journal| Asked::about(file, &journal, 1));
    calls.chain([padded]).collect()
}

#[test]
fn every_count_with_every_kind_of_journal() {
    let mut checker = Checker::default();
    let mut rng = Rng::new(61);
    let kinds = [kinds::night(36), kinds::clerks(34), kinds::reverse(16)];
    let kinds = kinds.into_iter().filter_map(Accepted::new);
    for made in asking(62, 80).chain(kinds) {
        let queries = made.policy.queries();
        for call in calls(&mut rng, &made) {
            for query in (0..=queries + 1).chain([BEYOND_32_BITS + 1, usize::MAX]) {
                let asked = Asked {
                    query,
                    ..call.clone()
                };
                let code = checker.check(&asked).chain.code;
                assert_eq!(code == 31, !(1..=queries).contains(&query));
            }
        }
    }
    checker.assert_given(&[0, 31, 32], share(500));
    assert!(checker.long > share(200), "{}", checker.long);
    println!("{} calls", checker.calls);
}

/// Journals that are used far beyond every list, with good records at their start.
#[test]
fn used_far_beyond_the_list() {
    let mut checker = Checker::default();
    let mut rng = Rng::new(63);
    for Accepted { file, uncut, .. } in asking(64, 16) {
        let from_uncut = checker.check(&Asked::about(&file, &uncut, 1));
        let cases = used_far(&mut rng, &file, &uncut).into_iter().enumerate();
        for (_, case) in cases.filter(|(count, _)| is_tested(*count)) {
            let given = checker.check(&Asked {
                journal: case.journal,
                used: case.used,
                ..Asked::about(&file, &uncut, 1)
            });
            assert_eq!(given, from_uncut);
        }
    }
    checker.assert_given(&[0], share(60));
    println!("{} calls", checker.calls);
}

// ---------------------------------------------------------------------------
// Lent buffers
// ---------------------------------------------------------------------------

/// Every length from ten bytes less than the chain's to ten more, and none at all.
/// The bytes behind the chain, and all bytes on a refusal, stay.
#[test]
fn lent_buffers_around_the_chains_length() {
    let mut checker = Checker::default();
    for Accepted {
        file,
        policy,
        uncut,
    } in asking(65, 80)
    {
        let about = |query| Asked::about(&file, &uncut, query);
        for query in 1..=policy.queries() {
            let given = checker.check(&about(query));
            let length = RECORD * given.chain.records;
            if given.chain.code != 0 {
                continue;
            }
            let around = length.saturating_sub(10)..=length + 10;
            for room in iter::once(0).chain(around) {
                let asked = about(query).with_room(room);
                if room < length {
                    assert_refused(&mut checker, &asked, 33, 0);
                    continue;
                }
                let (records, behind) = asked.out.split_at(length);
                let expected = [&given.out[..records.len()], behind].concat();
                assert_eq!(checker.check(&asked).out, expected);
            }
        }
    }
    checker.assert_given(&[0, 33], share(500));
    println!("{} calls", checker.calls);
}

// ---------------------------------------------------------------------------
// The order of the codes
// ---------------------------------------------------------------------------

/// The file's own codes come before all others, with their places: here the used
/// length is too large and the count outside the file as well.
#[test]
fn refused_files() {
    let mut checker = Checker::default();
    let edges = [
        made_up::edges_of_length(),
        made_up::edges_of_form(),
        made_up::edges_of_nodes(),
        made_up::edges_of_depth(),
        made_up::edges_of_list(),
    ];
    for edge in edges.iter().flatten().filter(|edge| edge.code != 0) {
        let asked = Asked {
            used: usize::MAX,
            ..Asked::about(&edge.file, b"no records", 0)
        };
        assert_refused(&mut checker, &asked, edge.code, edge.place);
    }
    checker.assert_given(&[1, 2, 3, 4, 5], 3);
    println!("{} calls", checker.calls);
}

/// A lent buffer that has no room for any chain.
const NO_ROOM: usize = RECORD - 1;

/// 7 before 31 before 32 before 33: each time the later ones apply as well.
#[test]
fn the_first_that_applies() {
    let mut checker = Checker::default();
    for made in asking(66, 160) {
        let (file, uncut) = (&made.file, &made.uncut);
        let past = made.policy.queries() + 1;
        for used in [uncut.len() + 1, BEYOND_32_BITS, usize::MAX] {
            let asked = Asked {
                used,
                ..Asked::about(file, uncut, 0)
            };
            assert_refused(&mut checker, &asked.with_room(NO_ROOM), 7, 0);
        }
        for query in [0, past, usize::MAX] {
            let asked = Asked::about(file, b"", query).with_room(NO_ROOM);
            assert_refused(&mut checker, &asked, 31, 0);
        }
        let unrecorded = Asked::about(file, b"", 1).with_room(NO_ROOM);
        assert_refused(&mut checker, &unrecorded, 32, 0);
        let is_recorded = checker.check(&Asked::about(file, uncut, 1)).chain.code == 0;
        let asked = Asked::about(file, uncut, 1).with_room(NO_ROOM);
        let code = if is_recorded { 33 } else { 32 };
        assert_refused(&mut checker, &asked, code, 0);
    }
    checker.assert_given(&[7, 31, 32, 33], share(40));
    println!("{} calls", checker.calls);
}

/// A journal buffer without room for the list is no reason to refuse: the chain from
/// the chain alone, in a buffer that it fills, is that chain.
#[test]
fn journal_buffers_without_room_for_the_list() {
    let mut checker = Checker::default();
    for Accepted {
        file,
        policy,
        uncut,
    } in asking(67, 120)
    {
        for query in 1..=policy.queries() {
            let given = checker.check(&Asked::about(&file, &uncut, query));
            let length = RECORD * given.chain.records;
            if given.chain.code != 0 || length == RECORD * policy.listed() {
                continue;
            }
            let chain = &given.out[..length];
            let again = checker.check(&Asked::about(&file, chain, query));
            assert_eq!(again.chain, given.chain);
            assert_eq!(again.out[..length], *chain);
        }
    }
    checker.assert_given(&[0], share(100));
    println!("{} calls", checker.calls);
}

// ---------------------------------------------------------------------------
// What 02 says of a chain
// ---------------------------------------------------------------------------

/// The number that stands at this place of a record.
fn number(record: &[u8], at: usize) -> u16 {
    u16::from_be_bytes([record[at], record[at + 1]])
}

fn formula(record: &[u8]) -> u16 {
    number(record, 3)
}

fn premises(record: &[u8]) -> impl Iterator<Item = u16> {
    let premises = [number(record, 5), number(record, 7)];
    premises.into_iter().filter(|premise| *premise != NONE)
}

/// The records are some of the kept ones, in their order.
fn assert_in_order(chain: &[u8], kept: &[u8]) {
    let mut rest = kept.chunks(RECORD);
    let mut records = chain.chunks(RECORD);
    assert!(records.all(|record| rest.any(|other| other == record)));
}

/// Every premise of a listed record is listed before it.
fn assert_premises_before(chain: &[u8]) {
    let mut before = BTreeSet::new();
    for record in chain.chunks(RECORD) {
        assert!(premises(record).all(|premise| before.contains(&premise)));
        before.insert(formula(record));
    }
}

/// Every record but the last is a premise of a later listed one.
fn assert_used_later(chain: &[u8]) {
    let own = chain.chunks(RECORD).last().expect("a record");
    let mut used = BTreeSet::from([formula(own)]);
    for record in chain.chunks(RECORD).rev() {
        assert!(used.contains(&formula(record)));
        used.extend(premises(record));
    }
}

/// How many records of a journal a run keeps that adds none, and what it answers.
fn kept(file: &[u8], journal: &[u8]) -> (usize, Vec<u8>) {
    let mut buffer = journal.to_vec();
    buffer.resize(buffer.len().max(brimusket::JOURNAL_BYTES), 0);
    let mut answers = vec![brimusket::NO; brimusket::QUERIES];
    let report = brimusket::run(file, &mut buffer, journal.len(), 0, &mut answers);
    assert_eq!(report.code, 0);
    (report.kept, answers)
}

/// Taken as a journal the chain is kept whole, and answers its query with yes; that
/// is its last record's doing.
fn assert_answers(file: &[u8], chain: &[u8], query: usize) {
    let records = chain.len() / RECORD;
    let (whole, answers) = kept(file, chain);
    assert_eq!((whole, answers[query - 1]), (records, brimusket::YES));
    let (others, answers) = kept(file, &chain[..RECORD * (records - 1)]);
    assert_eq!(others, records - 1);
    assert_eq!(answers[query - 1], brimusket::OPEN);
}

/// Chains that were looked at.
#[derive(Default)]
struct Seen {
    chains: usize,
    /// Those of more than three records, and of fewer than are kept.
    long: usize,
    shorter: usize,
    unrecorded: usize,
}

impl Seen {
    /// Checks all that 02 says of the chain of a query.
    fn look_at(&mut self, file: &[u8], journal: &[u8], query: usize) {
        let mut out = vec![0; brimusket::JOURNAL_BYTES];
        let chained = brimusket::chain(file, journal, journal.len(), query, &mut out);
        let (kept, answers) = kept(file, journal);
        if answers[query - 1] != brimusket::YES {
            assert_eq!((chained.code, chained.records), (32, 0));
            self.unrecorded += 1;
            return;
        }
        assert_eq!((chained.code, chained.place), (0, 0));
        let chain = &out[..RECORD * chained.records];
        assert_in_order(chain, &journal[..RECORD * kept]);
        assert_premises_before(chain);
        assert_used_later(chain);
        assert_answers(file, chain, query);
        self.chains += 1;
        self.long += usize::from(chained.records > 3);
        self.shorter += usize::from(chained.records < kept);
    }

    /// Checks that there were enough of each.
    fn assert_seen(&self, chains: usize, long: usize) {
        println!("{} chains, {} refusals", self.chains, self.unrecorded);
        assert!(self.chains > chains, "{} chains", self.chains);
        assert!(self.long > long, "{} long ones", self.long);
        assert!(self.shorter > long, "{} shorter ones", self.shorter);
    }
}

#[test]
fn chains_are_what_02_says() {
    let mut seen = Seen::default();
    let mut rng = Rng::new(68);
    for Accepted {
        file,
        policy,
        uncut,
    } in asking(69, 200)
    {
        let any = journals::any(&mut rng, &policy, &uncut);
        for journal in [uncut, journals::wandering(&mut rng, &policy), any] {
            for query in 1..=policy.queries() {
                seen.look_at(&file, &journal, query);
            }
        }
    }
    assert!(seen.unrecorded > share(500), "{}", seen.unrecorded);
    seen.assert_seen(share(500), share(150));
}

// ---------------------------------------------------------------------------
// Long lists
// ---------------------------------------------------------------------------

/// The first query, the last and one between.
fn some(queries: usize) -> BTreeSet<usize> {
    BTreeSet::from([1, queries.div_ceil(2), queries])
}

/// Made-up files with a list of hundreds.
#[test]
fn made_up_lists() {
    let mut rng = Rng::new(70);
    let mut seen = Seen::default();
    let mut checker = Checker::default();
    for _ in 0..share(48) {
        let file = made_up::large(&mut rng);
        let Some((listed, queries)) = sizes(&file).filter(|(_, queries)| *queries > 0) else {
            continue;
        };
        let journal = finished(&file);
        for query in some(queries) {
            seen.look_at(&file, &journal, query);
        }
        if listed < 600 {
            checker.check(&Asked::about(&file, &journal, queries));
        }
    }
    println!("{} calls", checker.calls);
    seen.assert_seen(share(40), share(10));
}

/// The longest lists that a file may have. Where a kind asks nothing, a query about
/// one of its last formulas stands behind.
#[test]
fn the_longest_lists() {
    let mut seen = Seen::default();
    let behind = |file: Vec<u8>, query: &str| [&file, query.as_bytes()].concat();
    for (file, listed) in [
        (kinds::night(1_024), 452),
        (behind(kinds::nested(1_020), "Q x0\n"), 1_019),
        (kinds::clerks(1_024), 1_080),
        (kinds::dense(1_024), 3_920),
        (kinds::reverse(1_008), 4_064),
        (kinds::full(1_024), 4_080),
        (
            behind(kinds::one_name(1_024), "Q P a P b P c P d x50\n"),
            4_096,
        ),
    ] {
        let (of_file, queries) = sizes(&file).expect("accepted");
        assert_eq!(of_file, listed);
        let journal = finished(&file);
        for query in some(queries) {
            seen.look_at(&file, &journal, query);
        }
    }
    seen.assert_seen(10, 5);
}
