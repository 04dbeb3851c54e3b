//! Whole cases: a file with buffers, a used length and a limit.

use crate::compare::Case;
use crate::journals::{self, RECORD};
use crate::made_up;
use crate::rng::Rng;
use second::fast;
use second::slow::Policy;
use std::iter;

/// The byte that fills unused buffers, so that a stray zero is seen.
const FILLER: u8 = 0xEE;

/// L and the number of queries of an accepted file.
pub fn sizes(file: &[u8]) -> Option<(usize, usize)> {
    let list = fast::read(file)
        .and_then(|parsed| fast::list(&parsed))
        .ok()?;
    Some((list.listed(), list.queries()))
}

/// An accepted file, as the slow engine reads it, and its uncut journal.
pub struct Accepted {
    pub file: Vec<u8>,
    pub policy: Policy,
    pub uncut: Vec<u8>,
}

impl Accepted {
    /// The file, if it is accepted.
    pub fn new(file: Vec<u8>) -> Option<Accepted> {
        let policy = Policy::read(&file).ok()?;
        let uncut = journals::finished(&file);
        Some(Accepted {
            file,
            policy,
            uncut,
        })
    }
}

/// Accepted made-up files without end; the same seed, the same files.
pub fn accepted(seed: u64) -> impl Iterator<Item = Accepted> {
    let mut rng = Rng::new(seed);
    let files = iter::repeat_with(move || made_up::any(&mut rng));
    files.filter_map(Accepted::new)
}

/// A run from an empty journal to the end, in buffers just large enough and a
/// little more.
pub fn from_empty(file: &[u8]) -> Case {
    let (listed, queries) = sizes(file).unwrap_or((3, 3));
    Case {
        file: file.to_vec(),
        journal: vec![FILLER; RECORD * listed + 4],
        used: 0,
        limit: usize::MAX,
        answers: vec![FILLER; queries + 2],
    }
}

/// A run from a given journal, all of it used.
pub fn from_journal(file: &[u8], journal: &[u8]) -> Case {
    let mut case = from_empty(file);
    let length = case.journal.len().max(journal.len());
    case.journal.resize(length, FILLER);
    case.journal[..journal.len()].copy_from_slice(journal);
    case.used = journal.len();
    case
}

/// Runs in buffers that no list fills, used far beyond every list: good records
/// first, and behind them zeros, the same records again and again, or anything.
pub fn used_far(rng: &mut Rng, file: &[u8], good: &[u8]) -> Vec<Case> {
    let mut cases = Vec::new();
    for length in [100_000, 1_000_003] {
        let repeated = good.iter().copied().cycle().take(length).collect();
        for behind in [vec![0; length], repeated, rng.bytes(length)] {
            let journal = [good, &behind[good.len()..]].concat();
            for used in [36_864, 36_865, 40_000, 99_999, length] {
                cases.push(Case {
                    journal: journal.clone(),
                    used,
                    ..from_empty(file)
                });
            }
        }
    }
    cases
}

/// Any case at all: any file, now and then a damaged one, any journal, a limit
/// around what is missing, and buffers that are now and then too short.
pub fn any(rng: &mut Rng) -> Case {
    let mut file = made_up::any(rng);
    if rng.once_in(4) {
        file = made_up::damaged(rng, file);
    }
    let mut case = with_any_journal(rng, &file);
    case.limit = any_limit(rng);
    if rng.once_in(8) {
        case.journal.truncate(rng.below(case.journal.len() + 1));
    }
    if rng.once_in(8) {
        case.answers.truncate(rng.below(case.answers.len() + 1));
    }
    if rng.once_in(8) {
        case.used = rng.below(case.journal.len() + 10);
    }
    case
}

/// The file with any journal, if it is accepted.
pub fn with_any_journal(rng: &mut Rng, file: &[u8]) -> Case {
    match Policy::read(file) {
        Ok(policy) => {
            let uncut = journals::finished(file);
            from_journal(file, &journals::any(rng, &policy, &uncut))
        }
        Err(_) => from_empty(file),
    }
}

fn any_limit(rng: &mut Rng) -> usize {
    match rng.below(4) {
        0 => rng.below(4),
        1 => usize::MAX,
        _ => rng.below(60),
    }
}
