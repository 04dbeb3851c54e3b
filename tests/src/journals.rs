//! Made-up journals for a given file: empty, cut, exchanged, damaged, padded,
//! or written by someone who takes any good record instead of the next one.

use crate::rng::Rng;
use second::fast;
use second::slow::{Policy, Record};

/// Bytes in a record.
pub const RECORD: usize = 9;

/// The uncut journal of an accepted file.
pub fn finished(file: &[u8]) -> Vec<u8> {
    let mut journal = vec![0; RECORD * 4_096];
    let mut answers = vec![0; 1_024];
    let report = fast::run(file, &mut journal, 0, usize::MAX, &mut answers);
    journal.truncate(report.used);
    journal
}

/// A journal of good records in any order and by any rule that serves, up to
/// the end or stopped early.
pub fn wandering(rng: &mut Rng, policy: &Policy) -> Vec<u8> {
    let mut journal = Vec::new();
    let mut recorded = vec![false; policy.listed()];
    loop {
        let good: Vec<Record> = policy.good_records(&recorded).copied().collect();
        if good.is_empty() || rng.once_in(60) {
            return journal;
        }
        let record = *rng.one_of(&good);
        recorded[record.formula] = true;
        journal.extend(record.to_bytes());
    }
}

/// Any journal for this policy: mostly good at its start, often spoiled in one
/// or two places.
pub fn any(rng: &mut Rng, policy: &Policy, uncut: &[u8]) -> Vec<u8> {
    let mut journal = match rng.below(8) {
        0 => Vec::new(),
        1..=3 => uncut.to_vec(),
        4 => {
            let length = rng.below(40);
            rng.bytes(length)
        }
        _ => wandering(rng, policy),
    };
    for _ in 0..rng.below(3) {
        spoil(rng, &mut journal, policy.listed());
    }
    journal
}

/// Journals from an uncut one that is not empty: an empty one, the uncut one cut at
/// any byte, with two records exchanged, with a byte damaged, good records in any
/// order, and the uncut one as it is.
pub fn several(rng: &mut Rng, policy: &Policy, uncut: &[u8]) -> [Vec<u8>; 6] {
    let records = uncut.len() / RECORD;
    let mut exchanged = uncut.to_vec();
    let (one, other) = (rng.below(records), rng.below(records));
    exchange(&mut exchanged, RECORD * one, RECORD * other);
    let mut damaged = uncut.to_vec();
    damage_byte(rng, &mut damaged);
    [
        Vec::new(),
        uncut[..rng.below(uncut.len())].to_vec(),
        exchanged,
        damaged,
        wandering(rng, policy),
        uncut.to_vec(),
    ]
}

/// Does one wrong thing to a journal.
pub fn spoil(rng: &mut Rng, journal: &mut Vec<u8>, listed: usize) {
    let records = journal.len() / RECORD;
    if records == 0 {
        let length = rng.below(3 * RECORD);
        journal.extend(rng.bytes(length));
        return;
    }
    let start = RECORD * rng.below(records);
    let other = RECORD * rng.below(records);
    match rng.below(8) {
        0 => journal.truncate(rng.below(journal.len() + 1)),
        1 => exchange(journal, start, other),
        2 => damage_byte(rng, journal),
        3 => journal.copy_within(other..other + RECORD, start),
        4 => drop(journal.drain(start..start + RECORD)),
        5 => drop(journal.remove(start)),
        6 => {
            let length = 1 + rng.below(2 * RECORD);
            journal.extend(rng.bytes(length));
        }
        _ => forge(rng, &mut journal[start..start + RECORD], listed),
    }
}

/// Exchanges the records at two starts.
pub fn exchange(journal: &mut [u8], start: usize, other: usize) {
    for place in 0..RECORD {
        journal.swap(start + place, other + place);
    }
}

/// Changes one byte to another, near or far.
pub fn damage_byte(rng: &mut Rng, journal: &mut [u8]) {
    let at = rng.below(journal.len());
    journal[at] = match rng.below(4) {
        0 => journal[at] ^ 1 << rng.below(8),
        1 => journal[at].wrapping_add(1),
        2 => journal[at].wrapping_sub(1),
        _ => rng.byte(),
    };
}

/// Makes a record that looks right: another rule, another premise, premises
/// exchanged, one too many or one too few.
fn forge(rng: &mut Rng, bytes: &mut [u8], listed: usize) {
    let Some(mut record) = Record::from_bytes(bytes) else {
        return;
    };
    let number = rng.below(listed + 2);
    match rng.below(7) {
        0 => record.rule = rng.below(10) as u8,
        1 => record.formula = number,
        2 => record.first = Some(number),
        3 => record.second = Some(number),
        4 => record.first = None,
        5 => record.second = None,
        _ => std::mem::swap(&mut record.first, &mut record.second),
    }
    bytes.copy_from_slice(&record.to_bytes());
}
