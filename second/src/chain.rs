//! M-100 of the change requests (02), "Show the desk its chain", word by word
//! on top of [`crate::slow`].

use crate::slow::{Policy, Record};
use std::collections::BTreeSet;

/// What a call of the chain returns.
#[derive(Clone, Copy, Debug, PartialEq, Eq)]
pub struct Chain {
    /// 0, or the code of a refusal.
    pub code: usize,
    /// 0, or the place that goes with the code.
    pub place: usize,
    /// Records in the chain, "0 on a refusal".
    pub records: usize,
}

/// A code and its place.
type Refusal = (usize, usize);

/// "For a recorded query, give the records that it rests on." Takes the file,
/// the journal, its used length, the query's count from 1 and the lent buffer.
pub fn chain(file: &[u8], journal: &[u8], used: usize, query: usize, out: &mut [u8]) -> Chain {
    match give(file, journal, used, query, out) {
        Ok(records) => Chain {
            code: 0,
            place: 0,
            records,
        },
        Err((code, place)) => Chain {
            code,
            place,
            records: 0,
        },
    }
}

/// The number of records given. "Refusals: 31, query count outside the file;
/// 32, that query is not recorded in the kept part; 33, the chain does not fit
/// the lent buffer; in this order after 01's codes 1 to 5 and 7, place 0, the
/// buffer unchanged": it is written only when nothing can refuse any more.
fn give(
    file: &[u8],
    journal: &[u8],
    used: usize,
    query: usize,
    out: &mut [u8],
) -> Result<usize, Refusal> {
    let policy = Policy::read(file)?;
    let journal = journal.get(..used).ok_or((7, 0))?;
    let asked = policy.query(query).ok_or((31, 0))?;
    let kept = policy.kept_part(journal);
    if !kept.iter().any(|record| record.formula == asked) {
        return Err((32, 0));
    }
    let records = rests_on(&kept, asked);
    let bytes: Vec<u8> = records.iter().flat_map(Record::to_bytes).collect();
    let front = out.get_mut(..bytes.len()).ok_or((33, 0))?;
    front.copy_from_slice(&bytes);
    Ok(records.len())
}

/// The records that a recorded formula rests on, "in journal order, the
/// query's own last": no formula is recorded twice, and premises are recorded
/// earlier. Begins with the formula alone and takes in the premises of what
/// there is until nothing changes.
fn rests_on(kept: &[Record], asked: usize) -> Vec<Record> {
    let mut formulas = BTreeSet::from([asked]);
    loop {
        let premises = premises(&with_formula_in(kept, &formulas));
        if premises.is_subset(&formulas) {
            return with_formula_in(kept, &formulas);
        }
        formulas.extend(premises);
    }
}

/// The records for one of these formulas, in journal order.
fn with_formula_in(kept: &[Record], formulas: &BTreeSet<usize>) -> Vec<Record> {
    let records = kept.iter().copied();
    records
        .filter(|record| formulas.contains(&record.formula))
        .collect()
}

/// The formulas that are a premise of one of these records.
fn premises(records: &[Record]) -> BTreeSet<usize> {
    let records = records.iter();
    records
        .flat_map(|record| [record.first, record.second])
        .flatten()
        .collect()
}
