//! The proved call, and who gets to see what it gives.
//!
//! A night's answers are shown only for an [`OnDisk`], and that only the finished
//! write of its journal gives.

use crate::disk::OnDisk;
use brimusket::Settlement;

/// A refusal: its code, and what is printed of it.
pub struct Refused {
    pub code: usize,
    pub text: Vec<u8>,
}

/// What the call made of a policy file and a journal that it did not refuse.
pub struct Night {
    pub settled: Settlement,
    /// The new journal.
    pub journal: Vec<u8>,
    answers: Vec<u8>,
}

impl Night {
    /// Makes the call.
    pub fn call(
        policy: &[u8],
        old: &[u8],
        limit: usize,
        questions: bool,
    ) -> Result<Night, Refused> {
        let mut journal = old.to_vec();
        journal.resize(brimusket::JOURNAL_BYTES, 0);
        let mut text = vec![0; brimusket::TEXT_BYTES];
        let used = old.len();
        let settled = brimusket::settle(policy, &mut journal, used, limit, questions, &mut text);
        text.truncate(settled.length);
        let code = settled.report.code;
        if code != 0 {
            return Err(Refused { code, text });
        }
        journal.truncate(settled.report.used);
        Ok(Night {
            settled,
            journal,
            answers: text,
        })
    }

    /// The policy file asks nothing.
    pub fn is_silent(&self) -> bool {
        self.answers.is_empty()
    }

    /// The answers, now that their records are on the disk.
    pub fn answers(&self, _: &OnDisk) -> &[u8] {
        &self.answers
    }
}

/// The answers at the desk, from an empty journal which is then forgotten: no
/// record behind them is promised to anyone.
pub fn desk(policy: &[u8], questions: bool) -> Result<Vec<u8>, Refused> {
    let night = Night::call(policy, &[], brimusket::ALL, questions)?;
    Ok(night.answers)
}
