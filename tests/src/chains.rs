//! One call for a chain to two programs: equal copies with guards around them,
//! everything compared, and a smaller call looked for where they differ.

use crate::compare::{differing, shrink, Case, Guarded};
use crate::engine;
use second::chain::{self, Chain};
use std::collections::BTreeMap;

/// A call for a chain: the file, the journal, its used length, the query's count
/// from 1 and the lent buffer.
pub type Call = fn(&[u8], &[u8], usize, usize, &mut [u8]) -> Chain;

/// What a call is given. The journal and the lent buffer are whole buffers.
#[derive(Clone)]
pub struct Asked {
    pub file: Vec<u8>,
    pub journal: Vec<u8>,
    pub used: usize,
    pub query: usize,
    pub out: Vec<u8>,
}

/// The byte that fills a lent buffer, so that a stray zero is seen.
const FILLER: u8 = 0x5A;

impl Asked {
    /// Asks from all of a journal, with room for all its records and a little more.
    pub fn about(file: &[u8], journal: &[u8], query: usize) -> Asked {
        let asked = Asked {
            file: file.to_vec(),
            journal: journal.to_vec(),
            used: journal.len(),
            query,
            out: Vec::new(),
        };
        asked.with_room(journal.len() + 5)
    }

    /// The same with a lent buffer of this length.
    pub fn with_room(self, length: usize) -> Asked {
        Asked {
            out: vec![FILLER; length],
            ..self
        }
    }

    /// As a run's case, which can be made smaller: the query's count stands for the
    /// limit, the lent buffer for the answers.
    fn to_case(&self) -> Case {
        let asked = self.clone();
        Case {
            file: asked.file,
            journal: asked.journal,
            used: asked.used,
            limit: asked.query,
            answers: asked.out,
        }
    }

    fn from_case(case: &Case) -> Asked {
        let case = case.clone();
        Asked {
            file: case.file,
            journal: case.journal,
            used: case.used,
            query: case.limit,
            out: case.answers,
        }
    }
}

/// What a call returns and leaves in the lent buffer.
#[derive(Clone, Debug, PartialEq, Eq)]
pub struct Given {
    pub chain: Chain,
    pub out: Vec<u8>,
}

/// Calls on guarded copies. An error says which bytes the call should not have
/// touched.
fn call_guarded(call: Call, asked: &Asked) -> Result<Given, String> {
    let file = Guarded::new(&asked.file);
    let journal = Guarded::new(&asked.journal);
    let mut out = Guarded::new(&asked.out);
    let chain = call(
        file.content(),
        journal.content(),
        asked.used,
        asked.query,
        out.content_mut(),
    );
    for (what, stands) in [
        ("outside the file", file.guards_stand()),
        ("outside the journal", journal.guards_stand()),
        ("outside the lent buffer", out.guards_stand()),
        ("into the file", file.content() == asked.file),
        ("into the journal", journal.content() == asked.journal),
    ] {
        if !stands {
            return Err(format!("wrote {what}"));
        }
    }
    Ok(Given {
        chain,
        out: out.content().to_vec(),
    })
}

/// Asks this program and the second one. Where they agree, hands on what was given;
/// otherwise says how they differ.
fn compare_one(call: Call, asked: &Asked) -> Result<Given, String> {
    let given = call_guarded(call, asked)?;
    let expected =
        call_guarded(chain::chain, asked).map_err(|fault| format!("the second program {fault}"))?;
    if given == expected {
        return Ok(given);
    }
    let returned = format!(
        "returned {:?}\nexpected {:?}\n",
        given.chain, expected.chain
    );
    Err(returned + &differing("lent buffers", &given.out, &expected.out))
}

/// The smallest call that can be found from this one on which the two differ, in
/// words.
fn failure(call: Call, asked: &Asked) -> String {
    let differ = |case: &Case| compare_one(call, &Asked::from_case(case));
    let smallest = shrink(&asked.to_case(), |case| differ(case).is_err());
    let difference = differ(&smallest).err().unwrap_or_default();
    format!(
        "{} differs on\n{smallest}where the limit is the query's count and the answer buffer the \
         lent one\n{difference}",
        engine::NAME
    )
}

/// Checks calls of the proved library against the second program and counts what
/// came out, so that a test can tell that its calls are what it takes them for.
#[derive(Default)]
pub struct Checker {
    pub calls: usize,
    /// How often each code was given, 0 for none.
    pub codes: BTreeMap<usize, usize>,
    /// Chains of more than three records.
    pub long: usize,
}

impl Checker {
    /// Checks one call; where the programs differ, ends the test with the smallest
    /// such call found.
    pub fn check(&mut self, asked: &Asked) -> Given {
        let call = engine::CHAIN.expect("the proved library is under test");
        let given = compare_one(call, asked).unwrap_or_else(|_| panic!("{}", failure(call, asked)));
        let Chain { code, records, .. } = given.chain;
        self.calls += 1;
        *self.codes.entry(code).or_default() += 1;
        self.long += usize::from(records > 3);
        given
    }

    /// Checks that each of these codes was given at least so often.
    pub fn assert_given(&self, codes: &[usize], least: usize) {
        let often = |code| self.codes.get(code).is_some_and(|count| *count >= least);
        assert!(codes.iter().all(often), "{:?}", self.codes);
    }
}

#[cfg(test)]
mod tests {
    use super::*;
    use crate::journals::{finished, RECORD};

    const FILE: &[u8] = b"H b\nH S a c\nQ P a c\nQ d\n";

    /// The codes of the calls below. The last one has the query's record behind the
    /// used length.
    const CODES: [usize; 5] = [31, 32, 33, 0, 32];

    fn calls() -> [Asked; 5] {
        let journal = finished(FILE);
        let about = |query| Asked::about(FILE, &journal, query);
        let used = 2 * RECORD;
        let unrecorded = Asked { used, ..about(1) };
        [
            about(0),
            about(2),
            about(1).with_room(17),
            about(1),
            unrecorded,
        ]
    }

    /// The second program with a fault each.
    const FAULTS: [(&str, Call); 5] = [
        (
            "the chain's first byte",
            |file, journal, used, query, out| {
                let given = chain::chain(file, journal, used, query, out);
                out[0] ^= u8::from(given.code == 0);
                given
            },
        ),
        (
            "a byte behind the chain",
            |file, journal, used, query, out| {
                let given = chain::chain(file, journal, used, query, out);
                out[RECORD * given.records] ^= u8::from(given.code == 0);
                given
            },
        ),
        ("a byte on a refusal", |file, journal, used, query, out| {
            let given = chain::chain(file, journal, used, query, out);
            out[0] ^= u8::from(given.code == 33);
            given
        }),
        ("another code", |file, journal, used, query, out| {
            let given = chain::chain(file, journal, used, query, out);
            let code = if given.code == 31 { 32 } else { given.code };
            Chain { code, ..given }
        }),
        ("what is not used", |file, journal, _, query, out| {
            chain::chain(file, journal, journal.len(), query, out)
        }),
    ];

    #[test]
    fn equal_programs_agree() {
        let given = calls().map(|asked| compare_one(chain::chain, &asked).expect("they agree"));
        assert_eq!(given.map(|given| given.chain.code), CODES);
    }

    #[test]
    fn faults_are_seen() {
        for (what, call) in FAULTS {
            let compared = calls().map(|asked| compare_one(call, &asked));
            assert!(compared.iter().any(Result::is_err), "{what}");
        }
    }

    #[test]
    fn a_failing_call_shrinks_to_its_cause() {
        let (_, call) = FAULTS[3];
        let found = failure(call, &Asked::about(FILE, &finished(FILE), 0));
        assert!(found.contains("file of 0 bytes"), "{found}");
    }
}
