//! One case for two engines: equal copies with guards around them, everything
//! compared, and a smaller case looked for where they differ.

use crate::engine;
use crate::journals::RECORD;
use second::slow::{self, Policy};
use second::{Report, Run};
use std::fmt;
use std::ops::Range;
use std::time::{Duration, Instant};

/// What a run is given. The journal and the answers are whole buffers.
#[derive(Clone)]
pub struct Case {
    pub file: Vec<u8>,
    pub journal: Vec<u8>,
    pub used: usize,
    pub limit: usize,
    pub answers: Vec<u8>,
}

/// What a run returns and leaves behind.
#[derive(Clone, Debug, PartialEq, Eq)]
pub struct Outcome {
    pub report: Report,
    pub journal: Vec<u8>,
    pub answers: Vec<u8>,
}

// ---------------------------------------------------------------------------
// Guards
// ---------------------------------------------------------------------------

/// Guard bytes on either side of a buffer.
const GUARD: usize = 64;

/// A buffer inside guards with a pattern.
pub(crate) struct Guarded {
    bytes: Vec<u8>,
}

impl Guarded {
    pub(crate) fn new(content: &[u8]) -> Guarded {
        let mut bytes: Vec<u8> = (0..GUARD).map(pattern).collect();
        bytes.extend(content);
        bytes.extend((0..GUARD).map(pattern));
        Guarded { bytes }
    }

    fn range(&self) -> Range<usize> {
        GUARD..self.bytes.len() - GUARD
    }

    pub(crate) fn content(&self) -> &[u8] {
        &self.bytes[self.range()]
    }

    pub(crate) fn content_mut(&mut self) -> &mut [u8] {
        let range = self.range();
        &mut self.bytes[range]
    }

    pub(crate) fn guards_stand(&self) -> bool {
        let inside = self.range();
        let before = self.bytes[..inside.start].iter();
        let behind = self.bytes[inside.end..].iter();
        before.copied().eq((0..GUARD).map(pattern)) && behind.copied().eq((0..GUARD).map(pattern))
    }
}

fn pattern(place: usize) -> u8 {
    0xA5 ^ place as u8
}

// ---------------------------------------------------------------------------
// Comparing
// ---------------------------------------------------------------------------

/// Runs an engine on guarded copies. An error says which bytes it should not
/// have touched.
fn run_guarded(
    run: impl Fn(&[u8], &mut [u8], usize, usize, &mut [u8]) -> Report,
    case: &Case,
) -> Result<Outcome, String> {
    let file = Guarded::new(&case.file);
    let mut journal = Guarded::new(&case.journal);
    let mut answers = Guarded::new(&case.answers);
    let report = run(
        file.content(),
        journal.content_mut(),
        case.used,
        case.limit,
        answers.content_mut(),
    );
    let stand = [
        ("file", file.guards_stand()),
        ("journal", journal.guards_stand()),
        ("answer", answers.guards_stand()),
    ];
    if let Some((buffer, _)) = stand.iter().find(|(_, stands)| !stands) {
        return Err(format!("wrote outside the {buffer} buffer"));
    }
    if file.content() != case.file {
        return Err("wrote into the file".into());
    }
    Ok(Outcome {
        report,
        journal: journal.content().to_vec(),
        answers: answers.content().to_vec(),
    })
}

/// Gives the case to both engines. Where they agree, hands on the outcome;
/// otherwise says how they differ.
pub fn compare_one(
    run: Run,
    reference: impl Fn(&[u8], &mut [u8], usize, usize, &mut [u8]) -> Report,
    case: &Case,
) -> Result<Outcome, String> {
    let outcome = run_guarded(run, case)?;
    let expected = run_guarded(reference, case).map_err(|fault| format!("reference {fault}"))?;
    if outcome == expected {
        return Ok(outcome);
    }
    Err(difference(&outcome, &expected))
}

fn difference(outcome: &Outcome, expected: &Outcome) -> String {
    let mut text = String::new();
    if outcome.report != expected.report {
        text += &format!(
            "returned {:?}\nexpected {:?}\n",
            outcome.report, expected.report
        );
    }
    for (what, left, right) in [
        ("journal", &outcome.journal, &expected.journal),
        ("answers", &outcome.answers, &expected.answers),
    ] {
        text += &differing(what, left, right);
    }
    text
}

/// Where two buffers of one length differ first, in words, with the nine bytes
/// around; nothing where they are equal.
pub(crate) fn differing(what: &str, left: &[u8], right: &[u8]) -> String {
    let Some(at) = (0..left.len()).find(|at| left[*at] != right[*at]) else {
        return String::new();
    };
    let whole = at / RECORD * RECORD;
    let end = (whole + RECORD).min(left.len());
    format!(
        "{what} differ at byte {at}: left {:02X?}, expected {:02X?}\n",
        &left[whole..end],
        &right[whole..end]
    )
}

// ---------------------------------------------------------------------------
// Checking many cases
// ---------------------------------------------------------------------------

/// Checks cases against the reference and counts what came out, so that a test
/// can tell that its cases are what it takes them for.
#[derive(Default)]
pub struct Checker {
    pub calls: usize,
    /// How often each code was given, 0 for none.
    pub codes: [usize; 10],
    /// How often no, yes and open were answered.
    pub answers: [usize; 3],
    /// Runs that kept something, and those of them that kept less than was
    /// there.
    pub kept: usize,
    pub kept_less: usize,
    pub added: usize,
}

impl Checker {
    /// Checks one case against the engine that its file is compared with.
    pub fn check(&mut self, case: &Case) -> Outcome {
        self.check_against(engine::reference(&case.file), case)
    }

    /// Checks one case against this engine.
    pub fn check_against(&mut self, reference: Run, case: &Case) -> Outcome {
        let compared = compare_one(engine::under_test, reference, case);
        self.agreed(case, compared, reference)
    }

    /// Checks one case against the slow engine, which has read its file already.
    pub fn check_read(&mut self, policy: &Policy, case: &Case) -> Outcome {
        let run = |_: &[u8], journal: &mut [u8], used, limit, answers: &mut [u8]| {
            policy.run(journal, used, limit, answers)
        };
        let compared = compare_one(engine::under_test, run, case);
        self.agreed(case, compared, slow::run)
    }

    /// Counts what came out; where the engines differ, ends the test with the
    /// smallest such case found.
    fn agreed(
        &mut self,
        case: &Case,
        compared: Result<Outcome, String>,
        reference: Run,
    ) -> Outcome {
        match compared {
            Ok(outcome) => {
                self.count(case, &outcome);
                outcome
            }
            Err(_) => panic!("{}", failure(engine::under_test, reference, case)),
        }
    }

    fn count(&mut self, case: &Case, outcome: &Outcome) {
        let report = &outcome.report;
        self.calls += 1;
        self.codes[report.code] += 1;
        self.kept += usize::from(report.kept > 0);
        self.kept_less += usize::from(report.kept > 0 && report.kept < case.used / RECORD);
        self.added += report.added;
        if report.code == 0 {
            let queries = case.file.split(|byte| *byte == b'\n');
            let queries = queries.filter(|line| line.starts_with(b"Q")).count();
            for answer in &outcome.answers[..queries] {
                self.answers[usize::from(*answer)] += 1;
            }
        }
    }
}

/// The smallest failing case that can be found from this one, in words.
pub fn failure(run: Run, reference: Run, case: &Case) -> String {
    let smallest = shrink(case, |case| compare_one(run, reference, case).is_err());
    let difference = compare_one(run, reference, &smallest)
        .err()
        .unwrap_or_default();
    format!("{} differs on\n{smallest}{difference}", engine::NAME)
}

/// The most records of a case that are shown: more than these no journal keeps.
const MOST_SHOWN: usize = 4_096;

impl fmt::Display for Case {
    fn fmt(&self, f: &mut fmt::Formatter) -> fmt::Result {
        writeln!(f, "file of {} bytes:", self.file.len())?;
        for line in self.file.split_inclusive(|byte| *byte == b'\n') {
            writeln!(f, "  {}", line.escape_ascii())?;
        }
        let buffer = self.journal.len();
        writeln!(f, "journal buffer of {buffer} bytes, used {}:", self.used)?;
        let records = self.journal[..self.used.min(buffer)].chunks(RECORD);
        let more = records.len().saturating_sub(MOST_SHOWN);
        for record in records.take(MOST_SHOWN) {
            writeln!(f, "  {record:02X?}")?;
        }
        if more > 0 {
            writeln!(f, "  and {more} more")?;
        }
        writeln!(
            f,
            "limit {}, answer buffer of {} bytes",
            self.limit,
            self.answers.len()
        )
    }
}

// ---------------------------------------------------------------------------
// Looking for a smaller case
// ---------------------------------------------------------------------------

/// How long a smaller case is looked for.
const PATIENCE: Duration = Duration::from_secs(10);

/// A case that still fails although, time permitting, no line, record or byte
/// of it can be left out and no number of it made smaller by the means below.
pub fn shrink(case: &Case, fails: impl Fn(&Case) -> bool) -> Case {
    let begun = Instant::now();
    let fails = |case: &Case| begun.elapsed() < PATIENCE && fails(case);
    let mut case = case.clone();
    loop {
        let before = size(&case);
        for (count, without) in UNITS {
            leave_out(&mut case, &fails, count, without);
        }
        for (get, set) in NUMBERS {
            lower(&mut case, &fails, get, set);
        }
        if size(&case) == before {
            return case;
        }
    }
}

/// What can be left out of a case: how many there are, and the case without
/// some of them.
type Units = (fn(&Case) -> usize, fn(&Case, Range<usize>) -> Case);

const UNITS: [Units; 3] = [
    (lines, without_lines),
    (|case| case.file.len(), without_bytes),
    (records, without_records),
];

/// What can be made smaller: a number of the case, and how it is set.
type Number = (fn(&Case) -> usize, fn(&mut Case, usize));

const NUMBERS: [Number; 4] = [
    (|case| case.limit, |case, limit| case.limit = limit),
    (|case| case.used, |case, used| case.used = used),
    (
        |case| case.journal.len(),
        |case, length| case.journal.truncate(length),
    ),
    (
        |case| case.answers.len(),
        |case, length| case.answers.truncate(length),
    ),
];

fn size(case: &Case) -> (usize, [usize; 4]) {
    (case.file.len(), NUMBERS.map(|(get, _)| get(case)))
}

/// Leaves out runs of units, long ones first, as long as the case fails.
fn leave_out(
    case: &mut Case,
    fails: &impl Fn(&Case) -> bool,
    units: impl Fn(&Case) -> usize,
    without: impl Fn(&Case, Range<usize>) -> Case,
) {
    let mut length = units(case).next_power_of_two();
    while length > 0 {
        let mut start = 0;
        while start < units(case) {
            let smaller = without(case, start..(start + length).min(units(case)));
            if fails(&smaller) {
                *case = smaller;
            } else {
                start += length;
            }
        }
        length /= 2;
    }
}

/// Lowers a number, by much at first, as long as the case fails.
fn lower(
    case: &mut Case,
    fails: &impl Fn(&Case) -> bool,
    get: impl Fn(&Case) -> usize,
    set: impl Fn(&mut Case, usize),
) {
    let mut step = get(case);
    while step > 0 {
        let mut smaller = case.clone();
        set(&mut smaller, get(case).saturating_sub(step));
        if get(case) > 0 && fails(&smaller) {
            *case = smaller;
        } else {
            step /= 2;
        }
    }
}

fn lines(case: &Case) -> usize {
    case.file.split_inclusive(|byte| *byte == b'\n').count()
}

fn without_lines(case: &Case, range: Range<usize>) -> Case {
    let lines = case.file.split_inclusive(|byte| *byte == b'\n').enumerate();
    let rest = lines.filter(|(at, _)| !range.contains(at));
    Case {
        file: rest.flat_map(|(_, line)| line).copied().collect(),
        ..case.clone()
    }
}

fn without_bytes(case: &Case, range: Range<usize>) -> Case {
    let mut smaller = case.clone();
    smaller.file.drain(range);
    smaller
}

/// The whole records inside the used length.
fn records(case: &Case) -> usize {
    case.used.min(case.journal.len()) / RECORD
}

fn without_records(case: &Case, range: Range<usize>) -> Case {
    let mut smaller = case.clone();
    smaller
        .journal
        .drain(RECORD * range.start..RECORD * range.end);
    smaller.used -= RECORD * range.len();
    smaller
}

#[cfg(test)]
mod tests {
    use super::*;
    use second::{fast, slow};

    fn case(file: &[u8]) -> Case {
        Case {
            file: file.to_vec(),
            journal: vec![0; 200],
            used: 0,
            limit: 100,
            answers: vec![7; 4],
        }
    }

    /// An engine that writes the last byte of its answers, asked for or not.
    fn careless(
        file: &[u8],
        journal: &mut [u8],
        used: usize,
        limit: usize,
        answers: &mut [u8],
    ) -> Report {
        let report = fast::run(file, journal, used, limit, answers);
        if let Some(last) = answers.last_mut() {
            *last = 1;
        }
        report
    }

    /// An engine that adds one to its count where the query is `d`.
    fn boastful(
        file: &[u8],
        journal: &mut [u8],
        used: usize,
        limit: usize,
        answers: &mut [u8],
    ) -> Report {
        let report = fast::run(file, journal, used, limit, answers);
        let asked = file.windows(4).any(|window| window == b"Q d\n");
        Report {
            added: report.added + usize::from(asked),
            ..report
        }
    }

    #[test]
    fn equal_engines_agree() {
        let outcome = compare_one(fast::run, slow::run, &case(b"H b\nQ b\n")).expect("they agree");
        assert_eq!(outcome.answers, [1, 7, 7, 7]);
    }

    #[test]
    fn a_stray_answer_byte_is_seen() {
        assert!(compare_one(careless, slow::run, &case(b"H b\nQ b\n")).is_err());
    }

    #[test]
    fn a_touched_guard_is_seen() {
        for at in [0, GUARD - 1, GUARD + 3, 2 * GUARD + 2] {
            let mut guarded = Guarded::new(b"abc");
            assert!(guarded.guards_stand());
            guarded.bytes[at] ^= 1;
            assert!(!guarded.guards_stand());
        }
    }

    #[test]
    fn a_failing_case_shrinks_to_its_cause() {
        let large = case(b"H > b c\nH S a b\nQ c\nQ d\nQ S a + b c\n");
        let smallest = shrink(&large, |case| {
            compare_one(boastful, slow::run, case).is_err()
        });
        assert_eq!(smallest.file, b"Q d\n");
        assert_eq!((smallest.used, smallest.limit), (0, 0));
    }
}
