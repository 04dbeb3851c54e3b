//! Timing two engines in turn on equal buffers, over all files of a kind in turn,
//! so that a machine that slows down slows down all that is compared.

use against::cases::sizes;
use against::chains;
use against::engine::{under_test, CHAIN};
use against::journals::{finished, RECORD};
use against::kinds::nodes;
use second::{fast, Run};
use std::hint::black_box;
use std::time::{Duration, Instant};

const LEAST_REPETITIONS: usize = 5;
const MOST_REPETITIONS: usize = 301;
/// Time after which no further repetition over a kind's files is begun.
const BUDGET: Duration = Duration::from_secs(20);

/// A line that is refused when all lines have been read, and its nodes.
const DEEP_LINE: &[u8] = b"Q S a S a S a S a S a a\n";
pub const DEEP_NODES: usize = 6;

/// The median in microseconds, and half the way between the quartiles.
#[derive(Clone, Copy)]
pub struct Time {
    pub median: f64,
    pub spread: f64,
}

#[derive(Clone, Copy)]
pub struct Pair {
    pub under_test: Time,
    pub fast: Time,
}

impl Pair {
    pub fn ratio(self) -> f64 {
        self.under_test.median / self.fast.median
    }
}

/// All that is measured on one file: whole runs from empty, from the finished
/// journal and for one record; reading and listing; the rest of the runs from empty
/// and from the finished journal, which is the closure with its journal; and the
/// longest chain of a query, where one is recorded.
pub struct Row {
    pub kind: &'static str,
    pub nodes: usize,
    pub listed: usize,
    pub from_empty: Pair,
    pub resumed: Pair,
    pub one_record: Pair,
    pub reading: Pair,
    pub listing: Pair,
    pub rest: Pair,
    pub rest_resumed: Pair,
    pub chain: Option<Chain>,
}

/// The time of the proved library's longest chain of a query from the finished
/// journal, with the records of both.
#[derive(Clone, Copy)]
pub struct Chain {
    pub time: Time,
    pub journal: usize,
    pub records: usize,
}

/// What one engine was measured once, in the order of a row's pairs.
type Times = [Duration; 7];

/// What was measured in one turn.
struct Turn {
    under_test: Times,
    chain: Option<Duration>,
    fast: Times,
}

/// A query that is recorded in the finished journal: the call for its chain, its
/// count, and the records of its chain.
#[derive(Clone, Copy)]
struct Query {
    call: chains::Call,
    count: usize,
    records: usize,
}

/// A file with its buffers and what its runs leave.
struct Subject {
    nodes: usize,
    file: Vec<u8>,
    /// The file with a line that is refused behind it.
    deep: Vec<u8>,
    listed: usize,
    uncut: Vec<u8>,
    journal: Vec<u8>,
    answers: Vec<u8>,
    /// The query with the longest chain, and a buffer for that.
    query: Option<Query>,
    chain: Vec<u8>,
}

impl Subject {
    fn new(file: Vec<u8>) -> Subject {
        let (listed, queries) = sizes(&file).expect("the file is accepted");
        let uncut = finished(&file);
        Subject {
            nodes: nodes(&file),
            deep: [&file, DEEP_LINE].concat(),
            listed,
            journal: vec![0; RECORD * listed],
            answers: vec![0; queries],
            query: longest(&file, &uncut, queries),
            chain: vec![0; RECORD * listed],
            uncut,
            file,
        }
    }

    fn records(&self) -> usize {
        self.uncut.len() / RECORD
    }

    /// Fills the journal buffer with so many records of the uncut journal, and
    /// zeros behind them.
    fn put_records(&mut self, records: usize) {
        let (used, rest) = self.journal.split_at_mut(RECORD * records);
        used.copy_from_slice(&self.uncut[..RECORD * records]);
        rest.fill(0);
    }

    /// Whether just so many records of the uncut journal are in the buffer.
    fn has_records(&self, records: usize) -> bool {
        let (used, rest) = self.journal.split_at(RECORD * records);
        *used == self.uncut[..RECORD * records] && rest.iter().all(|byte| *byte == 0)
    }
}

/// The query of the file that has the longest chain, if any is recorded and the
/// engine under test gives chains.
fn longest(file: &[u8], uncut: &[u8], queries: usize) -> Option<Query> {
    let call = CHAIN?;
    let mut out = vec![0; uncut.len()];
    let asked = (1..=queries).map(|count| Query {
        call,
        count,
        records: call(file, uncut, uncut.len(), count, &mut out).records,
    });
    let recorded = asked.filter(|query| query.records > 0);
    recorded.max_by_key(|query| query.records)
}

/// The rows of a kind's files.
pub fn rows(kind: &'static str, files: impl Iterator<Item = Vec<u8>>) -> Vec<Row> {
    let mut subjects: Vec<Subject> = files.map(Subject::new).collect();
    let mut turns: Vec<Vec<Turn>> = subjects.iter().map(|_| Vec::new()).collect();
    let begun = Instant::now();
    for count in 0..MOST_REPETITIONS {
        if count >= LEAST_REPETITIONS && begun.elapsed() > BUDGET {
            break;
        }
        for (subject, turns) in subjects.iter_mut().zip(&mut turns) {
            turns.push(Turn {
                under_test: times_under_test(subject),
                chain: subject.query.map(|query| time_of_chain(query, subject)),
                fast: times_of_sibling(subject),
            });
        }
    }
    let rows = subjects.iter().zip(&turns);
    rows.map(|(subject, turns)| row(kind, subject, turns))
        .collect()
}

fn row(kind: &'static str, subject: &Subject, turns: &[Turn]) -> Row {
    let pair = |what: usize| Pair {
        under_test: summary(turns.iter().map(|turn| turn.under_test[what])),
        fast: summary(turns.iter().map(|turn| turn.fast[what])),
    };
    Row {
        kind,
        nodes: subject.nodes,
        listed: subject.listed,
        from_empty: pair(0),
        resumed: pair(1),
        one_record: pair(2),
        reading: pair(3),
        listing: pair(4),
        rest: pair(5),
        rest_resumed: pair(6),
        chain: subject.query.map(|query| Chain {
            time: summary(turns.iter().filter_map(|turn| turn.chain)),
            journal: subject.records(),
            records: query.records,
        }),
    }
}

/// A run that is refused by code 4 in its last line has read, one without room
/// for its journal has read and listed: the stages are differences of runs.
fn times_under_test(subject: &mut Subject) -> Times {
    let [from_empty, resumed, one_record] = whole_runs(under_test, subject);
    let read = refusal(under_test, &subject.deep, &mut subject.journal, 4);
    let listed = refusal(under_test, &subject.file, &mut subject.journal, 6);
    [
        from_empty,
        resumed,
        one_record,
        read,
        listed.saturating_sub(read),
        from_empty.saturating_sub(listed),
        resumed.saturating_sub(listed),
    ]
}

/// The time of the chain of a query from the finished journal, in the buffers of the
/// run from there.
fn time_of_chain(query: Query, subject: &mut Subject) -> Duration {
    subject.put_records(subject.records());
    let begun = Instant::now();
    let given = (query.call)(
        black_box(&subject.file),
        &subject.journal,
        subject.uncut.len(),
        query.count,
        &mut subject.chain,
    );
    let taken = begun.elapsed();
    assert_eq!(given.records, query.records);
    taken
}

/// The fast sibling's stages are called for themselves.
fn times_of_sibling(subject: &mut Subject) -> Times {
    let [from_empty, resumed, one_record] = whole_runs(fast::run, subject);
    let begun = Instant::now();
    let parsed = fast::read(black_box(&subject.file)).expect("the file is accepted");
    let read = begun.elapsed();
    let list = fast::list(&parsed).expect("the file is accepted");
    let listed = begun.elapsed();
    [
        from_empty,
        resumed,
        one_record,
        read,
        listed - read,
        closure(&list, subject, 0),
        closure(&list, subject, subject.records()),
    ]
}

/// From empty, from the finished journal, and for one record; after a run that
/// does not count, since the caches held another file.
fn whole_runs(run: Run, subject: &mut Subject) -> [Duration; 3] {
    let all = subject.records();
    whole_run(run, subject, 0, all);
    [
        whole_run(run, subject, 0, all),
        whole_run(run, subject, all, all),
        whole_run(run, subject, 0, 1),
    ]
}

/// The time of a run from so many records to so many; it must leave the uncut
/// journal's.
fn whole_run(run: Run, subject: &mut Subject, from: usize, to: usize) -> Duration {
    subject.put_records(from);
    let call = Call {
        file: &subject.file,
        used: RECORD * from,
        limit: to - from,
    };
    let taken = time(run, call, &mut subject.journal, &mut subject.answers, 0);
    assert!(subject.has_records(to), "another journal");
    taken
}

/// The time of a run that is refused for its file or for want of room.
fn refusal(run: Run, file: &[u8], journal: &mut [u8], code: usize) -> Duration {
    let call = Call {
        file,
        used: 0,
        limit: 0,
    };
    time(run, call, &mut journal[..0], &mut [], code)
}

struct Call<'a> {
    file: &'a [u8],
    used: usize,
    limit: usize,
}

/// The time of a run that ends with this code. All runs are called from here and
/// on the same buffers, so that they have the same places in memory.
#[inline(never)]
fn time(run: Run, call: Call, journal: &mut [u8], answers: &mut [u8], code: usize) -> Duration {
    let begun = Instant::now();
    let report = run(
        black_box(call.file),
        journal,
        call.used,
        call.limit,
        answers,
    );
    let taken = begun.elapsed();
    assert_eq!(report.code, code);
    taken
}

/// The time of the fast sibling's closure from so many records to the end.
fn closure(list: &fast::List, subject: &mut Subject, from: usize) -> Duration {
    subject.put_records(from);
    let begun = Instant::now();
    black_box(fast::close(
        list,
        &mut subject.journal,
        RECORD * from,
        usize::MAX,
    ));
    begun.elapsed()
}

fn summary(times: impl Iterator<Item = Duration>) -> Time {
    let mut times: Vec<f64> = times.map(|time| time.as_secs_f64() * 1e6).collect();
    times.sort_by(f64::total_cmp);
    let at = |quarters: usize| times[(times.len() - 1) * quarters / 4];
    Time {
        median: at(2),
        spread: (at(3) - at(1)) / 2.0,
    }
}
