//! Real faults on the night program: kills, cuts, old bytes, system calls that
//! fail, many callers at once.
//!
//! After every call the second program reads the journal file: each printed yes
//! must be on record there, the file must be the old one or the whole new one, and
//! what the new one does not keep must stand in one saved file. Where strace is
//! missing, the tests that need it fail, unless WITHOUT_STRACE is set.
#![cfg(feature = "proved")]

use against::journals::{self, RECORD};
use against::machine::{call_name, every, is_tested, share, slowness};
use against::night::{
    ended, expected, goes_through, has_strace, is_root, leave_out, policies, stale, started,
    traced, with_fault, yes_on_record, Dropped, Expected, Folder, Told, MOST, NIGHT,
};
use against::rng::Rng;
use second::slow::Policy;
use std::fs;
use std::io::Read;
use std::os::unix::fs::chown;
use std::os::unix::process::ExitStatusExt;
use std::process::Child;
use std::thread::sleep;
use std::time::{Duration, Instant};

/// Ends the child after the delay, and gives back what it had printed.
fn killed_after(mut child: Child, delay: Duration) -> (bool, Vec<u8>) {
    let start = Instant::now();
    if delay > Duration::from_micros(400) {
        sleep(delay - Duration::from_micros(300));
    }
    while start.elapsed() < delay {
        std::hint::spin_loop();
    }
    let _ = child.kill();
    let status = child.wait().expect("it ends");
    let mut text = Vec::new();
    let mut pipe = child.stdout.take().expect("a pipe");
    pipe.read_to_end(&mut text).expect("what it printed");
    (status.signal().is_some(), text)
}

/// The file is the old journal or the whole new one, and what is not kept stands
/// in one saved file as soon as the new one is there.
fn is_old_or_new(folder: &Folder, policy: &[u8], old: &[u8], limit: usize) -> Expected {
    let whole = expected(policy, old, limit);
    let (kept, copies) = (folder.kept(), folder.copies(old));
    assert!(kept == old || kept == whole.journal, "neither old nor new");
    assert!(copies <= 1, "{copies} copies");
    let is_lost = whole.dropped == Dropped::More && kept != old && copies == 0;
    assert!(!is_lost, "the old bytes are lost");
    whole
}

/// A call that is ended after the delay: whether it was killed, and how many yes
/// lines it had printed.
fn killed_call(folder: &Folder, policy: &[u8], limit: usize, delay: usize) -> (bool, usize) {
    let old = folder.kept();
    let child = started(folder.call().arg(limit.to_string()));
    let (killed, text) = killed_after(child, Duration::from_micros(delay as u64));
    is_old_or_new(folder, policy, &old, limit);
    (killed, yes_on_record(&text, policy, &folder.kept()))
}

/// Any start of the uncut journal, or now and then a spoiled one.
fn any_start(rng: &mut Rng, uncut: &[u8]) -> Vec<u8> {
    let mut start = uncut[..rng.below(uncut.len())].to_vec();
    if rng.once_in(2) {
        let listed = uncut.len() / RECORD;
        journals::spoil(rng, &mut start, listed);
    }
    start
}

#[test]
fn a_call_killed_at_any_moment_leaves_the_old_journal_or_the_new_one() {
    let mut rng = Rng::new(71);
    let (mut calls, mut yes, mut ends) = (0, 0, 0);
    for policy in policies(&mut rng) {
        let folder = Folder::with(&policy);
        let uncut = journals::finished(&policy);
        // About twice as long as a call takes: it grows with each kill, and
        // shrinks with each call that came through.
        let (mut most, mut kills) = (4_000 * slowness(), 0);
        while kills < share(60).max(30) {
            let limit = rng.below(1 + uncut.len() / RECORD / 4);
            let (killed, printed) = killed_call(&folder, &policy, limit, rng.below(most));
            yes += printed;
            let step = most / 20;
            most = if killed { most + step } else { most - step };
            kills += usize::from(killed);
            calls += 1;
            assert!(calls < 4_000, "the program is never killed in time");
            if expected(&policy, &folder.kept(), 0).finished {
                ends += 1;
                folder.set(&any_start(&mut rng, &uncut));
            }
        }
        folder.set(&uncut[..uncut.len() / 2]);
        yes += goes_through(&folder, MOST);
        assert!(folder.kept() == uncut, "another finished journal");
    }
    assert!(yes > 0 && ends > 0, "{yes} yes, {ends} ends");
}

/// From every cut of a journal a short call and a long one leave the bytes of the uncut one.
fn grows_from_any_cut(policy: &[u8], rng: &mut Rng) {
    let folder = Folder::with(policy);
    let uncut = journals::finished(policy);
    for cut in (0..=uncut.len().min(160)).step_by(every()) {
        folder.set(&uncut[..cut]);
        goes_through(&folder, rng.below(3));
        goes_through(&folder, MOST);
        assert!(folder.kept() == uncut, "another finished journal");
    }
    assert!(folder.saved().is_empty(), "a torn record was saved");
}

#[test]
fn a_journal_truncated_at_any_byte_grows_to_the_same_bytes() {
    let mut rng = Rng::new(72);
    grows_from_any_cut(&policies(&mut rng)[0], &mut rng);
}

#[test]
fn another_journal_truncated_at_any_byte_grows_to_the_same_bytes() {
    let mut rng = Rng::new(72);
    grows_from_any_cut(&policies(&mut rng)[1], &mut rng);
}

/// Old bytes as a disk may give them back.
fn old_bytes(rng: &mut Rng, count: usize, bytes: &[u8], others: &[Vec<u8>]) -> Vec<u8> {
    let policy = Policy::read(bytes).expect("an accepted file");
    let mut old = journals::any(rng, &policy, &journals::finished(bytes));
    match count % 4 {
        0 => old = journals::finished(&others[rng.below(others.len())]),
        1 => {
            let length = rng.below(MOST);
            old.extend(rng.bytes(length));
        }
        2 => old.resize(MOST, 0),
        _ => {}
    }
    old.truncate(MOST);
    old
}

#[test]
fn a_journal_of_old_bytes_is_read_saved_and_replaced() {
    let mut rng = Rng::new(73);
    let policies = policies(&mut rng);
    for bytes in &policies[..3] {
        let folder = Folder::with(bytes);
        for count in (0..30).filter(|count| is_tested(*count)) {
            let old = old_bytes(&mut rng, count, bytes, &policies);
            folder.set(&old);
            fs::write(folder.reserved(), &old).expect("what a crash left");
            goes_through(&folder, rng.below(30));
            goes_through(&folder, MOST);
        }
        assert!(folder.saved().len() > share(5), "old bytes were saved");
    }
}

// ---------------------------------------------------------------------------
// System calls
// ---------------------------------------------------------------------------

/// The system calls by which the program works on files.
const CALLS: [&str; 18] = [
    "readlink",
    "openat",
    "flock",
    "statx",
    "newfstatat",
    "read",
    "lseek",
    "chdir",
    "fcntl",
    "unlink",
    "fchown",
    "fchmod",
    "write",
    "fsync",
    "getdents64",
    "linkat",
    "rename",
    "close",
];

/// A folder whose journal is another's, where root runs the test: then each system
/// call of the program is on the way.
fn anothers(old: &[u8]) -> Folder {
    let folder = Folder::night(old);
    if is_root() {
        chown(folder.journal(), Some(65_534), Some(65_534)).expect("another owner");
    } else {
        leave_out("root: what a call leaves that fails to give the owner");
    }
    folder
}

/// The system calls of a whole call, from the first that works on the journal's
/// name: each with its count among those of its name.
fn calls_of_main(old: &[u8]) -> Vec<(&'static str, usize)> {
    let folder = anothers(old);
    let (_, log) = traced(&folder, &[], 9);
    let mut counts = [0; CALLS.len()];
    let (mut calls, mut in_main) = (Vec::new(), false);
    for line in log.lines() {
        let name = line.split('(').next().unwrap_or_default();
        in_main |= name == call_name("readlink") && line.contains("journal");
        let Some(at) = CALLS.iter().position(|call| call_name(call) == name) else {
            continue;
        };
        counts[at] += 1;
        if in_main {
            calls.push((CALLS[at], counts[at]));
        }
    }
    assert!(calls.len() > 30, "{log}");
    calls
}

/// What a call in which a system call failed may tell.
fn is_told(said: &Told, whole: &Expected, folder: &Folder, old: &[u8]) {
    for line in said.words.lines() {
        assert!(line.starts_with("brimusket: "), "{line}");
    }
    let as_it_was = said.words.contains("the journal is as it was");
    match said.status {
        Some(0) => assert_eq!(said.text, whole.text),
        Some(2) => assert!(said.text.is_empty() && (as_it_was || folder.kept() == whole.journal)),
        Some(4) => assert!(folder.kept() == whole.journal && !as_it_was),
        None => assert!(said.text.is_empty() || said.text == whole.text),
        status => panic!("{status:?}"),
    }
    assert!(!as_it_was || folder.kept() == old, "{}", said.words);
    let is_left = folder.reserved().exists();
    assert!(said.status.is_none() || !is_left || said.words.contains("remove"));
}

/// A call in which a system call fails, and one more: whether the fault came.
fn fails_and_recovers(old: &[u8], name: &str, error: &str, count: usize) -> bool {
    let folder = anothers(old);
    let (said, log) = with_fault(&folder, 9, name, error, count);
    let whole = is_old_or_new(&folder, NIGHT, old, 9);
    let forced = matches!(name, "fsync" | "rename" | "linkat" | "unlink");
    assert!(said.stdout.is_empty() || !forced, "an answer after {name}");
    yes_on_record(&said.stdout, NIGHT, &folder.kept());
    let said = Told::of(&said);
    is_told(&said, &whole, &folder, old);
    // Only where standard error itself could not be written is nothing said.
    let dropped = whole.dropped == Dropped::More && folder.kept() != old;
    assert!(!dropped || name == "write" || said.words.contains(".saved-1"));
    goes_through(&folder, MOST);
    assert!(folder.copies(old) <= 1, "two copies");
    let kept = folder.kept();
    assert!(kept == expected(NIGHT, old, MOST).journal, "another end");
    log.contains("(INJECTED)") || log.contains("killed by SIGKILL")
}

#[test]
fn a_call_in_which_any_system_call_fails_is_told_and_can_be_made_again() {
    if !has_strace() {
        return;
    }
    let uncut = journals::finished(NIGHT);
    for old in [&uncut[..31], &stale()] {
        let calls = calls_of_main(old);
        let (mut faults, mut row) = (0, 0..);
        for (name, count) in &calls {
            // A close that fails says nothing of bytes that are forced.
            let errors = ["signal=SIGKILL", "error=EIO", "error=ENOSPC"];
            let errors = if *name == "close" {
                &errors[..1]
            } else {
                &errors
            };
            for error in errors {
                if row.next().is_some_and(is_tested) {
                    faults += usize::from(fails_and_recovers(old, name, error, *count));
                }
            }
        }
        assert!(faults > share(2 * calls.len()), "only {faults} faults came");
    }
}

/// The words of a call on this journal whose fsync of this count fails.
fn fsync_fails(folder: &Folder, count: usize) -> String {
    let (said, _) = with_fault(folder, MOST, "fsync", "error=EIO", count);
    let said = Told::of(&said);
    assert_eq!((said.status, said.text.as_str()), (Some(2), ""));
    assert!(!folder.reserved().exists());
    said.words
}

/// What the program calls an fsync.
const FORCE: &str = "fsync";

/// What is said where a file or folder cannot be forced to the disk.
fn not_forced(what: &str, end: &str) -> String {
    format!("brimusket: cannot {what}: Input/output error; {end}\n")
}

#[test]
fn no_answer_is_given_where_the_disk_confirms_nothing() {
    if !has_strace() {
        return;
    }
    let uncut = journals::finished(NIGHT);
    let as_it_was = "the journal is as it was";
    let in_place = "the new journal was put in its place, but that is not sure to last, so no answer is given: call again";
    for (old, last) in [(&uncut[..0], 2), (&uncut, 2), (&stale(), 4)] {
        let folder = Folder::night(old);
        let new = format!("{FORCE} {:?}", folder.reserved());
        let whole = format!("{FORCE} the folder {:?}", folder.path(""));
        let save = format!("save the bytes of {:?}", folder.journal());
        let before = [new, save, whole.clone()];
        for (count, what) in (1..last).zip(&before) {
            assert_eq!(fsync_fails(&folder, count), not_forced(what, as_it_was));
            assert!(folder.kept() == old);
        }
        // A copy that stands there already is forced once more.
        let last = last + usize::from(last == 4);
        let new = expected(NIGHT, old, MOST);
        let words = new.words(&folder, old) + &not_forced(&whole, in_place);
        assert_eq!(fsync_fails(&folder, last), words);
        assert!(folder.kept() == new.journal);
        assert_eq!(folder.copies(old), usize::from(last == 5));
        goes_through(&folder, MOST);
    }
}

// ---------------------------------------------------------------------------
// Many callers
// ---------------------------------------------------------------------------

/// What four callers at once told, the first of them killed after a while.
fn four_callers(folder: &Folder, limit: usize, delay: usize) -> Vec<Told> {
    let start = |_| started(folder.call().arg(limit.to_string()));
    let mut children: Vec<Child> = (0..4).map(start).collect();
    sleep(Duration::from_micros(delay as u64));
    let _ = children[0].kill();
    children.into_iter().map(ended).collect()
}

#[test]
fn many_callers_at_once_leave_one_whole_journal() {
    let mut rng = Rng::new(75);
    let policy = policies(&mut rng).pop().expect("the large one");
    let folder = Folder::with(&policy);
    let uncut = journals::finished(&policy);
    let mut old = journals::finished(NIGHT);
    old.extend(&uncut);
    folder.set(&old);
    let limit = uncut.len() / RECORD / 30;
    for _ in 0..8 {
        for said in four_callers(&folder, limit, rng.below(4_000 * slowness())) {
            yes_on_record(said.text.as_bytes(), &policy, &folder.kept());
            assert!(matches!(said.status, None | Some(0 | 3)), "{said:?}");
        }
        let kept = folder.kept();
        assert!(uncut.starts_with(&kept) && kept.len().is_multiple_of(RECORD));
        assert_eq!(folder.copies(&old), 1);
    }
    goes_through(&folder, MOST);
    assert!(folder.kept() == uncut);
    assert_eq!(folder.saved().len(), 1);
    assert!(!folder.reserved().exists());
}
