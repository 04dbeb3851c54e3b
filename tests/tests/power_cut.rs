//! What stands on the disk where the power goes in the middle of a call.
//!
//! The program works in a file system that is itself a file. Right after each
//! system call of its write it is stopped, and that file is read: what the file
//! system had not written to it by then is missing, as after a power cut. A copy is
//! mounted, and what is found there is judged. One more test reads from a log in
//! which order the system calls come.
//!
//! Where nothing can be mounted, that is noted as left out.
#![cfg(feature = "proved")]

use against::journals::{self, RECORD};
use against::machine::{call_name, is_tested};
use against::made_up;
use against::night::{has_strace, leave_out, NIGHT, RESERVED as NEW};
use against::rng::Rng;
use against::workspace::program;
use second::fast;
use std::env;
use std::fs::{self, File};
use std::io::{self, Write};
use std::os::unix::fs::{chown, MetadataExt, PermissionsExt};
use std::path::{Path, PathBuf};
use std::process::{Child, Command, Stdio};
use std::rc::Rc;
use std::sync::atomic::{AtomicUsize, Ordering};
use std::sync::OnceLock;
use std::thread::sleep;
use std::time::{Duration, Instant};

/// The system calls after which the program is stopped, but for fsync.
const CALLS: &str = "openat,unlink,fchown,fchmod,write,linkat,rename";

/// How a file system may be late. Bytes come to the disk last of all: first the
/// file is empty there, or it has its length and anything in it. Names come late
/// too, or at once.
const LATE: [&str; 4] = [
    "data=ordered,noauto_da_alloc",
    "data=writeback,nodelalloc",
    "data=ordered,noauto_da_alloc,dirsync",
    "data=writeback,nodelalloc,dirsync",
];

const NEITHER: &str = "neither the old journal nor the new one";
const EARLY: &str = "the answers are out, and the journal is not the new one";
const NOWHERE: &str = "the old bytes are nowhere";

/// Prints a line that is seen also where the test passes.
fn say(line: &str) {
    let _ = writeln!(io::stdout(), "{line}");
}

fn runs(command: &mut Command) -> bool {
    let ended = command.output();
    ended.is_ok_and(|ended| ended.status.success())
}

/// Whether a file system in a file can be mounted. If not, this is noted once.
fn can_mount() -> bool {
    static CAN: OnceLock<bool> = OnceLock::new();
    *CAN.get_or_init(|| {
        let mounts = |late| Disk::new(&Room::new(), late).is_some();
        let can = LATE.into_iter().all(mounts);
        if !can {
            leave_out("mke2fs or leave to mount: what a power cut leaves was not looked at");
        }
        can
    })
}

/// A folder of its own for all that a test makes, removed at the end.
struct Room(PathBuf);

impl Room {
    fn new() -> Room {
        let name = format!("power-cut-{}-{}", std::process::id(), count());
        let path = env::temp_dir().join(name);
        fs::create_dir(&path).expect("a new folder");
        Room(path)
    }
}

impl Drop for Room {
    fn drop(&mut self) {
        let _ = fs::remove_dir_all(&self.0);
    }
}

/// Another number each time.
fn count() -> usize {
    static COUNT: AtomicUsize = AtomicUsize::new(0);
    COUNT.fetch_add(1, Ordering::Relaxed)
}

/// A file system in a file, mounted until this is dropped.
struct Disk {
    image: PathBuf,
    place: PathBuf,
}

impl Disk {
    /// A new one with nothing in it, or none where this is not allowed.
    fn new(room: &Room, late: &str) -> Option<Disk> {
        let image = room.0.join("image");
        let mut make = Command::new("mke2fs");
        make.args(["-q", "-F", "-t", "ext4", "-b", "1024"]);
        make.args(["-E", "lazy_itable_init=0,lazy_journal_init=0"]);
        let made = runs(make.arg(&image).arg("4M"));
        let options = format!("loop,commit=300,{late}");
        made.then(|| Disk::mount(image, &options)).flatten()
    }

    /// What the power cut left, mounted as after a start of the machine.
    fn again(room: &Room, bytes: &[u8]) -> Disk {
        let image = room.0.join(format!("image-{}", count()));
        fs::write(&image, bytes).expect("a copy");
        Disk::mount(image, "loop").expect("the copy is mounted")
    }

    fn mount(image: PathBuf, options: &str) -> Option<Disk> {
        let place = image.with_extension("mounted");
        fs::create_dir(&place).expect("a new folder");
        let mut mount = Command::new("mount");
        let mounted = runs(mount.args(["-o", options]).arg(&image).arg(&place));
        mounted.then_some(Disk { image, place })
    }
}

impl Drop for Disk {
    fn drop(&mut self) {
        // A process that another test just started may hold a file for a moment.
        for count in 0..100 {
            let how: &[&str] = if count < 99 { &[] } else { &["-l"] };
            if runs(Command::new("umount").args(how).arg(&self.place)) {
                break;
            }
            sleep(Duration::from_millis(20));
        }
        let _ = fs::remove_dir(&self.place);
        let _ = fs::remove_file(&self.image);
    }
}

/// Forces a file or a folder to the disk.
fn force(path: &Path) {
    let file = File::open(path).expect("it is there");
    file.sync_all().expect("it is on the disk");
}

/// Puts a file with its bytes and its name on the disk.
fn put(path: &Path, bytes: &[u8]) {
    fs::write(path, bytes).expect("a file");
    force(path);
    force(path.parent().expect("a folder"));
}

/// What stands in the journal's place before a call.
#[derive(Clone, Copy, Debug, PartialEq)]
enum Before {
    Nothing,
    /// Half of a journal, the last record torn, and what a cut call was writing.
    Half,
    Finished,
    /// The journal of another policy.
    Another,
    /// The same, written a moment ago, and not on the disk yet.
    Fresh,
    /// The same, and beside it a saved journal with the same bytes.
    FreshTwice,
}

impl Before {
    const ALL: [Before; 6] = [
        Before::Nothing,
        Before::Half,
        Before::Finished,
        Before::Another,
        Before::Fresh,
        Before::FreshTwice,
    ];

    fn is_fresh(self) -> bool {
        matches!(self, Before::Fresh | Before::FreshTwice)
    }

    /// Whether whole records are dropped, and the old bytes to be saved.
    fn saves(self) -> bool {
        self == Before::Another || self.is_fresh()
    }
}

/// The owner, the group and the mode of the half journal.
const OWNER: (u32, u32, u32) = (1, 2, 0o640);

/// A call, and what the second program says of it.
struct Case<'p> {
    policy: &'p [u8],
    before: Before,
    old: Option<Vec<u8>>,
    new: Vec<u8>,
    limit: usize,
}

impl<'p> Case<'p> {
    fn new(policy: &'p [u8], other: &[u8], before: Before) -> Case<'p> {
        let uncut = journals::finished(policy);
        let half = uncut.len() / RECORD / 2 * RECORD + 4;
        let old = match before {
            Before::Nothing => None,
            Before::Half => Some(uncut[..half].to_vec()),
            Before::Finished => Some(uncut),
            _ => Some(journals::finished(other)),
        };
        let limit = if before == Before::Half { 5 } else { 4_096 };
        let (_, new) = second(policy, old.as_deref().unwrap_or_default(), limit);
        Case {
            policy,
            before,
            old,
            new,
            limit,
        }
    }

    /// Puts the files of the call into a folder.
    fn put(&self, place: &Path) {
        put(&place.join("policy"), self.policy);
        let Some(old) = &self.old else { return };
        let journal = &place.join("journal");
        match self.before {
            Before::Half => {
                put(&place.join(NEW), &self.new[..30]);
                put(journal, old);
                let mode = PermissionsExt::from_mode(OWNER.2);
                fs::set_permissions(journal, mode).expect("a mode");
                // Only root may do this; without it nothing can be mounted either.
                let _ = chown(journal, Some(OWNER.0), Some(OWNER.1));
                force(journal);
            }
            Before::Fresh => fs::write(journal, old).expect("a journal"),
            Before::FreshTwice => {
                fs::write(journal, old).expect("a journal");
                fs::write(place.join("journal.saved-1"), old).expect("a journal");
            }
            _ => put(journal, old),
        }
    }

    /// What is wrong with what the power cut would leave at this moment.
    fn wrong(&self, moment: &Moment) -> Option<&'static str> {
        let found = &moment.found;
        let is_new = found.journal.as_ref() == Some(&self.new);
        let is_old = found.journal == self.old;
        let fresh = self.before.is_fresh();
        let is_saved = || self.old.iter().all(|old| found.saved.contains(old));
        // What nobody had forced to the disk may be lost, until it is replaced.
        if !fresh && !is_old && !is_new {
            return Some(NEITHER);
        }
        if !moment.text.is_empty() && !is_new {
            return Some(EARLY);
        }
        if !on_record(self.policy, found.journal.as_deref(), &moment.text) {
            return Some("a yes is out, and it is not on record");
        }
        if self.before.saves() && is_new && !is_saved() {
            return Some(NOWHERE);
        }
        let owned = self.before != Before::Half || found.owner == Some(OWNER);
        (!owned).then_some("another owner or mode")
    }
}

/// The answers and the journal of a call of the second program.
fn second(policy: &[u8], journal: &[u8], limit: usize) -> (Vec<u8>, Vec<u8>) {
    let (mut records, mut answers) = (vec![0; RECORD * 4_096], vec![0; 1_024]);
    let used = journal.len();
    records[..used].copy_from_slice(journal);
    let report = fast::run(policy, &mut records, used, limit, &mut answers);
    assert_eq!(report.code, 0, "the policy is refused");
    records.truncate(report.used);
    (answers, records)
}

/// Whether each yes of a text is on record in the journal.
fn on_record(policy: &[u8], journal: Option<&[u8]>, text: &str) -> bool {
    let (recorded, _) = second(policy, journal.unwrap_or_default(), 0);
    let yes = text.lines().filter_map(|line| line.strip_suffix(" yes"));
    let mut numbers = yes.map(|count| count.parse::<usize>().expect("a number"));
    numbers.all(|number| recorded[number - 1] == 1)
}

/// What a power cut left.
struct Found {
    journal: Option<Vec<u8>>,
    saved: Vec<Vec<u8>>,
    owner: Option<(u32, u32, u32)>,
}

impl Found {
    fn at(place: &Path) -> Found {
        let journal = place.join("journal");
        let owner = |file: fs::Metadata| (file.uid(), file.gid(), file.mode() & 0o7777);
        let names = fs::read_dir(place).expect("a folder");
        let paths = names.map(|entry| entry.expect("an entry").path());
        let saved = paths.filter(|path| path.to_string_lossy().contains("journal.saved-"));
        Found {
            journal: fs::read(&journal).ok(),
            saved: saved.map(|path| fs::read(path).expect("a file")).collect(),
            owner: fs::metadata(journal).ok().map(owner),
        }
    }
}

/// The program, called on the files of a folder.
fn call(place: &Path, limit: usize) -> [PathBuf; 5] {
    let (policy, journal) = (place.join("policy"), place.join("journal"));
    let limit = limit.to_string().into();
    [program("brimusket"), "night".into(), policy, journal, limit]
}

/// A call after the power cut finishes the journal, as if nothing had been.
fn finishes(case: &Case, place: &Path) {
    let [program, words @ ..] = call(place, 4_096);
    let said = Command::new(program).args(words).output().expect("it runs");
    assert!(said.status.success(), "{said:?}");
    let text = String::from_utf8(said.stdout).expect("a text");
    let left = Found::at(place);
    assert!(on_record(case.policy, left.journal.as_deref(), &text));
    assert!(left.journal == Some(journals::finished(case.policy)));
    assert!(!place.join(NEW).exists());
    let saved = case.old.iter().filter(|_| case.before.saves());
    assert!(case.before.is_fresh() || left.saved.iter().eq(saved));
}

/// The call under strace, with its answers in the file `answers`.
fn traced(room: &Room, place: &Path, limit: usize, words: &[String]) -> Command {
    let mut command = Command::new("strace");
    command.arg("-f").arg("-o").arg(room.0.join("log"));
    command.args(words).args(call(place, limit));
    let answers = File::create(room.0.join("answers")).expect("a file");
    command.stdout(answers).stderr(Stdio::null());
    // Cargo sets it, and the loader would then look in many folders.
    command.env_remove("LD_LIBRARY_PATH");
    command
}

/// A call that stops right after each system call of [`CALLS`] and each fsync.
struct Stops {
    strace: Child,
    log: PathBuf,
    count: usize,
}

impl Stops {
    /// One of the forces may be left out: the program takes it for done.
    fn start(room: &Room, disk: &Disk, limit: usize, left_out: Option<usize>) -> Stops {
        let calls: Vec<&str> = CALLS.split(',').map(call_name).collect();
        let calls = calls.join(",");
        let stop = |calls: &str| format!("--inject={calls}:signal=SIGSTOP");
        let fsync = match left_out {
            Some(count) => format!("--inject=fsync:retval=0:when={count}"),
            None => stop("fsync"),
        };
        let trace = format!("--trace={calls},fsync");
        let mut command = traced(room, &disk.place, limit, &[trace, stop(&calls), fsync]);
        Stops {
            strace: command.spawn().expect("strace runs"),
            log: room.0.join("log"),
            count: 0,
        }
    }

    fn log(&self) -> String {
        fs::read_to_string(&self.log).unwrap_or_default()
    }

    /// The process of the program, in the log's first line.
    fn process(log: &str) -> &str {
        log.split_whitespace().next().unwrap_or_default()
    }

    /// How often it has stopped. An emulator has another thread, which stops too.
    fn stopped(&self) -> usize {
        let log = self.log();
        let process = Stops::process(&log);
        let stops = log
            .lines()
            .filter(|line| line.contains("--- stopped by SIGSTOP ---"));
        stops.filter(|line| Stops::process(line) == process).count()
    }

    /// Waits until the program has stopped once more; false where it has ended.
    fn stops(&mut self) -> bool {
        let start = Instant::now();
        loop {
            let ended = self.strace.try_wait().expect("strace is ours");
            let count = self.stopped();
            if count > self.count || ended.is_some() {
                self.count = count;
                let failed = ended.is_some_and(|status| !status.success());
                assert!(!failed, "{}", self.log());
                return ended.is_none();
            }
            let waits = start.elapsed() < Duration::from_secs(30);
            assert!(waits, "it neither stops nor ends");
            sleep(Duration::from_micros(500));
        }
    }

    /// The name of the system call after which it stopped.
    fn after(&self) -> String {
        let log = self.log();
        let lines = log.lines().rev();
        let calls = lines.filter(|line| !line.contains("--- "));
        let call = calls.filter_map(|line| line.split_once('(')).next();
        let (words, _) = call.expect("a system call");
        words.split_whitespace().last().expect("a name").into()
    }

    fn send(&self, signal: &str) {
        let log = self.log();
        let process = Stops::process(&log);
        runs(Command::new("sh").args(["-c", "kill -$0 $1", signal, process]));
    }
}

impl Drop for Stops {
    fn drop(&mut self) {
        if self.strace.try_wait().is_ok_and(|ended| ended.is_none()) {
            self.send("KILL");
            let _ = self.strace.wait();
        }
    }
}

/// A moment of a call: the system call before it, what is printed by then, and what
/// a power cut would leave.
struct Moment {
    after: String,
    text: String,
    found: Rc<Found>,
}

/// All moments of one call. What is left at each of them is finished by another
/// call, unless a force was left out.
fn moments(case: &Case, late: &str, left_out: Option<usize>) -> Vec<Moment> {
    let room = Room::new();
    let disk = Disk::new(&room, late).expect("it was mounted before");
    case.put(&disk.place);
    let mut call = Stops::start(&room, &disk, case.limit, left_out);
    let mut moments: Vec<Moment> = Vec::new();
    let mut before = Vec::new();
    loop {
        let goes_on = call.stops();
        let image = fs::read(&disk.image).expect("the image");
        let found = match moments.last() {
            Some(last) if image == before => last.found.clone(),
            _ => Rc::new(look(&room, &image, case, left_out.is_none())),
        };
        before = image;
        let text = fs::read_to_string(room.0.join("answers")).expect("the answers");
        let after = call.after();
        moments.push(Moment { after, text, found });
        if !goes_on {
            return moments;
        }
        call.send("CONT");
    }
}

/// Mounts what a power cut left, and looks at it.
fn look(room: &Room, image: &[u8], case: &Case, sound: bool) -> Found {
    let disk = Disk::again(room, image);
    let found = Found::at(&disk.place);
    if sound {
        finishes(case, &disk.place);
    }
    found
}

/// The night's policy, and one with a long journal.
fn policies() -> [Vec<u8>; 2] {
    let mut rng = Rng::new(81);
    let made = (0..1_000).map(|_| made_up::large(&mut rng));
    let long = |policy: &Vec<u8>| {
        let (answers, records) = second(policy, &[], 4_096);
        records.len() > 1_000 * RECORD && answers.contains(&1)
    };
    let mut accepted = made.filter(|policy| !journals::finished(policy).is_empty());
    [NIGHT.to_vec(), accepted.find(long).expect("a long one")]
}

/// Judges each moment of one call: the names of its system calls, and how many
/// images were mounted.
fn judge(case: &Case, late: &str) -> (Vec<String>, usize) {
    let mut moments = moments(case, late, None);
    for moment in &moments {
        let (what, after) = (case.before, &moment.after);
        let wrong = case.wrong(moment);
        assert_eq!(wrong, None, "{what:?}, {late}, after {after}");
    }
    let [first, .., last] = moments.as_slice() else {
        panic!("it never stopped");
    };
    assert!(first.text.is_empty() && !last.text.is_empty());
    let names = moments.iter().map(|moment| moment.after.clone()).collect();
    moments.dedup_by(|one, other| Rc::ptr_eq(&one.found, &other.found));
    (names, moments.len())
}

/// Judges all cases with these ways of being late.
fn judge_all(ways: &[&str], what: &str) {
    if !has_strace() || !can_mount() {
        return;
    }
    let [night, long] = policies();
    let (mut seen, mut images, mut calls, mut row) = (Vec::new(), 0, 0, 0..);
    for before in Before::ALL {
        for late in ways {
            for (policy, other) in [(&night, &long), (&long, &night)] {
                if !row.next().is_some_and(is_tested) {
                    continue;
                }
                let (names, mounted) = judge(&Case::new(policy, other, before), late);
                seen.extend(names);
                images += mounted;
                calls += 1;
            }
        }
    }
    for name in CALLS.split(',').chain(["fsync"]) {
        assert!(seen.iter().any(|seen| seen == call_name(name)), "no {name}");
    }
    say(&format!(
        "power_cut: {what}: {} moments of {calls} calls, {images} images mounted and finished: the old journal or the new one, \
         each printed yes on record, no old bytes lost",
        seen.len()
    ));
}

#[test]
fn a_power_cut_at_any_moment_loses_nothing_where_names_come_late() {
    judge_all(&LATE[..2], "names come late");
}

#[test]
fn a_power_cut_at_any_moment_loses_nothing_where_names_come_at_once() {
    judge_all(&LATE[2..], "names come at once");
}

/// Whether it is seen in one of three attempts: whoever has all disks written just
/// then, anywhere on the machine, spoils one.
fn is_seen(attempt: impl Fn() -> bool) -> bool {
    (0..3).any(|_| attempt())
}

#[test]
fn what_is_not_forced_to_the_disk_is_not_in_a_copy_of_it() {
    if !can_mount() {
        return;
    }
    for late in LATE {
        let seen = is_seen(|| {
            let room = Room::new();
            let disk = Disk::new(&room, late).expect("it was mounted before");
            put(&disk.place.join("forced"), NIGHT);
            fs::write(disk.place.join("late"), NIGHT).expect("a file");
            let copy = Disk::again(&room, &fs::read(&disk.image).expect("the image"));
            let found = |name| fs::read(copy.place.join(name)).unwrap_or_default();
            assert!(found("forced") == NIGHT);
            found("late") != NIGHT
        });
        assert!(seen, "{late} is never late");
    }
}

#[test]
fn a_force_that_is_left_out_is_noticed() {
    if !has_strace() || !can_mount() {
        return;
    }
    let [night, long] = policies();
    // Which force is left out: the new file's is the first, the folder's the last.
    let rows = [
        (1, Before::Nothing, NEITHER, &LATE[..]),
        (1, Before::Half, NEITHER, &LATE[..]),
        (1, Before::Another, NEITHER, &LATE[..]),
        (2, Before::Nothing, EARLY, &LATE[..2]),
        (2, Before::Half, EARLY, &LATE[..2]),
        (4, Before::Another, EARLY, &LATE[..2]),
        (2, Before::Fresh, NOWHERE, &LATE[..]),
        (3, Before::FreshTwice, NOWHERE, &LATE[..]),
    ];
    let (mut calls, mut row) = (0, 0..);
    for (left_out, before, wrong, ways) in rows {
        let case = Case::new(&night, &long, before);
        for late in ways {
            if !row.next().is_some_and(is_tested) {
                continue;
            }
            let notices = |moment: &Moment| case.wrong(moment) == Some(wrong);
            let seen = is_seen(|| moments(&case, late, Some(left_out)).iter().any(notices));
            assert!(seen, "{before:?}, {late}, without force {left_out}");
            calls += 1;
        }
    }
    say(&format!(
        "power_cut: {calls} calls with one force left out: an image shows each"
    ));
}

/// What a line of the log does, where its place in the order matters. The lock's
/// descriptor is given as it is shown.
fn step(line: &str, place: &str, lock: &str) -> Option<&'static str> {
    let (name, words) = line.split_once('(')?;
    let of_folder = words.contains(&format!("<{place}>"));
    let of = |file: &str| words.contains(&format!("<{place}/{file}>"));
    Some(match name {
        _ if words.contains("= -1 ") => return None,
        "flock" if words.contains("LOCK_UN") => "unlock",
        "flock" if of_folder => "lock",
        "close" if of_folder && words.starts_with(lock) => "unlock",
        "exit_group" => "unlock",
        "openat" | "read" if of("policy") => "read the policy",
        "openat" | "read" if of("journal") => "read the journal",
        "openat" | "fchown" | "fchmod" | "write" if of(NEW) => "write the new file",
        "fsync" if of(NEW) => "force the new file",
        "fsync" if of("journal") => "force the old file",
        "fsync" if of("journal.saved-1") => "force the saved file",
        "fsync" if of_folder => "force the folder",
        "linkat" => "save",
        _ if name == call_name("rename") => "replace",
        "write" if words.contains("/answers>") => "print",
        _ => return None,
    })
}

/// The steps of a call, each once where it is made several times in a row.
fn steps(case: &Case) -> Vec<&'static str> {
    let room = Room::new();
    let place = room.0.canonicalize().expect("a folder").join("place");
    fs::create_dir(&place).expect("a new folder");
    case.put(&place);
    assert!(runs(&mut traced(&room, &place, case.limit, &["-y".into()])));
    let log = fs::read_to_string(room.0.join("log")).expect("a log");
    let lines = log.lines().filter_map(|line| line.split_once(' '));
    let lines: Vec<&str> = lines.map(|(_, call)| call.trim_start()).collect();
    let locked = lines.iter().find_map(|line| line.strip_prefix("flock("));
    let descriptor = locked.and_then(|words| words.split('<').next());
    let lock = format!("{}<", descriptor.expect("a lock"));
    let place = place.display().to_string();
    let steps = lines.iter().filter_map(|line| step(line, &place, &lock));
    let mut steps: Vec<&str> = steps.collect();
    steps.dedup();
    steps
}

#[test]
fn the_system_calls_come_in_the_order_that_a_power_cut_asks_for() {
    if !has_strace() {
        return;
    }
    let [night, long] = policies();
    for before in Before::ALL {
        // A journal that is there is read once more before it is saved or replaced.
        let look = ["read the journal"]
            .iter()
            .filter(|_| before != Before::Nothing);
        let mut order = vec!["lock", "read the policy"];
        order.extend(look.clone());
        order.extend(["write the new file", "force the new file"]);
        order.extend(look.clone());
        if before.saves() {
            let save = match before {
                Before::FreshTwice => "force the saved file",
                _ => "save",
            };
            order.extend(["force the old file", save, "force the folder"]);
            order.extend(look);
        }
        order.extend(["replace", "force the folder", "read the journal"]);
        order.extend(["print", "unlock"]);
        let case = Case::new(&night, &long, before);
        assert_eq!(steps(&case), order, "{before:?}");
    }
    say("power_cut: 6 calls, their system calls in order from the lock to the answers");
}
