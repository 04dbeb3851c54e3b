//! Calls of `brimusket night` in folders of their own, and what the second
//! program expects of them.

use crate::journals::{self, RECORD};
use crate::machine::call_name;
use crate::made_up;
use crate::rng::Rng;
use crate::workspace::{program, root};
use second::fast;
use std::collections::BTreeMap;
use std::env;
use std::ffi::{OsStr, OsString};
use std::fs;
use std::io::Write;
use std::os::unix::ffi::OsStrExt;
use std::os::unix::fs::{MetadataExt, PermissionsExt};
use std::os::unix::process::CommandExt;
use std::path::{Path, PathBuf};
use std::process::{Child, Command, Output, Stdio};
use std::sync::atomic::{AtomicUsize, Ordering};

/// A night's policy in the words of the request.
pub const NIGHT: &[u8] = include_bytes!("../../examples/night.policy");

/// Its answers.
pub const ANSWERS: &str = "1 yes\n2 no\n3 yes\n4 no\n";

/// Bytes of the longest journal.
pub const MOST: usize = RECORD * 4_096;

/// The name that the program keeps for itself.
pub const RESERVED: &str = ".brimusket-new";

// ---------------------------------------------------------------------------
// Folders
// ---------------------------------------------------------------------------

/// A folder of its own, removed at the end.
pub struct Folder(pub PathBuf);

impl Folder {
    pub fn new() -> Folder {
        static COUNT: AtomicUsize = AtomicUsize::new(0);
        let count = COUNT.fetch_add(1, Ordering::Relaxed);
        let name = format!("night-{}-{count}", std::process::id());
        let path = env::temp_dir().join(name);
        fs::create_dir(&path).expect("a new folder");
        set_mode(&path, 0o755);
        Folder(path)
    }

    /// A folder with a policy file in it.
    pub fn with(policy: &[u8]) -> Folder {
        let folder = Folder::new();
        fs::write(folder.policy(), policy).expect("the policy is written");
        folder
    }

    /// A folder with the night's policy and this journal.
    pub fn night(journal: &[u8]) -> Folder {
        let folder = Folder::with(NIGHT);
        folder.set(journal);
        folder
    }

    /// A folder with the night's policy and a journal cut between two records.
    pub fn cut_night() -> Folder {
        Folder::night(&journals::finished(NIGHT)[..2 * RECORD])
    }

    pub fn path(&self, name: impl AsRef<Path>) -> PathBuf {
        self.0.join(name)
    }

    pub fn policy(&self) -> PathBuf {
        self.path("policy")
    }

    pub fn journal(&self) -> PathBuf {
        self.path("journal")
    }

    pub fn reserved(&self) -> PathBuf {
        self.path(RESERVED)
    }

    /// What the journal file holds; a missing one is empty.
    pub fn kept(&self) -> Vec<u8> {
        fs::read(self.journal()).unwrap_or_default()
    }

    pub fn set(&self, journal: &[u8]) {
        fs::write(self.journal(), journal).expect("the journal is written");
    }

    /// The call on the policy and the journal of the folder.
    pub fn call(&self) -> Command {
        night(self.policy(), self.journal())
    }

    /// The call through a shell that first sets something.
    pub fn after(&self, setting: &str) -> Command {
        let mut command = Command::new("sh");
        let text = format!("{setting}; exec \"$@\"");
        command.args(["-c", &text, "sh"]).arg(program("brimusket"));
        command.arg("night").arg(self.policy()).arg(self.journal());
        command.current_dir(&self.0);
        command
    }

    /// The call by a user who may do nothing, where the test is run by root.
    pub fn by_nobody(&self) -> Command {
        let mut command = Command::new(self.copy());
        command.arg("night").arg(self.policy()).arg(self.journal());
        if is_root() {
            command.uid(65_534).gid(65_534);
        }
        command
    }

    /// A copy of the program that everybody may run. Another process makes it: what
    /// this one has open for writing might stay open in a child and not be run.
    fn copy(&self) -> PathBuf {
        let copy = self.path("program");
        let mut command = Command::new("install");
        command.arg(program("brimusket")).arg(&copy);
        assert!(command.status().expect("install runs").success());
        copy
    }

    /// The saved journals, by their names.
    pub fn saved(&self) -> BTreeMap<OsString, Vec<u8>> {
        let files = fs::read_dir(&self.0).expect("the folder is read");
        let names = files.map(|file| file.expect("a file").file_name());
        let saved = names.filter(|name| name.as_bytes().starts_with(b"journal.saved-"));
        saved
            .map(|name| (name.clone(), fs::read(self.path(&name)).expect("a copy")))
            .collect()
    }

    /// How many saved journals hold these bytes.
    pub fn copies(&self, bytes: &[u8]) -> usize {
        self.saved().values().filter(|copy| *copy == bytes).count()
    }

    /// Where these bytes are saved, or will be.
    fn saved_at(&self, bytes: &[u8]) -> PathBuf {
        let saved = self.saved();
        let before = saved.iter().find(|(_, copy)| *copy == bytes);
        let numbers = (1..).map(|count| OsString::from(format!("journal.saved-{count}")));
        let mut free = numbers.filter(|name| !saved.contains_key(name));
        let name = before.map(|(name, _)| name.clone());
        self.path(name.unwrap_or_else(|| free.next().expect("a free number")))
    }

    /// All that stands in the folder, by name.
    pub fn contents(&self) -> BTreeMap<OsString, Found> {
        let files = fs::read_dir(&self.0).expect("the folder is read");
        let found = |file: fs::DirEntry| (file.file_name(), Found::at(&file.path()));
        files.map(|file| found(file.expect("a file"))).collect()
    }
}

impl Default for Folder {
    fn default() -> Folder {
        Folder::new()
    }
}

impl Drop for Folder {
    fn drop(&mut self) {
        let _ = fs::remove_dir_all(&self.0);
    }
}

/// A file as it is found: which one, with which mode and owner, and what it holds
/// or where it leads.
#[derive(Clone, Debug, PartialEq, Eq)]
pub struct Found {
    numbers: [u64; 4],
    bytes: Option<Vec<u8>>,
    target: Option<PathBuf>,
}

impl Found {
    fn at(path: &Path) -> Found {
        let found = fs::symlink_metadata(path).expect("it is there");
        let (mode, user, group) = (found.mode(), found.uid(), found.gid());
        let is_file = found.is_file();
        Found {
            numbers: [found.ino(), mode.into(), user.into(), group.into()],
            bytes: is_file.then(|| fs::read(path).expect("it is read")),
            target: fs::read_link(path).ok(),
        }
    }
}

pub fn is_root() -> bool {
    let id = Command::new("id").arg("-u").output().expect("id runs");
    id.stdout == b"0\n"
}

/// Notes what could not be tested here, and for want of what. The gate says it in
/// its last lines.
pub fn leave_out(what: &str) {
    let target = root().join("target");
    let mut notes = fs::OpenOptions::new();
    let notes = notes
        .append(true)
        .create(true)
        .open(target.join("not-tested"));
    let line = format!("not tested, for want of {what}\n");
    let noted = notes.and_then(|mut notes| notes.write_all(line.as_bytes()));
    noted.expect("target/not-tested is written");
}

/// Gives a file or folder another mode.
pub fn set_mode(path: &Path, bits: u32) {
    fs::set_permissions(path, fs::Permissions::from_mode(bits)).expect("another mode");
}

/// Makes a pipe with this name.
pub fn make_fifo(path: &Path) {
    let made = Command::new("mkfifo").arg(path).status();
    assert!(made.expect("mkfifo runs").success());
}

/// A journal of the night with its second record once more behind the second:
/// from there on all is dropped.
pub fn stale() -> Vec<u8> {
    let uncut = journals::finished(NIGHT);
    [&uncut[..2 * RECORD], &uncut[RECORD..]].concat()
}

/// Four policies: the night's, and three made-up ones of different sizes, each
/// with a yes and more than nine records.
pub fn policies(rng: &mut Rng) -> Vec<Vec<u8>> {
    let mut found = vec![NIGHT.to_vec()];
    for maker in [made_up::lenders, made_up::tangled, made_up::large] {
        let good = |file: &Vec<u8>| {
            let text = expected(file, &[], MOST).text;
            text.contains("yes") && journals::finished(file).len() > 9 * RECORD
        };
        let file = (0..1_000).map(|_| maker(rng)).find(good);
        found.push(file.expect("one with a yes"));
    }
    found
}

// ---------------------------------------------------------------------------
// Calls
// ---------------------------------------------------------------------------

/// A call of the program.
pub fn brimusket(command: &str) -> Command {
    let mut call = Command::new(program("brimusket"));
    call.arg(command);
    call
}

/// A call on these two files.
pub fn night(policy: impl AsRef<OsStr>, journal: impl AsRef<OsStr>) -> Command {
    let mut command = brimusket("night");
    command.arg(policy).arg(journal);
    command
}

/// What a call tells: its status, where it was not killed, what it prints on
/// standard output, and its words on standard error.
#[derive(Clone, Debug, PartialEq, Eq)]
pub struct Told {
    pub status: Option<i32>,
    pub text: String,
    pub words: String,
}

impl Told {
    pub fn new(status: i32, text: &str, words: &str) -> Told {
        Told {
            status: Some(status),
            text: text.into(),
            words: words.into(),
        }
    }

    pub fn of(said: &Output) -> Told {
        Told {
            status: said.status.code(),
            text: String::from_utf8_lossy(&said.stdout).into_owned(),
            words: String::from_utf8_lossy(&said.stderr).into_owned(),
        }
    }
}

pub fn told(command: &mut Command) -> Told {
    Told::of(&command.output().expect("it runs"))
}

/// Starts a call whose outputs are read at its end.
pub fn started(command: &mut Command) -> Child {
    command.stdout(Stdio::piped()).stderr(Stdio::piped());
    command.spawn().expect("it starts")
}

/// What a call that was started has told at its end.
pub fn ended(child: Child) -> Told {
    Told::of(&child.wait_with_output().expect("it ends"))
}

/// The call, with status 124 where it has not ended after ten seconds.
pub fn in_time(call: &Command) -> Command {
    let mut command = Command::new("timeout");
    command.arg("10").arg(call.get_program());
    command.args(call.get_args());
    command
}

/// What is said where something cannot be done to a file or folder.
pub fn cannot(what: &str, path: &Path, why: &str) -> String {
    untouched(&format!("cannot {what} {path:?}: {why}"))
}

/// What is said where something failed and the journal is as it was.
pub fn untouched(what: &str) -> String {
    format!("brimusket: {what}; the journal is as it was\n")
}

/// The call fails: no answer, these words, and all of the folder as it was.
pub fn fails(command: &mut Command, folder: &Folder, words: &str) {
    let old = folder.contents();
    assert_eq!(told(command), Told::new(2, "", words));
    assert!(folder.contents() == old, "something changed: {words}");
}

/// The call goes through on the policy that stands in the folder: text, words and
/// file are as expected, and what is dropped is saved. How many yes it printed.
pub fn goes_through(folder: &Folder, limit: usize) -> usize {
    let policy = fs::read(folder.policy()).expect("the policy");
    let old = folder.kept();
    let whole = expected(&policy, &old, limit);
    let words = whole.words(folder, &old);
    let saved = folder.saved();
    let said = folder.call().arg(limit.to_string()).output();
    let said = said.expect("it runs");
    assert_eq!(Told::of(&said), Told::new(0, &whole.text, &words));
    assert!(folder.kept() == whole.journal, "another journal");
    assert!(!folder.reserved().exists());
    let more = whole.dropped == Dropped::More;
    let is_new = more && !saved.values().any(|copy| *copy == old);
    let count = saved.len() + usize::from(is_new);
    assert_eq!(folder.saved().len(), count, "saved journals");
    assert!(!more || folder.copies(&old) == 1, "no copy");
    yes_on_record(&said.stdout, &policy, &folder.kept())
}

// ---------------------------------------------------------------------------
// What the second program says
// ---------------------------------------------------------------------------

/// What is not kept of a journal.
#[derive(Clone, Copy, Debug, PartialEq, Eq)]
pub enum Dropped {
    Nothing,
    Torn,
    More,
}

/// The text and the words, and the journal as it is left.
pub struct Expected {
    pub text: String,
    pub journal: Vec<u8>,
    pub finished: bool,
    pub kept: usize,
    pub dropped: Dropped,
}

pub fn expected(policy: &[u8], journal: &[u8], limit: usize) -> Expected {
    let mut buffer = journal.to_vec();
    buffer.resize(MOST, 0);
    let queries = policy.split(|byte| *byte == b'\n');
    let mut answers = vec![9; queries.filter(|line| line.starts_with(b"Q")).count()];
    let report = fast::run(policy, &mut buffer, journal.len(), limit, &mut answers);
    if report.code != 0 {
        return Expected {
            text: format!("refused {} {}\n", report.code, report.place),
            journal: journal.to_vec(),
            finished: false,
            kept: 0,
            dropped: Dropped::Nothing,
        };
    }
    buffer.truncate(report.used);
    let lines = answers.iter().zip(1..).map(|(answer, count)| {
        let word = ["no", "yes", "open"][usize::from(*answer)];
        format!("{count} {word}\n")
    });
    Expected {
        text: lines.collect(),
        journal: buffer,
        finished: report.finished,
        kept: report.kept,
        dropped: dropped(&journal[RECORD * report.kept..]),
    }
}

/// What these bytes are, behind what is kept: a torn record has the mark and a
/// rule, as far as it goes.
fn dropped(rest: &[u8]) -> Dropped {
    match rest {
        [] => Dropped::Nothing,
        [b'L'] | [b'L', b'Q'] => Dropped::Torn,
        [b'L', b'Q', 1..=8, ..] if rest.len() < RECORD => Dropped::Torn,
        _ => Dropped::More,
    }
}

impl Expected {
    /// What a call that goes through says on standard error.
    pub fn words(&self, folder: &Folder, old: &[u8]) -> String {
        let (policy, journal) = (folder.policy(), folder.journal());
        let mut words = match self.dropped {
            Dropped::Nothing => String::new(),
            Dropped::Torn => torn(&journal),
            Dropped::More => self.not_kept(&policy, &journal, old, &folder.saved_at(old)),
        };
        if self.text.is_empty() {
            words += &format!("brimusket: {policy:?} asks no question\n");
        }
        words
    }

    /// What is said where whole records or foreign bytes are dropped.
    pub fn not_kept(&self, policy: &Path, journal: &Path, old: &[u8], saved: &Path) -> String {
        let (kept, records) = (self.kept, old.len() / RECORD);
        let byte = kept * RECORD;
        format!(
            "brimusket: keeps {kept} of {records} records of {journal:?}; what stands from byte {byte} on \
             does not follow from {policy:?}. That can mean another policy file, an edited one, or a damaged disk. \
             The old journal stays as {saved:?}\n"
        )
    }
}

/// What is said of a last record that was cut off.
pub fn torn(journal: &Path) -> String {
    format!("brimusket: the last record of {journal:?} was cut off; all before it is kept\n")
}

/// How many whole yes lines the text has; each must be on record in the journal.
pub fn yes_on_record(text: &[u8], policy: &[u8], journal: &[u8]) -> usize {
    let text = String::from_utf8_lossy(text);
    let recorded = expected(policy, journal, 0).text;
    let whole = text.split_inclusive('\n').filter(|l| l.ends_with('\n'));
    let mut count = 0;
    for line in whole.filter(|line| line.ends_with(" yes\n")) {
        let mut lines = recorded.split_inclusive('\n');
        assert!(lines.any(|other| other == line), "not on record: {line}");
        count += 1;
    }
    count
}

// ---------------------------------------------------------------------------
// Under strace
// ---------------------------------------------------------------------------

/// Only under strace is the order of the system calls tested, so it must be here,
/// unless whoever calls the tests knows that it is not.
pub fn has_strace() -> bool {
    if env::var_os("WITHOUT_STRACE").is_some() {
        leave_out("strace: what a failing system call leaves was not looked at");
        return false;
    }
    let mut command = Command::new("strace");
    let traced = command.args(["-o", "/dev/null", "true"]).output();
    let runs = traced.is_ok_and(|output| output.status.success());
    assert!(runs, "strace cannot be run: apt-get install strace");
    true
}

/// The call in the folder under strace with these options, and strace's log.
pub fn traced(folder: &Folder, options: &[&str], limit: usize) -> (Output, String) {
    let log = Folder::new();
    let file = log.path("log");
    let mut command = Command::new("strace");
    command.arg("-o").arg(&file).args(options);
    command.arg(program("brimusket")).arg("night");
    command.arg(folder.policy()).arg(folder.journal());
    command.arg(limit.to_string());
    // Cargo sets it, and the loader would then look in many folders.
    command.env_remove("LD_LIBRARY_PATH");
    let said = command.stdin(Stdio::null()).output();
    let log = fs::read(file).expect("its log");
    let log = String::from_utf8_lossy(&log).into_owned();
    (said.expect("strace runs"), log)
}

/// The call in the folder with a fault at the system call of this name and count.
pub fn with_fault(
    folder: &Folder,
    limit: usize,
    name: &str,
    fault: &str,
    count: usize,
) -> (Output, String) {
    let name = call_name(name);
    let trace = format!("--trace={name}");
    let inject = format!("--inject={name}:{fault}:when={count}");
    traced(folder, &[&trace, &inject], limit)
}
