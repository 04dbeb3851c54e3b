//! The lock of the night program: one call at a time works in a journal's folder.
#![cfg(feature = "proved")]

use against::journals;
use against::night::{
    brimusket, ended, goes_through, has_strace, make_fifo, night, started, told, untouched,
    with_fault, Folder, Told, ANSWERS, MOST, NIGHT,
};
use std::fs::{self, File, TryLockError};
use std::os::unix::fs::symlink;
use std::path::{Path, PathBuf};
use std::process::Child;
use std::thread::{self, sleep};
use std::time::{Duration, Instant};

/// How long the program waits for a lock.
const PATIENCE: Duration = Duration::from_secs(3);

/// Longer than anything takes, also on a busy machine.
const LONG: Duration = Duration::from_secs(30);

fn lock_of(folder: &Path) -> File {
    File::open(folder).expect("the folder opens")
}

/// A call that holds the lock, and waits for its policy. It is killed at the end,
/// where it still waits.
struct Holder {
    child: Option<Child>,
    fifo: PathBuf,
    /// The pipe stands here, apart from the journal.
    _apart: Folder,
}

impl Holder {
    /// Starts the call on this journal, from within the folder, and waits until it
    /// has the lock.
    fn start(folder: &Path, journal: &Path) -> Holder {
        let apart = Folder::new();
        let fifo = apart.path("fifo");
        make_fifo(&fifo);
        let child = started(night(&fifo, journal).current_dir(folder));
        let holder = Holder {
            child: Some(child),
            fifo,
            _apart: apart,
        };
        let start = Instant::now();
        while !matches!(lock_of(folder).try_lock(), Err(TryLockError::WouldBlock)) {
            assert!(start.elapsed() < LONG, "it never takes the lock");
            sleep(Duration::from_millis(1));
        }
        holder
    }

    /// Gives the call its policy, if it takes it, and waits for its end.
    fn feed(mut self) -> Told {
        let fifo = self.fifo.clone();
        thread::spawn(move || fs::write(fifo, NIGHT));
        ended(self.child.take().expect("a call"))
    }
}

impl Drop for Holder {
    fn drop(&mut self) {
        if let Some(child) = &mut self.child {
            let _ = child.kill();
            let _ = child.wait();
        }
    }
}

/// What is said where the lock is held for too long.
fn held(folder: &Path) -> Told {
    let words = format!(
        "brimusket: another call or program holds the lock of the folder {folder:?}, also after 3 seconds; \
         nothing was changed: call again\n"
    );
    Told::new(3, "", &words)
}

#[test]
fn while_one_call_works_no_other_does_in_its_folder() {
    let (folder, other) = (Folder::cut_night(), Folder::new());
    for name in ["journal.lock", "journal.new", "lock"] {
        fs::write(folder.path(name), b"beside").expect("a file beside");
    }
    fs::hard_link(folder.journal(), folder.path("hard")).expect("a link");
    symlink("journal", folder.path("soft")).expect("a link");
    symlink(folder.journal(), other.path("far")).expect("a link");
    let holder = Holder::start(&folder.0, &folder.journal());
    for name in ["journal.new", "lock"] {
        fs::remove_file(folder.path(name)).expect("a file beside is removed");
    }
    let old = folder.contents();
    let (plain, dotted) = (folder.path(""), folder.path("./."));
    let journals = [
        "journal",
        "hard",
        "soft",
        "journal.lock",
        "journal.new",
        "another",
    ];
    let mut rows: Vec<(PathBuf, PathBuf)> = journals
        .iter()
        .map(|name| (folder.path(name), plain.clone()))
        .collect();
    rows.push((other.path("far"), plain));
    rows.push((folder.path("./././journal"), dotted.join("./")));
    let calls = rows
        .iter()
        .map(|(journal, _)| started(&mut night(folder.policy(), journal)));
    let start = Instant::now();
    let children: Vec<Child> = calls.collect();
    for (child, (_, shown)) in children.into_iter().zip(&rows) {
        assert_eq!(ended(child), held(shown));
    }
    let waited = start.elapsed();
    assert!(waited >= PATIENCE && waited < LONG, "{waited:?}");
    assert!(folder.contents() == old, "something changed");
    assert_eq!(holder.feed(), Told::new(0, ANSWERS, ""));
    assert!(folder.kept() == journals::finished(NIGHT));
    goes_through(&folder, MOST);
}

#[test]
fn while_one_call_works_others_do_in_other_folders() {
    let folder = Folder::cut_night();
    let holder = Holder::start(&folder.0, &folder.journal());
    fs::create_dir(folder.path("inner")).expect("a folder");
    let apart = Folder::new();
    for journal in [folder.path("inner/journal"), apart.journal()] {
        let said = told(&mut night(folder.policy(), journal));
        assert_eq!(said, Told::new(0, ANSWERS, ""));
    }
    let said = told(brimusket("desk").arg(folder.policy()));
    assert_eq!(said, Told::new(0, ANSWERS, ""));
    drop(holder);
}

#[test]
fn a_killed_call_leaves_no_lock() {
    let folder = Folder::cut_night();
    let old = folder.contents();
    drop(Holder::start(&folder.0, &folder.journal()));
    assert!(folder.contents() == old);
    goes_through(&folder, MOST);
}

#[test]
fn a_lock_that_is_held_for_a_moment_only_delays() {
    let folder = Folder::cut_night();
    let moment = Duration::from_millis(400);
    let lock = lock_of(&folder.0);
    lock.lock().expect("the lock");
    let mut child = started(&mut folder.call());
    let old = folder.contents();
    sleep(moment);
    assert!(child.try_wait().expect("it runs").is_none(), "no wait");
    assert!(folder.contents() == old);
    lock.unlock().expect("the lock is given back");
    assert_eq!(ended(child), Told::new(0, ANSWERS, ""));
    assert!(folder.kept() == journals::finished(NIGHT));
}

/// A folder in another, so that it can be moved or removed.
fn movable() -> (Folder, PathBuf) {
    let outer = Folder::new();
    let inner = outer.path("inner");
    fs::create_dir(&inner).expect("a folder");
    fs::write(inner.join("journal"), &journals::finished(NIGHT)[..18]).expect("a journal");
    (outer, inner)
}

/// What stands in a journal of the night that was cut to two records.
fn is_cut(journal: &Path) -> bool {
    fs::read(journal).expect("a journal") == journals::finished(NIGHT)[..18]
}

#[test]
fn a_folder_that_is_moved_or_removed_meanwhile_is_told() {
    let gone = |inner: &Path| {
        let shown = inner.join("");
        untouched(&format!(
            "cannot enter the folder {shown:?}: No such file or directory"
        ))
    };
    let (outer, inner) = movable();
    let holder = Holder::start(&inner, &inner.join("journal"));
    fs::rename(&inner, outer.path("moved")).expect("it is moved");
    assert_eq!(holder.feed(), Told::new(2, "", &gone(&inner)));
    assert!(is_cut(&outer.path("moved/journal")));
    let (_outer, inner) = movable();
    let holder = Holder::start(&inner, &inner.join("journal"));
    fs::remove_dir_all(&inner).expect("it is removed");
    assert_eq!(holder.feed(), Told::new(2, "", &gone(&inner)));
    assert!(!inner.exists());
}

#[test]
fn a_folder_in_the_place_of_the_one_that_is_locked_is_told() {
    let (outer, inner) = movable();
    let holder = Holder::start(&inner, &inner.join("journal"));
    fs::rename(&inner, outer.path("moved")).expect("it is moved");
    fs::create_dir(&inner).expect("another folder");
    fs::write(inner.join("journal"), b"another").expect("another journal");
    let shown = inner.join("");
    let words = untouched(&format!("the folder {shown:?} was moved: call again"));
    assert_eq!(holder.feed(), Told::new(2, "", &words));
    assert!(is_cut(&outer.path("moved/journal")));
    assert!(fs::read(inner.join("journal")).expect("it is there") == b"another");
    let names = |path: &Path| fs::read_dir(path).expect("it is read").count();
    assert_eq!((names(&inner), names(&outer.path("moved"))), (1, 1));
}

#[test]
fn a_call_from_within_the_folder_goes_with_it() {
    let (outer, inner) = movable();
    let holder = Holder::start(&inner, Path::new("journal"));
    fs::rename(&inner, outer.path("moved")).expect("it is moved");
    assert_eq!(holder.feed(), Told::new(0, ANSWERS, ""));
    let journal = fs::read(outer.path("moved/journal")).expect("a journal");
    assert!(journal == journals::finished(NIGHT));
    let (_outer, inner) = movable();
    let holder = Holder::start(&inner, Path::new("journal"));
    fs::remove_dir_all(&inner).expect("it is removed");
    let said = holder.feed();
    assert_eq!((said.status, said.text.as_str()), (Some(2), ""));
    assert!(said.words.ends_with("the journal is as it was\n"));
}

#[test]
fn a_lock_that_cannot_be_had_is_not_told_as_another_call() {
    if !has_strace() {
        return;
    }
    let folder = Folder::cut_night();
    let old = folder.contents();
    let (said, _) = with_fault(&folder, MOST, "flock", "error=ENOLCK", 1);
    let shown = folder.path("");
    let words = untouched(&format!(
        "cannot lock the folder {shown:?}: No locks available"
    ));
    assert_eq!(Told::of(&said), Told::new(2, "", &words));
    assert!(folder.contents() == old);
    let (said, _) = with_fault(&folder, MOST, "flock", "error=EAGAIN", 1);
    assert_eq!(Told::of(&said), Told::new(0, ANSWERS, ""));
}
