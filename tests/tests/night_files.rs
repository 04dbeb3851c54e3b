//! The files of the night program: names of every kind, links, modes and owners,
//! what is no journal, and what stands beside one.
#![cfg(feature = "proved")]

use against::journals::{self, RECORD};
use against::machine::is_tested;
use against::night::{
    brimusket, cannot, expected, fails, goes_through, in_time, is_root, leave_out, make_fifo,
    night, policies, set_mode, told, untouched, Folder, Told, ANSWERS, MOST, NIGHT, RESERVED,
};
use against::rng::Rng;
use std::ffi::OsStr;
use std::fs;
use std::os::unix::ffi::OsStrExt;
use std::os::unix::fs::{chown, symlink, MetadataExt};
use std::os::unix::net::UnixListener;
use std::path::{Path, PathBuf};
use std::process::Command;

const DENIED: &str = "Permission denied";
const MISSING: &str = "No such file or directory";
const TOO_LONG: &str = "File name too long";

/// A whole record and two bytes that do not follow: they are dropped and saved.
const FOREIGN: &[u8] = b"LQ?????????";

fn mode_of(path: &Path) -> u32 {
    fs::metadata(path).expect("it is there").mode() & 0o7777
}

/// The night's uncut journal.
fn uncut() -> Vec<u8> {
    journals::finished(NIGHT)
}

/// The call answers, the file at this path is then the uncut journal, and nothing
/// is said.
fn answers(command: &mut Command, journal: &Path) {
    assert_eq!(told(command), Told::new(0, ANSWERS, ""));
    assert!(fs::read(journal).expect("a journal") == uncut());
}

// ---------------------------------------------------------------------------
// Names
// ---------------------------------------------------------------------------

/// A call on a policy and a journal of these names, whose journal has foreign
/// bytes: it answers, says so in one line, and saves them.
fn answers_and_saves(policy: &[u8], journal: &[u8]) {
    let folder = Folder::new();
    let [policy, journal] = [policy, journal].map(OsStr::from_bytes);
    fs::write(folder.path(policy), NIGHT).expect("a policy of this name");
    fs::write(folder.path(journal), FOREIGN).expect("a journal of this name");
    let mut command = brimusket("night");
    command.arg("--").arg(policy).arg(journal);
    let said = told(command.current_dir(&folder.0));
    assert_eq!((said.status, said.text.as_str()), (Some(0), ANSWERS));
    assert!(said
        .words
        .starts_with("brimusket: keeps 0 of 1 records of "));
    assert_eq!(said.words.lines().count(), 1, "{}", said.words);
    assert!(fs::read(folder.path(journal)).expect("a journal") == uncut());
    let name = journal.as_bytes();
    let saved = [&name[..name.len().min(240)], b".saved-1"].concat();
    let saved = fs::read(folder.path(OsStr::from_bytes(&saved)));
    assert!(saved.expect("a saved journal") == FOREIGN);
    assert_eq!(folder.contents().len(), 3);
}

#[test]
fn names_may_have_any_byte_anywhere() {
    let bytes = (1..=255).filter(|byte| is_tested(usize::from(*byte)));
    for byte in bytes.filter(|byte| *byte != b'/') {
        answers_and_saves(&[byte, b'p', byte], &[byte, b'j', byte]);
    }
}

#[test]
fn long_names_are_shortened_for_a_saved_journal_alone() {
    let mut rng = Rng::new(81);
    for length in [200, 239, 240, 241, 247, 248, 254, 255] {
        let mut names = [rng.bytes(length), rng.bytes(length)];
        for byte in names.iter_mut().flatten() {
            *byte = if matches!(*byte, 0 | b'/') {
                b'-'
            } else {
                *byte
            };
        }
        answers_and_saves(&names[0], &names[1]);
    }
    answers_and_saves(b"p", &[b'x'; 255]);
    let journal = "x".repeat(256);
    let folder = Folder::cut_night();
    let path = folder.path(&journal);
    let words = cannot("read", &path, TOO_LONG);
    fails(&mut night(folder.policy(), &path), &folder, &words);
}

#[test]
fn names_with_a_backslash_are_taken_as_they_are() {
    for name in [r"a\nb", r"a\cb", r"\", r"\\", r"\x00", "%s", "a\nb", "$(x)"] {
        answers_and_saves(format!("{name}p").as_bytes(), name.as_bytes());
    }
}

#[test]
fn a_name_that_begins_with_a_dash_goes_behind_two_dashes() {
    for name in ["-x", "-", "--version", "--help", "--questions", "--"] {
        answers_and_saves(format!("{name}p").as_bytes(), name.as_bytes());
        let policy = format!("{name}.");
        answers_and_saves(policy.as_bytes(), b"journal");
    }
}

#[test]
fn a_name_that_begins_with_a_dash_is_no_name_before_two_dashes() {
    let folder = Folder::cut_night();
    for name in ["-x", "-", "--version", "---", "-\u{fc}"] {
        let words = format!(
            "brimusket: no option {name:?} (a name that begins with a dash goes behind --): \
             call brimusket night POLICY JOURNAL [LIMIT] or brimusket desk [POLICY]; --help says more\n"
        );
        fs::write(folder.path(name), NIGHT).expect("a file of this name");
        let mut command = night("policy", name);
        fails(command.current_dir(&folder.0), &folder, &words);
        let mut command = night(name, "journal");
        fails(command.current_dir(&folder.0), &folder, &words);
    }
}

/// A path of so many bytes that ends in this name, in folders that are there.
fn deep(folder: &Folder, length: usize, name: &str) -> PathBuf {
    let mut path = folder.0.clone();
    let last = length - 1 - name.len();
    while path.as_os_str().len() < last {
        let left = last - path.as_os_str().len() - 1;
        // Not so much that a single slash is left.
        let take = if left > 200 && left < 204 {
            100
        } else {
            left.min(200)
        };
        path.push("d".repeat(take));
        fs::create_dir_all(&path).expect("a folder");
    }
    path.push(name);
    assert_eq!(path.as_os_str().len(), length);
    path
}

#[test]
fn the_longest_paths_are_taken_and_longer_ones_told() {
    let folder = Folder::with(NIGHT);
    let (policy, longest) = (folder.policy(), deep(&folder, 4_095, "j"));
    answers(&mut night(&policy, &longest), &longest);
    fs::write(&longest, FOREIGN).expect("foreign bytes");
    let said = told(&mut night(&policy, &longest));
    assert_eq!((said.status, said.text.as_str()), (Some(0), ANSWERS));
    // The saved journal's path is longer than a path may be, and it is there.
    let count = |path: &Path| {
        let beside = path.parent().map(fs::read_dir);
        beside.expect("a folder").expect("it is read").count()
    };
    assert_eq!(count(&longest), 2);
    let longer = deep(&folder, 4_096, "j");
    let words = cannot("read", &longer, TOO_LONG);
    let said = told(&mut night(&policy, &longer));
    assert_eq!(said, Told::new(2, "", &words));
    assert_eq!(count(&longer), 0);
    let other = Folder::with(NIGHT);
    let long = deep(&other, 4_095, "policy");
    fs::write(&long, NIGHT).expect("a policy");
    answers(&mut night(&long, other.journal()), &other.journal());
}

#[test]
fn paths_that_are_too_long_are_told() {
    let folder = Folder::cut_night();
    let (policy, journal) = (folder.policy(), folder.journal());
    for length in [4_096, 4_098, 9_000] {
        let long = PathBuf::from("./".repeat(length / 2 - 1) + "pp");
        let words = cannot("read", &long, TOO_LONG);
        fails(&mut night(&long, &journal), &folder, &words);
    }
    for length in [4_096, 9_000] {
        let place = "./".repeat(length / 2);
        let words = untouched(&format!("cannot open the folder {place:?}: {TOO_LONG}"));
        fails(&mut night(&policy, format!("{place}j")), &folder, &words);
    }
}

#[test]
fn a_path_that_names_no_file_is_told() {
    let folder = Folder::cut_night();
    let (here, policy) = (folder.0.display(), folder.policy());
    for end in ["", "/", "/.", "/..", "/journal/", "/journal/.", "//"] {
        let path = format!("{here}{end}");
        let path = if end.is_empty() { "" } else { &path };
        let words = untouched(&format!("{path:?} names no file"));
        fails(&mut night(&policy, path), &folder, &words);
    }
    for path in [".", "..", "/"] {
        let words = untouched(&format!("{path:?} names no file"));
        fails(&mut night(&policy, path), &folder, &words);
    }
}

#[test]
fn files_and_folders_that_are_not_there_are_told() {
    let folder = Folder::cut_night();
    let (here, policy, journal) = (&folder.0, &folder.policy(), &folder.journal());
    let (missing, apart) = (&folder.path("none"), &folder.path("none/journal"));
    let (inside, empty) = (&folder.path("policy/journal"), &PathBuf::new());
    let no_folder = |name: &str, why: &str| {
        let place = folder.path(name).join("");
        untouched(&format!("cannot open the folder {place:?}: {why}"))
    };
    let rows = [
        (missing, journal, cannot("read", missing, MISSING)),
        (empty, journal, cannot("read", empty, MISSING)),
        (here, journal, cannot("read", here, "Is a directory")),
        (policy, apart, no_folder("none", MISSING)),
        (policy, inside, no_folder("policy", "Not a directory")),
    ];
    for (policy, journal, words) in rows {
        fails(&mut night(policy, journal), &folder, &words);
    }
}

// ---------------------------------------------------------------------------
// Kinds of files
// ---------------------------------------------------------------------------

#[test]
fn what_is_no_plain_file_is_no_journal_and_never_waited_for() {
    let folder = Folder::cut_night();
    let [socket, fifo, inner] = ["socket", "fifo", "folder"].map(|name| folder.path(name));
    let _listener = UnixListener::bind(&socket).expect("a socket");
    make_fifo(&fifo);
    fs::create_dir(&inner).expect("a folder");
    let null = PathBuf::from("/dev/null");
    for path in [&folder.0, &socket, &fifo, &inner, &null] {
        let words = untouched(&format!("{path:?} is not a plain file"));
        let call = night(folder.policy(), path);
        fails(&mut in_time(&call), &folder, &words);
    }
}

#[test]
fn the_longest_journal_is_read_and_one_byte_more_is_told() {
    let folder = Folder::night(&[0; MOST + 1]);
    let journal = folder.journal();
    let words = format!(
        "{journal:?} has more than 36864 bytes, which no journal has: move it away and call again"
    );
    fails(&mut folder.call(), &folder, &untouched(&words));
    folder.set(&[0; MOST]);
    goes_through(&folder, MOST);
    folder.set(&uncut().repeat(MOST / uncut().len()));
    goes_through(&folder, MOST);
}

/// Calls on a link in one folder to a journal in another: the link stays, and the
/// file behind it is replaced or made.
fn follows(link: &Path, target: &Path, journal: &Path) {
    let folder = Folder::with(NIGHT);
    let (link, journal) = (folder.path(link), folder.path(journal));
    fs::create_dir(folder.path("inner")).expect("a folder");
    symlink(target, &link).expect("a link");
    for is_there in [false, true] {
        if is_there {
            fs::write(&journal, &uncut()[..RECORD]).expect("a journal");
        }
        answers(&mut night(folder.policy(), &link), &journal);
        assert!(fs::read_link(&link).expect("the link stays") == target);
        let found = fs::symlink_metadata(&journal).expect("the file");
        assert!(found.is_file());
    }
}

#[test]
fn a_symbolic_link_stays_and_the_file_behind_it_is_replaced_or_made() {
    let other = Folder::new();
    let rows = [
        ("link", PathBuf::from("journal"), PathBuf::from("journal")),
        ("link", "./inner/../journal".into(), "journal".into()),
        ("link", "inner/journal".into(), "inner/journal".into()),
        ("inner/link", "../journal".into(), "journal".into()),
        ("inner/link", other.path("journal"), other.path("journal")),
    ];
    for (link, target, journal) in rows {
        follows(Path::new(link), &target, &journal);
    }
}

#[test]
fn a_row_of_links_is_followed_and_a_loop_is_told() {
    let folder = Folder::cut_night();
    symlink("journal", folder.path("link-1")).expect("a link");
    for count in 2..=41 {
        let target = format!("link-{}", count - 1);
        symlink(target, folder.path(format!("link-{count}"))).expect("a link");
    }
    let links = folder.contents().len();
    answers(
        &mut night(folder.policy(), folder.path("link-40")),
        &folder.journal(),
    );
    symlink("loop-2", folder.path("loop-1")).expect("a link");
    symlink("loop-1", folder.path("loop-2")).expect("a link");
    for name in ["link-41", "loop-1", "loop-2"] {
        let path = folder.path(name);
        let words = format!("{path:?} leads through more than 40 symbolic links");
        let mut command = night(folder.policy(), path);
        fails(&mut command, &folder, &untouched(&words));
    }
    assert_eq!(folder.contents().len(), links + 2);
}

#[test]
fn a_link_to_no_file_is_told() {
    let folder = Folder::cut_night();
    let rows = [
        ("inner/", "names no file"),
        ("..", "names no file"),
        (RESERVED, "is a name that this program keeps for itself"),
    ];
    for (target, why) in rows {
        let link = folder.path("link");
        symlink(target, &link).expect("a link");
        let said = told(&mut night(folder.policy(), &link));
        assert_eq!((said.status, said.text.as_str()), (Some(2), ""));
        assert!(said.words.contains(why), "{}", said.words);
        fs::remove_file(link).expect("the link stays");
    }
}

#[test]
fn a_policy_may_stand_behind_a_link() {
    let folder = Folder::cut_night();
    symlink("policy", folder.path("link")).expect("a link");
    answers(
        &mut night(folder.path("link"), folder.journal()),
        &folder.journal(),
    );
    assert_eq!(folder.contents().len(), 3);
}

// ---------------------------------------------------------------------------
// Modes and owners
// ---------------------------------------------------------------------------

#[test]
fn a_journal_keeps_its_mode_and_owner() {
    if !is_root() {
        leave_out("root: whether a journal keeps another's owner");
    }
    let folder = Folder::cut_night();
    let journal = folder.journal();
    for bits in [0o600, 0o640, 0o644, 0o666, 0o400, 0o751] {
        folder.set(&uncut()[..RECORD]);
        set_mode(&journal, bits);
        for user in [65_534, 0].into_iter().filter(|_| is_root()) {
            chown(&journal, Some(user), Some(65_534 - user)).expect("another owner");
            answers(&mut folder.call(), &journal);
            let found = fs::metadata(&journal).expect("a journal");
            assert_eq!((found.uid(), found.gid()), (user, 65_534 - user));
        }
        answers(&mut folder.call(), &journal);
        assert_eq!(mode_of(&journal), bits);
        set_mode(&journal, 0o600);
    }
}

#[test]
fn a_new_journal_has_the_mode_that_the_caller_gives_new_files() {
    let folder = Folder::with(NIGHT);
    for (mask, bits) in [("022", 0o644), ("077", 0o600), ("000", 0o666)] {
        answers(
            &mut folder.after(&format!("umask {mask}")),
            &folder.journal(),
        );
        assert_eq!(mode_of(&folder.journal()), bits);
        fs::remove_file(folder.journal()).expect("it is there");
    }
}

#[test]
fn a_mask_changes_no_mode_of_a_journal_that_is_there() {
    let folder = Folder::cut_night();
    set_mode(&folder.journal(), 0o664);
    answers(&mut folder.after("umask 077"), &folder.journal());
    assert_eq!(mode_of(&folder.journal()), 0o664);
}

#[test]
fn a_caller_who_may_not_give_the_owner_is_told() {
    if !is_root() {
        leave_out("root: what a caller does who may not keep a journal's owner");
        return;
    }
    let folder = Folder::cut_night();
    let mut command = folder.by_nobody();
    set_mode(&folder.0, 0o777);
    let what = "give the journal's owner and mode to";
    let words = cannot(what, &folder.reserved(), "Operation not permitted");
    fails(&mut command, &folder, &words);
    chown(folder.journal(), Some(65_534), Some(65_534)).expect("another owner");
    answers(&mut command, &folder.journal());
}

/// What is said where the program's own file cannot be removed.
fn by_hand(path: &Path, why: &str) -> String {
    untouched(&format!("cannot remove {path:?}: {why}; remove it by hand"))
}

#[test]
fn an_unwritable_folder_is_told() {
    let folder = Folder::cut_night();
    let mut command = folder.by_nobody();
    let reserved = folder.reserved();
    set_mode(&folder.0, 0o555);
    fails(&mut command, &folder, &cannot("make", &reserved, DENIED));
    set_mode(&folder.0, 0o755);
    fs::write(&reserved, b"left").expect("what a crash left");
    set_mode(&folder.0, 0o555);
    fails(&mut command, &folder, &by_hand(&reserved, DENIED));
    set_mode(&folder.0, 0o755);
    goes_through(&folder, MOST);
}

#[test]
fn unreadable_files_and_folders_are_told() {
    let folder = Folder::cut_night();
    let mut command = folder.by_nobody();
    let (here, policy, journal) = (&folder.0, &folder.policy(), &folder.journal());
    let of_folder = format!("cannot open the folder {:?}: {DENIED}", folder.path(""));
    let rows = [
        // Anyone may enter the folder, and not even its owner may open it.
        (here, 0o311, untouched(&of_folder)),
        (journal, 0o000, cannot("read", journal, DENIED)),
        (policy, 0o000, cannot("read", policy, DENIED)),
    ];
    let old = folder.kept();
    for (path, bits, words) in rows {
        let before = mode_of(path);
        set_mode(path, bits);
        assert_eq!(told(&mut command), Told::new(2, "", &words));
        set_mode(path, before);
        assert!(folder.kept() == old && !folder.reserved().exists());
    }
    goes_through(&folder, MOST);
}

#[test]
fn a_full_disk_leaves_the_journal_as_it_was() {
    let mut rng = Rng::new(74);
    let policy = policies(&mut rng).pop().expect("the large one");
    let folder = Folder::with(&policy);
    let uncut = journals::finished(&policy);
    let words = cannot("write", &folder.reserved(), "File too large");
    assert!(uncut.len() > 1_024, "longer than a block");
    for blocks in [0, 1] {
        for old in [&uncut[..0], &uncut[..uncut.len() / 2], &uncut, FOREIGN] {
            folder.set(old);
            let setting = format!("trap '' XFSZ; ulimit -f {blocks}");
            fails(&mut folder.after(&setting), &folder, &words);
        }
    }
    goes_through(&folder, MOST);
    assert!(folder.kept() == uncut);
}

// ---------------------------------------------------------------------------
// One file that is two things, and what stands beside
// ---------------------------------------------------------------------------

#[test]
fn the_programs_own_name_is_refused_wherever_it_is_given() {
    let folder = Folder::cut_night();
    let (policy, journal, reserved) = (folder.policy(), folder.journal(), folder.reserved());
    fs::write(&reserved, NIGHT).expect("a file of the name");
    symlink(RESERVED, folder.path("link")).expect("a link");
    let own = format!("{reserved:?} is a name that this program keeps for itself");
    let short = format!("{RESERVED:?} is a name that this program keeps for itself");
    let one = format!("the policy file and {reserved:?} are one file");
    let rows = [
        (&policy, &reserved, own.clone()),
        (&reserved, &journal, own),
        (&policy, &folder.path("link"), short),
        (&folder.path("link"), &journal, one),
    ];
    for (policy, journal, words) in rows {
        fails(&mut night(policy, journal), &folder, &untouched(&words));
    }
    let words = format!("standard output and {reserved:?} are one file");
    let mut command = folder.after(&format!("exec >>{RESERVED}"));
    fails(&mut command, &folder, &untouched(&words));
}

#[test]
fn a_folder_in_the_place_of_the_programs_own_file_is_told() {
    let folder = Folder::cut_night();
    let reserved = folder.reserved();
    fs::create_dir(&reserved).expect("a folder in its place");
    let words = by_hand(&reserved, "Is a directory");
    fails(&mut folder.call(), &folder, &words);
    fs::remove_dir(&reserved).expect("it is there");
    fs::hard_link(folder.journal(), &reserved).expect("a link");
    goes_through(&folder, 2);
    symlink("policy", &reserved).expect("a link");
    goes_through(&folder, MOST);
    assert!(fs::read(folder.policy()).expect("the policy") == NIGHT);
}

#[test]
fn a_policy_that_is_the_journal_is_refused() {
    let folder = Folder::night(NIGHT);
    let journal = folder.journal();
    fs::hard_link(&journal, folder.path("hard")).expect("a link");
    symlink("journal", folder.path("soft")).expect("a link");
    symlink(".", folder.path("here")).expect("a link");
    let words = untouched("the policy file and the journal are one file");
    let rows = ["journal", "./journal", "hard", "soft", "here/journal"];
    for policy in rows {
        fails(&mut night(folder.path(policy), &journal), &folder, &words);
        fails(&mut night(&journal, folder.path(policy)), &folder, &words);
    }
}

#[test]
fn an_output_that_is_the_journal_or_the_policy_is_refused() {
    let rows = [
        (">>journal", "standard output and the journal are one file"),
        (
            ">>policy",
            "standard output and the policy file are one file",
        ),
        ("1<>journal", "standard output and the journal are one file"),
        ("1<journal", "standard output and the journal are one file"),
    ];
    let folder = Folder::cut_night();
    for (output, words) in rows {
        let mut command = folder.after(&format!("exec {output}"));
        fails(&mut command, &folder, &untouched(words));
    }
    fs::hard_link(folder.journal(), folder.path("hard")).expect("a link");
    let mut command = folder.after("exec >>hard");
    fails(&mut command, &folder, &untouched(rows[0].1));
}

/// Also where the call ends before the files are compared.
#[test]
fn a_standard_error_that_is_the_journal_or_the_policy_gets_no_message() {
    let folder = Folder::cut_night();
    symlink("journal", folder.path("soft")).expect("a link");
    let before = folder.contents();
    let rows = [
        ("journal", "policy journal"),
        ("journal", "policy ./soft"),
        ("journal", "none journal"),
        ("policy", "policy journal"),
        ("policy", "policy none/journal"),
        ("journal", "policy journal 1O"),
        ("journal", "-q policy journal"),
        ("policy", "policy journal 1 2"),
    ];
    for (file, names) in rows {
        let setting = format!("exec 2>>{file}; set -- \"$1\" night {names}");
        assert_eq!(told(&mut folder.after(&setting)), Told::new(2, "", ""));
        assert!(folder.contents() == before, "{file}: {names}");
    }
}

/// Only the policy and the journal are spared: a log may be called as it likes.
#[test]
fn a_standard_error_that_is_another_file_gets_its_message() {
    for (log, more) in [("night", ""), ("50", " 50"), ("log", "")] {
        let folder = Folder::night(FOREIGN);
        let setting = format!("exec 2>{log}; set -- \"$1\" night policy journal{more}");
        assert_eq!(told(&mut folder.after(&setting)), Told::new(0, ANSWERS, ""));
        let words = fs::read_to_string(folder.path(log)).expect("a log");
        assert!(words.contains("journal.saved-1"), "{log}: {words}");
    }
}

#[test]
fn nothing_else_in_the_folder_is_changed_or_removed() {
    let names = [
        "j",
        "journal.new",
        "journal.lock",
        "journal.saved-1",
        "journal.saved-x",
        "journal.saved-",
        "journal.saved-01",
        "journal~",
        ".journal",
        "journal.tmp",
        "brimusket-new",
        ".brimusket-new~",
    ];
    let folder = Folder::with(NIGHT);
    for (name, count) in names.iter().zip(1_u8..) {
        fs::write(folder.path(name), [count; 12]).expect("a bystander");
    }
    fs::create_dir(folder.path("journal.saved-2")).expect("a folder");
    symlink("policy", folder.path("journal.saved-3")).expect("a link");
    let before = folder.contents();
    for old in [&uncut()[..20], FOREIGN, &uncut(), b"H b\n"] {
        folder.set(old);
        for limit in ["1", "4096"] {
            let said = told(folder.call().arg(limit));
            let text = expected(NIGHT, old, limit.parse().expect("a number")).text;
            assert_eq!((said.status, said.text), (Some(0), text));
        }
    }
    let mut after = folder.contents();
    assert!(after.remove(OsStr::new("journal")).is_some());
    assert!(after.remove(OsStr::new("journal.saved-4")).is_some());
    assert!(after.remove(OsStr::new("journal.saved-5")).is_some());
    assert!(after == before, "a bystander was changed");
}
