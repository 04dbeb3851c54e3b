//! What other programs do to the files of a call while it works.
#![cfg(feature = "proved")]

use against::journals;
use against::night::{
    ended, has_strace, leave_out, night, stale, started, told, untouched, Folder, Told, NIGHT,
};
use against::workspace::program;
use std::fs::{self, File};
use std::io::Write;
use std::os::unix::fs::{chown, symlink};
use std::path::Path;
use std::process::Command;
use std::thread::sleep;
use std::time::{Duration, Instant};

/// The call on the folder's journal, meddled with.
fn meddled(folder: &Folder, meddle: impl FnOnce()) -> Told {
    meddled_on(folder, &folder.journal(), &folder.reserved(), meddle)
}

/// The call, held up for a while before it forces the new file to the disk; what
/// is done then; and what the call tells.
fn meddled_on(folder: &Folder, journal: &Path, new: &Path, meddle: impl FnOnce()) -> Told {
    let mut command = Command::new("strace");
    command.arg("-o").arg(folder.path("log"));
    command.arg("--inject=fsync:delay_enter=1200000:when=1");
    command.arg(program("brimusket")).arg("night");
    command.arg(folder.policy()).arg(journal);
    command.env_remove("LD_LIBRARY_PATH");
    let child = started(&mut command);
    let start = Instant::now();
    while fs::metadata(new).map_or(0, |file| file.len()) == 0 {
        assert!(start.elapsed() < Duration::from_secs(30), "no new file");
        sleep(Duration::from_millis(1));
    }
    meddle();
    ended(child)
}

const FOREIGN: &[u8] = b"foreign";

/// What is said where another program does not keep to the lock.
fn changed(journal: &Path) -> String {
    format!(
        "brimusket: another program changed {journal:?} meanwhile; this call changed nothing: call again\n"
    )
}

/// Another file takes the place of this one.
fn replace(path: &Path) {
    let other = path.with_extension("other");
    fs::write(&other, FOREIGN).expect("another file");
    fs::rename(other, path).expect("it is put there");
}

#[test]
fn a_journal_that_another_program_changes_is_not_replaced() {
    if !has_strace() {
        return;
    }
    let uncut = journals::finished(NIGHT);
    let longer = |path: &Path| fs::write(path, [&uncut[..], b"x"].concat()).expect("a file");
    let linked = |path: &Path| {
        fs::write(path.with_extension("other"), FOREIGN).expect("another file");
        fs::remove_file(path).expect("it was there");
        symlink("journal.other", path).expect("a link");
    };
    let made = |path: &Path| fs::write(path, FOREIGN).expect("a file");
    type Row<'m> = (Option<Vec<u8>>, &'m dyn Fn(&Path));
    let rows: [Row; 5] = [
        (Some(uncut[..18].to_vec()), &replace),
        (Some(stale()), &replace),
        (Some(uncut[..18].to_vec()), &longer),
        (Some(uncut[..18].to_vec()), &linked),
        (None, &made),
    ];
    for (old, meddle) in rows {
        let folder = Folder::with(NIGHT);
        old.into_iter().for_each(|old| folder.set(&old));
        let journal = folder.journal();
        let said = meddled(&folder, || meddle(&journal));
        assert_eq!(said, Told::new(2, "", &changed(&journal)));
        let kept = folder.kept();
        assert!(kept == FOREIGN || kept == [&uncut[..], b"x"].concat());
        assert!(folder.saved().is_empty() && !folder.reserved().exists());
    }
}

/// A file that keeps its length and time has other bytes.
fn overwrite(path: &Path) {
    let file = File::options().write(true).open(path).expect("a file");
    let time = file.metadata().and_then(|found| found.modified());
    (&file).write_all(b"notes").expect("it is written");
    file.set_modified(time.expect("a time")).expect("it is set");
}

#[test]
fn a_new_journal_that_another_program_changes_gives_no_answer() {
    if !has_strace() {
        return;
    }
    let empty = |path: &Path| fs::write(path, b"").expect("it is emptied");
    let rows: [&dyn Fn(&Path); 3] = [&replace, &empty, &overwrite];
    for meddle in rows {
        let folder = Folder::cut_night();
        let said = meddled(&folder, || meddle(&folder.reserved()));
        let words = format!(
            "brimusket: another program changed {:?} meanwhile; the new journal was put in its place, \
             but that is not sure to last, so no answer is given: call again\n",
            folder.journal()
        );
        assert_eq!(said, Told::new(2, "", &words));
    }
}

#[test]
fn an_old_journal_that_keeps_its_time_and_changes_its_bytes_is_not_replaced() {
    if !has_strace() {
        return;
    }
    let folder = Folder::cut_night();
    let said = meddled(&folder, || overwrite(&folder.journal()));
    assert_eq!(said, Told::new(2, "", &changed(&folder.journal())));
    assert!(folder.kept().starts_with(b"notes"));
}

/// The journal is given through a link to its folder.
#[test]
fn a_link_or_a_folder_that_is_turned_during_the_call_is_told() {
    if !has_strace() {
        return;
    }
    let turn = |folder: &Folder, name: &str, target: &str| {
        fs::remove_file(folder.path(name)).expect("it was there");
        symlink(target, folder.path(name)).expect("a link");
    };
    for given in ["now/journal", "link"] {
        let folder = Folder::with(NIGHT);
        for place in ["one", "two"] {
            fs::create_dir(folder.path(place)).expect("a folder");
            fs::write(folder.path(place).join("journal"), &stale()[..18]).expect("a journal");
        }
        symlink("one", folder.path("now")).expect("a link");
        symlink("one/journal", folder.path("link")).expect("a link");
        let new = folder.path("one/.brimusket-new");
        let said = meddled_on(&folder, &folder.path(given), &new, || {
            turn(&folder, "now", "two");
            turn(&folder, "link", "two/journal");
        });
        assert_eq!((said.status, said.text.as_str()), (Some(2), ""));
        assert!(said
            .words
            .ends_with("this call changed nothing: call again\n"));
        for place in ["one/journal", "two/journal"] {
            assert!(fs::read(folder.path(place)).expect("a journal") == stale()[..18]);
        }
    }
}

/// Waits until the program in this process has opened a folder. Before it begins,
/// a copy of the test may be there, with the folder open.
fn wait_for_open(process: u32, folder: &Path) {
    let start = Instant::now();
    let is_open = || {
        let words = fs::read(format!("/proc/{process}/cmdline")).ok()?;
        words
            .split(|byte| *byte == 0)
            .find(|word| *word == b"night")?;
        let open = fs::read_dir(format!("/proc/{process}/fd")).ok()?;
        let mut files = open.flatten().flat_map(|file| fs::read_link(file.path()));
        files.find(|file| file == folder)
    };
    while is_open().is_none() {
        assert!(start.elapsed() < Duration::from_secs(30), "never opened");
        sleep(Duration::from_millis(1));
    }
}

#[test]
fn a_link_that_is_turned_while_the_call_waits_is_told() {
    for (is_there, target) in [(true, "two"), (true, "none"), (false, "none")] {
        let folder = Folder::with(NIGHT);
        let uncut = journals::finished(NIGHT);
        if is_there {
            fs::write(folder.path("one"), &uncut[..18]).expect("a journal");
        }
        fs::write(folder.path("two"), &uncut[..9]).expect("a journal");
        symlink("one", folder.path("now")).expect("a link");
        let lock = File::open(&folder.0).expect("the folder");
        lock.lock().expect("the lock");
        let child = started(&mut night(folder.policy(), folder.path("now")));
        wait_for_open(child.id(), &folder.0);
        fs::remove_file(folder.path("now")).expect("it was there");
        symlink(target, folder.path("now")).expect("a link");
        let old = folder.contents();
        lock.unlock().expect("the lock is given back");
        assert_eq!(
            ended(child),
            Told::new(2, "", &changed(&folder.path("one")))
        );
        assert!(folder.contents() == old, "something changed");
    }
}

/// What a descriptor's link says is the name that the file had.
#[test]
fn a_file_without_a_name_is_no_journal() {
    for remove in ["rm journal", "mv journal gone"] {
        let folder = Folder::cut_night();
        let setting = format!("exec 9<>journal; {remove}; set -- \"$1\" night policy /dev/fd/9");
        let said = told(&mut folder.after(&setting));
        match remove {
            "rm journal" => {
                assert_eq!((said.status, said.text.as_str()), (Some(2), ""));
                assert!(said
                    .words
                    .ends_with(" is not a plain file; the journal is as it was\n"));
                assert_eq!(folder.contents().len(), 1);
            }
            // It has one, and is replaced there; but it was given by another.
            _ => {
                assert_eq!((said.status, said.text.as_str()), (Some(2), ""));
                let gone = fs::read(folder.path("gone")).expect("the journal");
                assert!(gone == journals::finished(NIGHT));
            }
        }
    }
}

#[test]
fn a_closed_standard_input_is_no_policy_by_any_name() {
    for name in ["/dev/stdin", "/dev/fd/0", "/proc/self/fd/0"] {
        let folder = Folder::cut_night();
        let old = folder.contents();
        let words = format!("cannot read {name:?}: it is closed");
        let setting = format!("exec <&-; set -- \"$1\" night {name} journal");
        let said = told(&mut folder.after(&setting));
        assert_eq!(said, Told::new(2, "", &untouched(&words)));
        assert!(folder.contents() == old);
        let setting = format!("exec <&-; set -- \"$1\" desk {name}");
        let said = told(&mut folder.after(&setting));
        assert_eq!(said, Told::new(2, "", &format!("brimusket: {words}\n")));
    }
}

/// Its owner could change them.
#[test]
fn the_same_bytes_of_another_owner_are_no_copy() {
    let folder = Folder::night(&stale());
    let theirs = folder.path("journal.saved-1");
    fs::write(&theirs, stale()).expect("a file");
    if chown(&theirs, Some(65_534), None).is_err() {
        leave_out("root: whether another owner's file is taken for a saved journal");
        return;
    }
    assert_eq!(told(&mut folder.call()).status, Some(0));
    assert_eq!(folder.copies(&stale()), 2);
}
