//! A journal on the disk: its lock, what it holds, and how a new one takes its
//! place.

use crate::files::{
    all_of, are_apart, behind_links, holds, is_same, make_alike, open_plain, outputs, there, Named,
};
use crate::output::{cannot, say, End};
use std::env;
use std::ffi::{OsStr, OsString};
use std::fs::{self, File, Metadata, OpenOptions, TryLockError};
use std::io::{self, ErrorKind, Write};
use std::os::unix::ffi::{OsStrExt, OsStringExt};
use std::os::unix::fs::{MetadataExt, OpenOptionsExt};
use std::path::{Path, PathBuf};
use std::thread::sleep;
use std::time::{Duration, Instant};

/// The name under which a new journal is written. It is this program's own: no
/// argument may have it, and what stands there while no call works in the folder
/// was left by one that was cut off.
const RESERVED: &str = ".brimusket-new";

/// How long a call waits for another one to end.
const PATIENCE: Duration = Duration::from_secs(3);

/// A name has at most 255 bytes; this leaves room for a saved journal's ending.
const LONGEST_STEM: usize = 255 - ".saved-12345678".len();

/// The folder of a journal, locked, and the journal's name in it.
///
/// One call at a time works in a folder. So the lock holds for a journal under
/// each of its names there, no file can be removed to lose it, and it goes with
/// the process.
pub struct Held {
    /// The journal as it was given, and by a path that also holds from within the
    /// folder.
    given: PathBuf,
    lasting: PathBuf,
    folder: File,
    path: PathBuf,
    name: OsString,
}

/// The journal as it was found; nothing where there was none.
#[derive(Default)]
pub struct Old {
    file: Option<(File, Metadata)>,
    pub bytes: Vec<u8>,
}

/// The new journal is on the disk under its name, and the folder still locked.
/// Only a finished [`Held::replace`] gives this.
pub struct OnDisk<'h> {
    _held: &'h Held,
}

/// What failed, and that the journal is as it was.
pub fn untouched(what: String) -> End {
    End::failed(format!("{what}; the journal is as it was"))
}

/// Refuses the program's own name.
pub fn is_free(name: &OsStr) -> Result<(), End> {
    let last = Path::new(name).file_name().unwrap_or_default();
    if last.eq_ignore_ascii_case(RESERVED) {
        let what = format!("{name:?} is a name that this program keeps for itself");
        return Err(untouched(what));
    }
    Ok(())
}

/// Takes the lock, or says why not.
fn wait_for_lock(folder: &File, shown: &str) -> Result<(), End> {
    let start = Instant::now();
    loop {
        match folder.try_lock() {
            Ok(()) => return Ok(()),
            Err(TryLockError::Error(error)) => return Err(untouched(cannot("lock", shown)(error))),
            Err(TryLockError::WouldBlock) if start.elapsed() < PATIENCE => {
                sleep(Duration::from_millis(10))
            }
            Err(TryLockError::WouldBlock) => {
                let waited = PATIENCE.as_secs();
                return Err(End::locked(format!(
                    "another call or program holds the lock of {shown}, also after {waited} seconds; \
                     nothing was changed: call again"
                )));
            }
        }
    }
}

impl Held {
    /// Locks the folder of the file behind the journal's name.
    pub fn lock(journal: &OsStr) -> Result<Held, End> {
        is_free(journal)?;
        let given = PathBuf::from(journal);
        let (path, name) = behind_links(&given).map_err(untouched)?;
        is_free(&name)?;
        let shown = format!("the folder {path:?}");
        let opened = File::open(&path).map_err(cannot("open", &shown));
        let folder = opened.map_err(untouched)?;
        wait_for_lock(&folder, &shown)?;
        let lasting = match path.to_str() {
            Some(".") => Ok(given.clone()),
            _ => std::path::absolute(&given).map_err(cannot("look at", &shown)),
        };
        let lasting = lasting.map_err(untouched)?;
        Ok(Held {
            given,
            lasting,
            folder,
            path,
            name,
        })
    }

    /// A file of the folder, as it is shown.
    fn shown(&self, name: impl AsRef<Path>) -> String {
        match self.path.to_str() {
            Some(".") => format!("{:?}", name.as_ref()),
            _ => format!("{:?}", self.path.join(name)),
        }
    }

    /// Goes into the folder, so that from here on each name is one in the folder
    /// that is locked, however long its path is and wherever it is moved.
    fn enter(&self) -> Result<(), End> {
        let shown = format!("the folder {:?}", self.path);
        let enter = || {
            env::set_current_dir(&self.path)?;
            Ok(is_same(&fs::metadata(".")?, &self.folder.metadata()?))
        };
        let entered = enter().map_err(cannot("enter", &shown));
        if entered.map_err(untouched)? {
            return Ok(());
        }
        Err(untouched(format!("{shown} was moved: call again")))
    }

    /// What stands under the journal's name in the folder, and what the system
    /// finds by the journal as it was given.
    fn found(&self) -> Result<[Option<Metadata>; 2], String> {
        let here = there(fs::symlink_metadata(&self.name));
        let given = there(fs::metadata(&self.lasting));
        let found = here.and_then(|here| Ok([here, given?]));
        found.map_err(cannot("read", &self.shown(&self.name)))
    }

    /// Reads the journal.
    pub fn read(&self) -> Result<Old, End> {
        let shown = self.shown(&self.name);
        self.still_leads_here()?;
        self.enter()?;
        match self.found().map_err(untouched)? {
            [None, None] => return Ok(Old::default()),
            [Some(here), Some(given)] if is_same(&here, &given) && here.is_file() => {}
            [Some(here), _] if here.is_file() => return Err(self.changed()),
            _ => return Err(untouched(format!("{shown} is not a plain file"))),
        }
        let failed = |error| untouched(cannot("read", &shown)(error));
        let file = open_plain(&self.name).map_err(failed)?;
        let found = file.metadata().map_err(failed)?;
        if !found.is_file() {
            return Err(self.changed());
        }
        let most = brimusket::JOURNAL_BYTES;
        let bytes = all_of(&file, most).map_err(failed)?;
        if bytes.len() > most {
            return Err(untouched(format!(
                "{shown} has more than {most} bytes, which no journal has: move it away and call again"
            )));
        }
        let file = Some((file, found));
        Ok(Old { file, bytes })
    }

    /// Fails where the journal as it was given no longer leads where it led before
    /// the lock was taken.
    fn still_leads_here(&self) -> Result<(), End> {
        let (path, name) = behind_links(&self.given).map_err(untouched)?;
        if (&path, &name) == (&self.path, &self.name) {
            return Ok(());
        }
        Err(self.changed())
    }

    /// Another program does not keep to the lock.
    fn changed(&self) -> End {
        let shown = self.shown(&self.name);
        End::failed(format!(
            "another program changed {shown} meanwhile; this call changed nothing: call again"
        ))
    }

    /// Whether the journal is still the file that was read, with the same bytes.
    fn is_as_read(&self, old: &Old) -> Result<bool, String> {
        let state = |file: &Metadata| {
            let time = (file.mtime(), file.mtime_nsec());
            let owner = (file.uid(), file.gid(), file.mode());
            (file.dev(), file.ino(), file.len(), time, owner)
        };
        let then = old.file.as_ref().map(|(_, found)| state(found));
        let found = self.found()?;
        let alike = found.iter().all(|now| now.as_ref().map(state) == then);
        let Some((file, _)) = &old.file else {
            return Ok(alike);
        };
        let shown = self.shown(&self.name);
        let bytes = all_of(file, brimusket::JOURNAL_BYTES).map_err(cannot("read", &shown))?;
        Ok(alike && bytes == old.bytes)
    }

    /// Refuses a call in which one file would be two things. The journal is going
    /// to be replaced, and what has the program's own name to be removed.
    pub fn keep_apart(&self, old: &Old, policy: Metadata) -> Result<(), End> {
        let policy = [("the policy file".to_string(), policy)];
        let outputs = outputs().map_err(cannot("look at", "standard output and error"));
        let outputs = outputs.map_err(untouched)?;
        let journal = old.file.as_ref().map(|(_, found)| found.clone());
        let left = fs::symlink_metadata(RESERVED).ok();
        let own = [
            ("the journal".into(), journal),
            (self.shown(RESERVED), left),
        ];
        let own = own.map(|(name, file)| Some((name, file?)));
        let own: Vec<Named> = own.into_iter().flatten().collect();
        let apart = are_apart(&own, &policy)
            .and_then(|()| are_apart(&own, &outputs))
            .and_then(|()| are_apart(&policy, &outputs));
        apart.map_err(untouched)
    }

    /// Puts the new journal in the place of the old one, on the disk. Where
    /// something is dropped, the old file is saved under another name and that is
    /// said, before it is replaced.
    pub fn replace(
        &self,
        old: &Old,
        journal: &[u8],
        dropped: Option<String>,
    ) -> Result<OnDisk<'_>, End> {
        self.clear()?;
        let put = self.put(old, journal, dropped).map_err(untouched);
        let new = put.and_then(|new| new.ok_or_else(|| self.changed()));
        let new = new.inspect_err(|_| {
            let _ = fs::remove_file(RESERVED);
        })?;
        let unsure = |what| {
            End::failed(format!(
                "{what}; the new journal was put in its place, but that is not sure to last, \
                 so no answer is given: call again"
            ))
        };
        self.force().map_err(unsure)?;
        if self.is_in_place(&new, journal).map_err(unsure)? {
            return Ok(OnDisk { _held: self });
        }
        let shown = self.shown(&self.name);
        Err(unsure(format!("another program changed {shown} meanwhile")))
    }

    /// Removes what a call that was cut off has left.
    fn clear(&self) -> Result<(), End> {
        if fs::symlink_metadata(RESERVED).is_err() {
            return Ok(());
        }
        let shown = self.shown(RESERVED);
        let removed = fs::remove_file(RESERVED).map_err(cannot("remove", &shown));
        removed.map_err(|what| untouched(format!("{what}; remove it by hand")))
    }

    /// Writes the new journal, saves the old one where that is to be, and renames;
    /// nothing where another program has changed the old one.
    fn put(
        &self,
        old: &Old,
        journal: &[u8],
        dropped: Option<String>,
    ) -> Result<Option<File>, String> {
        let new = self.write(old, journal)?;
        if let (Some(words), Some((file, found))) = (dropped, &old.file) {
            if !self.is_as_read(old)? {
                return Ok(None);
            }
            let saved = self.save(file, found, &old.bytes)?;
            say(&format!("{words} The old journal stays as {saved}"));
        }
        if !self.is_as_read(old)? {
            return Ok(None);
        }
        let shown = self.shown(&self.name);
        let moved = fs::rename(RESERVED, &self.name).map_err(cannot("replace", &shown));
        moved.map(|()| Some(new))
    }

    /// Writes the journal to a new file, and forces it to the disk.
    fn write(&self, old: &Old, journal: &[u8]) -> Result<File, String> {
        let shown = self.shown(RESERVED);
        let mut options = OpenOptions::new();
        options.read(true).write(true).create_new(true);
        if old.file.is_some() {
            options.mode(0o600);
        }
        let mut new = options.open(RESERVED).map_err(cannot("make", &shown))?;
        new.write_all(journal).map_err(cannot("write", &shown))?;
        if let Some((_, found)) = &old.file {
            let owned = make_alike(&new, found);
            owned.map_err(cannot("give the journal's owner and mode to", &shown))?;
        }
        new.sync_all().map_err(cannot("fsync", &shown))?;
        Ok(new)
    }

    /// Whether the journal's name leads to the new file, and that holds its bytes.
    fn is_in_place(&self, new: &File, journal: &[u8]) -> Result<bool, String> {
        let shown = self.shown(&self.name);
        let made = new.metadata().map_err(cannot("look at", &shown))?;
        let is_new =
            |file: &Option<Metadata>| file.as_ref().is_some_and(|file| is_same(file, &made));
        if !self.found()?.iter().all(is_new) {
            return Ok(false);
        }
        let held = all_of(new, journal.len()).map_err(cannot("read", &shown))?;
        Ok(held == journal)
    }

    /// Forces the folder to the disk, and so the names in it.
    fn force(&self) -> Result<(), String> {
        let shown = format!("the folder {:?}", self.path);
        let forced = self.folder.sync_all();
        forced.map_err(cannot("fsync", &shown))
    }

    /// Gives the old journal one more name, under which its bytes stay, unless
    /// they stand beside it already. All of it is forced to the disk.
    fn save(&self, file: &File, found: &Metadata, bytes: &[u8]) -> Result<String, String> {
        let shown = self.shown(&self.name);
        let forced = file
            .sync_all()
            .and_then(|()| self.saved_before(found, bytes));
        let saved = match forced.map_err(cannot("save the bytes of", &shown))? {
            Some(name) => name,
            None => self.link().map_err(|error| {
                let what = cannot("save the bytes of", &shown)(error);
                format!("{what} (by one more name, a hard link); move it away and call again")
            })?,
        };
        self.force()?;
        Ok(self.shown(saved))
    }

    /// How the names of saved journals begin.
    fn stem(&self) -> Vec<u8> {
        let name = self.name.as_bytes();
        [&name[..name.len().min(LONGEST_STEM)], b".saved-"].concat()
    }

    /// A saved journal with the same bytes and owner, forced to the disk.
    fn saved_before(&self, old: &Metadata, bytes: &[u8]) -> io::Result<Option<OsString>> {
        let stem = self.stem();
        let is_saved = |name: &OsString| {
            name.as_bytes().starts_with(&stem) && holds(name, old, bytes).unwrap_or(false)
        };
        let names = fs::read_dir(".")?.map(|entry| Ok(entry?.file_name()));
        let names: Vec<OsString> = names.collect::<io::Result<_>>()?;
        let Some(name) = names.into_iter().find(is_saved) else {
            return Ok(None);
        };
        open_plain(&name)?.sync_all()?;
        Ok(Some(name))
    }

    /// Gives the journal one more name, the first that is free.
    fn link(&self) -> io::Result<OsString> {
        let mut count = 1;
        loop {
            let name = [self.stem(), count.to_string().into_bytes()].concat();
            let name = OsString::from_vec(name);
            match fs::hard_link(&self.name, &name) {
                Err(error) if error.kind() == ErrorKind::AlreadyExists => count += 1,
                linked => return linked.map(|()| name),
            }
        }
    }
}
