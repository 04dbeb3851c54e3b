//! Names and links, and which file is which.

use std::ffi::{OsStr, OsString};
use std::fs::{self, File, Metadata, OpenOptions};
use std::io::{self, ErrorKind, Read, Seek, SeekFrom};
use std::os::fd::{AsFd, BorrowedFd};
use std::os::unix::ffi::OsStrExt;
use std::os::unix::fs::{fchown, MetadataExt, OpenOptionsExt};
use std::path::{Path, PathBuf};

/// Links that lead to each other are not followed for ever.
const MOST_LINKS: usize = 40;

/// The folder and the name in a path. One that ends in a slash or a dot names a
/// folder.
fn parts(path: &Path) -> Result<(PathBuf, OsString), String> {
    let bytes = path.as_os_str().as_bytes();
    let end = bytes.iter().rposition(|byte| *byte == b'/');
    let (folder, name) = bytes.split_at(end.map_or(0, |end| end + 1));
    if name.is_empty() || name == b"." || name == b".." {
        return Err(format!("{path:?} names no file"));
    }
    let folder = if folder.is_empty() { b"." } else { folder };
    Ok((
        OsStr::from_bytes(folder).into(),
        OsStr::from_bytes(name).into(),
    ))
}

/// The folder and the name of the file behind a path and behind all symbolic
/// links that it leads to, whether it is there or not.
pub fn behind_links(journal: &Path) -> Result<(PathBuf, OsString), String> {
    let mut path = journal.to_path_buf();
    for _ in 0..=MOST_LINKS {
        let (folder, name) = parts(&path)?;
        match fs::read_link(&path) {
            Ok(target) => path = folder.join(target),
            Err(_) => return Ok((folder, name)),
        }
    }
    Err(format!(
        "{journal:?} leads through more than {MOST_LINKS} symbolic links"
    ))
}

/// A file that may be missing.
pub fn there(found: io::Result<Metadata>) -> io::Result<Option<Metadata>> {
    match found {
        Err(error) if error.kind() == ErrorKind::NotFound => Ok(None),
        found => found.map(Some),
    }
}

/// Opens a file for reading, and waits for nothing: neither for a link's target
/// nor for the other end of a pipe.
pub fn open_plain(name: &OsStr) -> io::Result<File> {
    const O_NONBLOCK: i32 = 0o4_000;
    const O_NOFOLLOW: i32 = 0o400_000;
    let mut options = OpenOptions::new();
    options.read(true).custom_flags(O_NONBLOCK | O_NOFOLLOW);
    options.open(name)
}

/// Whether a file keeps these bytes for the owner of the old one. What this call
/// is going to print into does not.
pub fn holds(name: &OsStr, old: &Metadata, bytes: &[u8]) -> io::Result<bool> {
    let file = open_plain(name)?;
    let found = file.metadata()?;
    let outputs = outputs()?;
    let is_output = outputs.iter().any(|(_, output)| is_same(output, &found));
    let (ours, theirs) = ((old.uid(), old.len()), (found.uid(), found.len()));
    if is_output || !found.is_file() || ours != theirs {
        return Ok(false);
    }
    Ok(all_of(&file, bytes.len())? == bytes)
}

/// Gives the new file the owner and the mode of the old one.
pub fn make_alike(new: &File, old: &Metadata) -> io::Result<()> {
    let made = new.metadata()?;
    if (made.uid(), made.gid()) != (old.uid(), old.gid()) {
        fchown(new, Some(old.uid()), Some(old.gid()))?;
    }
    new.set_permissions(old.permissions())
}

/// A file, and what it is called in what is said of it.
pub type Named = (String, Metadata);

/// Two names or descriptors of one file.
pub fn is_same(one: &Metadata, other: &Metadata) -> bool {
    (one.dev(), one.ino()) == (other.dev(), other.ino())
}

/// Fails where a plain file of the first row is one of the second, too.
pub fn are_apart(files: &[Named], others: &[Named]) -> Result<(), String> {
    for (name, file) in files.iter().filter(|(_, file)| file.is_file()) {
        if let Some((other, _)) = others.iter().find(|(_, other)| is_same(file, other)) {
            return Err(format!("{other} and {name} are one file"));
        }
    }
    Ok(())
}

/// What an open file is.
pub fn kind_of(open: BorrowedFd) -> io::Result<Metadata> {
    File::from(open.try_clone_to_owned()?).metadata()
}

/// What standard output and standard error are.
pub fn outputs() -> io::Result<[Named; 2]> {
    let output = kind_of(io::stdout().as_fd())?;
    let error = kind_of(io::stderr().as_fd())?;
    Ok([
        ("standard output".into(), output),
        ("standard error".into(), error),
    ])
}

/// All bytes of an open file, from its beginning on, and one more than so many at
/// the most.
pub fn all_of(mut file: &File, most: usize) -> io::Result<Vec<u8>> {
    let mut bytes = Vec::new();
    file.seek(SeekFrom::Start(0))?;
    file.take(most as u64 + 1).read_to_end(&mut bytes)?;
    Ok(bytes)
}
