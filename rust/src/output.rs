//! What the program says, and with which status it ends.

use crate::files::{is_same, kind_of};
use std::ffi::OsStr;
use std::fs::{self, File, Metadata};
use std::io::{self, Write};
use std::os::fd::AsFd;
use std::sync::atomic::{AtomicBool, Ordering};

/// Why a call ends otherwise than with all of its answers: its status, and a
/// sentence for standard error.
pub struct End {
    pub status: u8,
    pub message: String,
}

impl End {
    /// The policy file was refused.
    pub fn refused(message: String) -> End {
        End { status: 1, message }
    }

    /// Something failed, and no answer was given.
    pub fn failed(message: String) -> End {
        End { status: 2, message }
    }

    /// Another call holds the lock.
    pub fn locked(message: String) -> End {
        End { status: 3, message }
    }

    /// The journal is safe, but what was to be printed is not out whole.
    fn unprinted(message: String) -> End {
        End { status: 4, message }
    }
}

/// Says of an error what cannot be done to which file.
pub fn cannot<'n>(what: &'n str, name: &'n str) -> impl Fn(io::Error) -> String + 'n {
    move |error| {
        let why = error.to_string();
        let why = why.split(" (os error").next().unwrap_or_default();
        format!("cannot {what} {name}: {why}")
    }
}

/// A line on standard error. Where it cannot be written, there is nobody to tell.
pub fn say(message: &str) {
    if !SILENT.load(Ordering::Relaxed) {
        let _ = io::stderr().write_all(format!("brimusket: {message}\n").as_bytes());
    }
}

/// Whether standard error is a file that a message would spoil.
static SILENT: AtomicBool = AtomicBool::new(false);

/// Says nothing from here on where standard error is a file that one of these
/// words names, or standard input: nobody would read it there, and the file would
/// be changed.
pub fn spare(words: &[&OsStr]) {
    let input = kind_of(io::stdin().as_fd());
    let error = kind_of(io::stderr().as_fd());
    let mut files = words.iter().map(fs::metadata).chain([input]).flatten();
    let is_error = |file: Metadata| {
        let is_same = error.as_ref().is_ok_and(|error| is_same(error, &file));
        is_same && file.is_file()
    };
    SILENT.store(files.any(is_error), Ordering::Relaxed);
}

/// Whether standard input and standard output were open when the process began.
/// The language's runtime puts /dev/null in the place of a closed one before
/// `main`: the answers would go there without a word, and a policy file that is
/// not there would be an empty one. So this is looked at before that.
static OPEN: [AtomicBool; 2] = [const { AtomicBool::new(true) }; 2];

extern "C" fn look() {
    let (input, output) = (io::stdin(), io::stdout());
    for (open, file) in OPEN.iter().zip([input.as_fd(), output.as_fd()]) {
        open.store(file.try_clone_to_owned().is_ok(), Ordering::Relaxed);
    }
}

// SAFETY: what stands in this section is called once before `main`, without
// arguments; `look` does not panic and uses nothing that `main` sets up.
#[used]
#[allow(unsafe_code)]
#[link_section = ".init_array"]
static LOOK: extern "C" fn() = look;

/// Fails where standard output is closed.
pub fn is_open() -> Result<(), End> {
    if OPEN[1].load(Ordering::Relaxed) {
        return Ok(());
    }
    Err(End::failed(
        "standard output is closed: no answer can be given, and nothing was done".into(),
    ))
}

fn closed() -> io::Error {
    io::Error::other("it is closed")
}

/// Opens the file of this name, or standard input, past the language's own input,
/// which takes one that cannot be read for an empty one.
pub fn input(name: Option<&OsStr>) -> io::Result<File> {
    let standard = File::from(io::stdin().as_fd().try_clone_to_owned()?);
    let was_open = OPEN[0].load(Ordering::Relaxed);
    let Some(name) = name else {
        return if was_open {
            Ok(standard)
        } else {
            Err(closed())
        };
    };
    let file = File::open(name)?;
    if !was_open && is_same(&file.metadata()?, &standard.metadata()?) {
        return Err(closed());
    }
    Ok(file)
}

/// Prints a text. It goes past the buffer of the language's own output, which
/// takes an output that cannot be written for one that nobody wants.
pub fn print(text: &[u8]) -> Result<(), End> {
    let output = io::stdout().as_fd().try_clone_to_owned();
    let printed = output.and_then(|output| File::from(output).write_all(text));
    let printed = printed.map_err(cannot("write", "standard output"));
    printed.map_err(|what| End::unprinted(format!("{what}; not all is printed: call again")))
}
