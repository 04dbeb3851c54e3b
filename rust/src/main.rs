//! `brimusket night POLICY JOURNAL [LIMIT]` and `brimusket desk [POLICY]`: the
//! program around the proved library.
//!
//! What is decided, what is written to the journal and which answers are printed
//! come out of one proved call. This program moves the bytes: it reads, calls,
//! brings the journal to the disk and only then prints. `call` has that call,
//! `disk` the lock and the journal, `files` which file is which, `output` what
//! is said.
#![deny(unsafe_code)]

mod call;
mod disk;
mod files;
mod output;

use brimusket::Dropped;
use call::{Night, Refused};
use disk::Held;
use files::{are_apart, outputs};
use output::{cannot, say, End};
use std::env;
use std::ffi::{OsStr, OsString};
use std::fs::Metadata;
use std::io::{self, Read};
use std::os::unix::ffi::OsStrExt;
use std::panic;
use std::process::ExitCode;

const HELP: &str = "\
brimusket night [--questions] [--] POLICY JOURNAL [LIMIT]
    Answers the questions of the file POLICY, a line each: yes, no or open. Keeps
    what it derives in the file JOURNAL, which is on the disk before an answer is
    printed. At most LIMIT records are added; without it, all that are missing.
brimusket desk [--questions] [--] [POLICY]
    Answers the questions of the file POLICY, or of standard input, and keeps no
    journal.
brimusket --help, brimusket --version

--questions  puts each question behind its answer.
--           ends the options: what follows may begin with a dash.

Status: 0 all answers are out. 1 the policy file was refused: `refused`, the code
and the place are printed, and docs/CODES.md says what to do. 2 something failed:
no answer was given. 3 another call works in the journal's folder: call again.
4 the journal is safe, but what was to be printed could not be written out whole:
call again.
";

fn main() -> ExitCode {
    let words: Vec<OsString> = env::args_os().skip(1).collect();
    let ended = panic::catch_unwind(|| command(&words)).unwrap_or_else(|_| {
        let what = "a fault of the program or the system; a journal is the old one or the new one, whole: call again";
        Err(End::failed(what.into()))
    });
    let Err(end) = ended else {
        return ExitCode::SUCCESS;
    };
    say(&end.message);
    ExitCode::from(end.status)
}

/// Does what the words of the command line say.
fn command(words: &[OsString]) -> Result<(), End> {
    let names: Vec<&OsStr> = words.iter().skip(1).map(|word| word.as_os_str()).collect();
    output::spare(&names);
    output::is_open()?;
    let (name, words) = words.split_first().ok_or_else(|| usage("no command"))?;
    let given = Given::read(words)?;
    match (name.to_str(), given.names.as_slice()) {
        (Some("--help"), []) => output::print(HELP.as_bytes()),
        (Some("--version"), []) => {
            output::print(format!("brimusket {}\n", env!("CARGO_PKG_VERSION")).as_bytes())
        }
        _ if given.help => output::print(HELP.as_bytes()),
        (Some("desk"), []) => desk(None, given.questions),
        (Some("desk"), [policy]) => desk(Some(policy), given.questions),
        (Some("night"), [policy, journal]) => {
            night(policy, journal, brimusket::ALL, given.questions)
        }
        (Some("night"), [policy, journal, limit]) => {
            night(policy, journal, limit_of(limit)?, given.questions)
        }
        (Some("desk" | "night"), _) => Err(usage("too few or too many names")),
        _ => Err(usage(&format!("no command {name:?}"))),
    }
}

/// The words behind a command: its options, and the names.
struct Given<'w> {
    questions: bool,
    help: bool,
    names: Vec<&'w OsStr>,
}

impl Given<'_> {
    /// A word that begins with a dash is an option, until `--` ends them.
    fn read(words: &[OsString]) -> Result<Given<'_>, End> {
        let (mut questions, mut help, mut names) = (false, false, Vec::new());
        let mut options = true;
        for word in words {
            match word.to_str() {
                Some("--") if options => options = false,
                Some("--questions") if options => questions = true,
                Some("--help") if options => help = true,
                _ if options && word.as_bytes().starts_with(b"-") => {
                    return Err(usage(&format!(
                        "no option {word:?} (a name that begins with a dash goes behind --)"
                    )))
                }
                _ => names.push(word.as_os_str()),
            }
        }
        Ok(Given {
            questions,
            help,
            names,
        })
    }
}

fn usage(wrong: &str) -> End {
    End::failed(format!(
        "{wrong}: call brimusket night POLICY JOURNAL [LIMIT] or brimusket desk [POLICY]; --help says more"
    ))
}

/// A limit is any row of digits; one that is too large for the machine is as good
/// as the largest.
fn limit_of(word: &OsStr) -> Result<usize, End> {
    match word.to_str() {
        Some(digits) if !digits.is_empty() && digits.bytes().all(|b| b.is_ascii_digit()) => {
            Ok(digits.parse().unwrap_or(usize::MAX))
        }
        _ => Err(usage(&format!("the limit {word:?} is no number"))),
    }
}

/// Reads a policy file, or standard input. One byte more than the longest may
/// have shows that it is too long.
fn read_policy(path: Option<&OsStr>) -> io::Result<(Metadata, Vec<u8>)> {
    let file = output::input(path)?;
    let mut policy = Vec::new();
    let most = brimusket::FILE_BYTES as u64 + 1;
    (&file).take(most).read_to_end(&mut policy)?;
    Ok((file.metadata()?, policy))
}

/// Prints a refusal, and says where to read on.
fn refuse(refused: Refused, policy: &str) -> End {
    let code = refused.code;
    let printed = output::print(&refused.text);
    printed.err().unwrap_or_else(|| {
        End::refused(format!(
            "{policy} was refused with code {code}, and nothing was changed: docs/CODES.md says what that means \
             and what to do"
        ))
    })
}

/// Answers a policy file from an empty journal.
fn desk(path: Option<&OsStr>, questions: bool) -> Result<(), End> {
    let name = path.map_or("standard input".into(), |path| format!("{path:?}"));
    let read = read_policy(path).map_err(cannot("read", &name));
    let (file, policy) = read.map_err(End::failed)?;
    let outputs = outputs().map_err(cannot("look at", "standard output and error"));
    let apart = outputs.and_then(|outputs| are_apart(&[(name.clone(), file)], &outputs));
    apart.map_err(End::failed)?;
    let answers = call::desk(&policy, questions).map_err(|refused| refuse(refused, &name))?;
    if answers.is_empty() {
        say(&format!("{name} asks no question"));
    }
    output::print(&answers)
}

/// Answers a policy file and keeps the journal. The folder is locked from before
/// either file is read until the answers are out.
fn night(policy: &OsStr, journal: &OsStr, limit: usize, questions: bool) -> Result<(), End> {
    output::spare(&[policy, journal]);
    disk::is_free(policy)?;
    let held = Held::lock(journal)?;
    let (name, journal) = (format!("{policy:?}"), format!("{journal:?}"));
    let read = read_policy(Some(policy)).map_err(cannot("read", &name));
    let (file, policy) = read.map_err(disk::untouched)?;
    let old = held.read()?;
    held.keep_apart(&old, file)?;
    let called = Night::call(&policy, &old.bytes, limit, questions);
    let night = called.map_err(|refused| refuse(refused, &name))?;
    let on_disk = held.replace(&old, &night.journal, dropped(&night, &name, &journal))?;
    if night.settled.dropped == Dropped::Torn {
        say(&format!(
            "the last record of {journal} was cut off; all before it is kept"
        ));
    }
    if night.is_silent() {
        say(&format!("{name} asks no question"));
    }
    output::print(night.answers(&on_disk)).map_err(|mut end| {
        end.message += "; the journal is safe";
        end
    })
}

/// What is said where more than a torn record is dropped, and what that can mean.
fn dropped(night: &Night, policy: &str, journal: &str) -> Option<String> {
    let (kept, records) = (night.settled.report.kept, night.settled.records);
    let from = kept * brimusket::RECORD_BYTES;
    (night.settled.dropped == Dropped::More).then(|| {
        format!(
            "keeps {kept} of {records} records of {journal}; what stands from byte {from} on does not follow from {policy}. \
             That can mean another policy file, an edited one, or a damaged disk."
        )
    })
}
