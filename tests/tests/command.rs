//! The command `bin/brimusket`: it builds what is missing or too old and hands
//! over to the program. Here it stands in a made-up repository with a toolchain
//! that only notes how it is called.

use against::workspace::root;
use std::env;
use std::fs;
use std::io::Write;
use std::os::unix::fs::symlink;
use std::path::{Path, PathBuf};
use std::process::{Child, Command, Output, Stdio};
use std::sync::atomic::{AtomicUsize, Ordering};

/// The prover: it takes all of its input, names two crates, and notes the call, which
/// is made in the crate's folder. What it builds there is the library.
const RT: &str = r#"#!/bin/sh
cat >/dev/null
echo "rt $*" >>../../calls
echo 'enum infon::Way: proved'
echo 'crate infon: modules loaded=0 checked=7'
echo 'logic=proved functions=0'
echo 'crate brimusket: modules loaded=7 checked=2'
if [ -e ../../broken ]; then
    echo 'logic=not-proved'
    exit 1
fi
echo 'logic=proved functions=3'
mkdir -p out
echo "$PWD" >out/libbrimusket.a
"#;

/// The builder: it makes a program that shows its words, its process and its
/// input, and ends with status 7.
const CARGO: &str = r#"#!/bin/sh
cat >/dev/null
echo "cargo $*" >>calls
[ ! -e elsewhere ] || exit 0
folder=target/cargo/x86_64-unknown-linux-gnu/release
mkdir -p $folder
cat >$folder/brimusket <<'END'
#!/bin/sh
printf 'process %s:' $$
printf ' <%s>' "$@"
cat
exit 7
END
chmod +x $folder/brimusket
"#;

/// A clock that is read when the prover begins and behind each crate: it shows the
/// seconds in a file, one after the other and round again.
const DATE: &str = r#"#!/bin/sh
cd "$(dirname "$0")"
read -r now later <seconds
echo "$later $now" >seconds
echo "$now"
"#;

/// What tells the kind of the machine.
const X86_64: &str = "#!/bin/sh\necho x86_64\n";
const AARCH64: &str = "#!/bin/sh\necho aarch64\n";

/// What `.ci/emulate` sets for a build on another machine.
const LINKER: &str = "CARGO_TARGET_X86_64_UNKNOWN_LINUX_GNU_LINKER";

/// A made-up repository, removed at the end.
struct Repository(PathBuf);

impl Repository {
    fn new() -> Repository {
        static COUNT: AtomicUsize = AtomicUsize::new(0);
        let count = COUNT.fetch_add(1, Ordering::Relaxed);
        let name = format!("command {} {count}", std::process::id());
        let repository = Repository(env::temp_dir().join(name));
        for folder in ["bin", "tools", "crates/infon", "crates/brimusket", "rust"] {
            fs::create_dir_all(repository.0.join(folder)).expect("a folder");
        }
        for file in ["crates.txt", "Cargo.toml", "crates/infon/a.rt"] {
            fs::write(repository.0.join(file), "").expect("a file");
        }
        for name in ["bin/brimusket", "bin/library"] {
            let command = fs::read(root().join(name)).expect("the command");
            repository.program(name, &command);
        }
        repository.program("tools/rt", RT.as_bytes());
        repository.program("tools/cargo", CARGO.as_bytes());
        repository.program("tools/uname", X86_64.as_bytes());
        repository.program("tools/date", DATE.as_bytes());
        repository.program("tools/seconds", b"100 107 109\n");
        repository
    }

    /// Another process writes it: what this one has open for writing might stay
    /// open in a child, and could then not be run.
    fn program(&self, name: &str, text: &[u8]) {
        let mut write = Command::new("sh");
        write.args(["-c", "cat >\"$0\" && chmod 755 \"$0\""]);
        write.arg(self.0.join(name)).stdin(Stdio::piped());
        let mut child = write.spawn().expect("a shell");
        let mut input = child.stdin.take().expect("a pipe");
        input.write_all(text).expect("it takes the text");
        drop(input);
        assert!(child.wait().expect("it ends").success());
    }

    /// A call of the command by this path, from another folder.
    fn call(&self, path: &Path) -> Child {
        let tools = env::join_paths([self.0.join("tools"), "/usr/bin".into(), "/bin".into()]);
        let mut command = Command::new(path);
        command.args(["night", "a b", ""]);
        command.env("PATH", tools.expect("a path")).current_dir("/");
        command.env_remove(LINKER);
        command.stdin(Stdio::piped()).stdout(Stdio::piped());
        let mut child = command.stderr(Stdio::piped()).spawn().expect("it starts");
        let mut input = child.stdin.take().expect("a pipe");
        let _ = input.write_all(b" input");
        child
    }

    fn called(&self) -> (u32, Output) {
        let child = self.call(&self.0.join("bin/brimusket"));
        let process = child.id();
        (process, child.wait_with_output().expect("it ends"))
    }

    /// How the toolchain was called.
    fn calls(&self) -> String {
        fs::read_to_string(self.0.join("calls")).unwrap_or_default()
    }
}

impl Drop for Repository {
    fn drop(&mut self) {
        let _ = fs::remove_dir_all(&self.0);
    }
}

const BUILD: &str = "rt lib\n\
                     cargo build --offline --release --target x86_64-unknown-linux-gnu --package brimusket\n";

/// The program alone answers: by its words, its input and its status, and it is
/// the very process that was called.
fn assert_handed_over(process: u32, said: &Output) {
    let text = String::from_utf8_lossy(&said.stdout);
    let expected = format!("process {process}: <night> <a b> <> input");
    assert_eq!(text, expected);
    assert_eq!(said.status.code(), Some(7));
}

#[test]
fn the_first_call_builds_with_a_line_for_each_crate_and_later_ones_do_not() {
    let repository = Repository::new();
    let (process, said) = repository.called();
    assert_handed_over(process, &said);
    let told = String::from_utf8_lossy(&said.stderr).into_owned();
    let lines: Vec<&str> = told.lines().collect();
    let crates = [
        "brimusket: infon proved (7 s)",
        "brimusket: brimusket proved (2 s)",
    ];
    assert_eq!(lines[1..], crates, "{told}");
    assert_eq!(repository.calls(), BUILD);
    let (process, said) = repository.called();
    assert_handed_over(process, &said);
    assert!(said.stderr.is_empty());
    assert_eq!(repository.calls(), BUILD);
}

#[test]
fn a_newer_source_is_built_anew() {
    let repository = Repository::new();
    repository.called();
    fs::write(repository.0.join("crates/infon/b.rt"), "").expect("a new source");
    let (process, said) = repository.called();
    assert_handed_over(process, &said);
    assert_eq!(repository.calls(), BUILD.repeat(2));
}

#[test]
fn a_build_that_fails_is_told_and_nothing_is_called() {
    let repository = Repository::new();
    fs::write(repository.0.join("broken"), "").expect("a file");
    let (_, said) = repository.called();
    assert_eq!(said.status.code(), Some(2));
    assert!(said.stdout.is_empty());
    let told = String::from_utf8_lossy(&said.stderr);
    assert!(told.contains("the library is not proved"), "{told}");
    fs::remove_file(repository.0.join("broken")).expect("it was there");
    let (process, said) = repository.called();
    assert_handed_over(process, &said);
}

#[test]
fn a_build_that_leaves_no_program_is_told() {
    let repository = Repository::new();
    fs::write(repository.0.join("elsewhere"), "").expect("a file");
    let (_, said) = repository.called();
    assert_eq!(said.status.code(), Some(2));
    let told = String::from_utf8_lossy(&said.stderr);
    assert!(told.contains("the program is not built"), "{told}");
}

#[test]
fn a_copy_of_the_command_elsewhere_makes_nothing_there() {
    let repository = Repository::new();
    fs::remove_file(repository.0.join("crates.txt")).expect("it was there");
    let (_, said) = repository.called();
    assert_eq!(said.status.code(), Some(2));
    let told = String::from_utf8_lossy(&said.stderr);
    assert!(told.contains("there is no repository"), "{told}");
    assert!(!repository.0.join("target").exists());
}

#[test]
fn a_tool_that_is_missing_is_named() {
    let repository = Repository::new();
    fs::remove_file(repository.0.join("tools/rt")).expect("it was there");
    let (_, said) = repository.called();
    assert_eq!(said.status.code(), Some(2));
    let told = String::from_utf8_lossy(&said.stderr);
    assert!(
        told.contains("rt, which a build needs, is missing"),
        "{told}"
    );
}

#[test]
fn a_machine_that_needs_an_emulator_is_told_and_nothing_is_built() {
    let repository = Repository::new();
    repository.program("tools/uname", AARCH64.as_bytes());
    let (_, said) = repository.called();
    assert_eq!(said.status.code(), Some(2));
    let told = String::from_utf8_lossy(&said.stderr);
    let words = "brimusket: the program is for x86-64, and this machine is aarch64: ";
    assert!(told.starts_with(words), "{told}");
    assert_eq!(repository.calls(), "");
    assert!(!repository.0.join("target").exists());
}

#[test]
fn a_link_to_the_command_is_as_good() {
    let repository = Repository::new();
    let link = repository.0.join("tonight");
    symlink(repository.0.join("bin/brimusket"), &link).expect("a link");
    let child = repository.call(&link);
    let process = child.id();
    let said = child.wait_with_output().expect("it ends");
    assert_handed_over(process, &said);
}

#[test]
fn callers_at_once_build_once() {
    let repository = Repository::new();
    let command = repository.0.join("bin/brimusket");
    let callers: Vec<Child> = (0..6).map(|_| repository.call(&command)).collect();
    for child in callers {
        let process = child.id();
        assert_handed_over(process, &child.wait_with_output().expect("it ends"));
    }
    assert_eq!(repository.calls(), BUILD);
}
