//! The examples in README.md and docs/CODES.md, run as a reader would run them.
#![cfg(feature = "proved")]

use against::journals;
use against::night::Folder;
use against::workspace::{program, root};
use std::fs;
use std::io::Write;
use std::os::unix::fs::symlink;
use std::path::Path;
use std::process::{Command, Stdio};

/// The blocks of a document that open with this line, without their fences.
fn blocks<'d>(document: &'d str, opening: &str) -> Vec<(&'d str, &'d str)> {
    document
        .match_indices(&format!("{opening}\n"))
        .filter_map(|(at, fence)| document[at + fence.len()..].split_once("\n```"))
        .collect()
}

/// What a document says that an example prints: the next text in backquotes.
fn printed(rest: &str) -> &str {
    let mut parts = rest.split('`');
    parts.next();
    parts.next().expect("what the example prints")
}

/// The file that a document shows with a sign for each line feed.
fn file(policy: &str) -> String {
    policy.replace("⏎\n", "\n").replace('⏎', "\n")
}

/// The commands of README.md that are followed by what they print.
fn examples(readme: &str) -> Vec<(&str, &str)> {
    let commands = blocks(readme, "```sh").into_iter();
    let shown = commands.filter_map(|(command, rest)| {
        let (printed, _) = rest.strip_prefix("\n\n```\n")?.split_once("\n```")?;
        Some((command, printed))
    });
    shown.collect()
}

/// A folder in which the root's commands and examples are found.
fn folder_with_commands() -> Folder {
    let folder = Folder::new();
    for part in ["bin", "examples"] {
        let whole = root().canonicalize().expect("the root").join(part);
        symlink(whole, folder.path(part)).expect("a link");
    }
    folder
}

/// With which status a command of a document ends, and what it prints.
fn shell(command: &str, folder: &Path) -> (Option<i32>, String) {
    let output = Command::new("sh")
        .args(["-c", command])
        .current_dir(folder)
        .output()
        .expect("a shell");
    let text = String::from_utf8(output.stdout).expect("text");
    (output.status.code(), text.trim_end().into())
}

/// What the desk program prints for a policy file.
fn desk(policy: &str) -> String {
    let mut child = Command::new(program("desk"))
        .stdin(Stdio::piped())
        .stdout(Stdio::piped())
        .spawn()
        .expect("the desk program starts");
    let mut input = child.stdin.take().expect("a pipe");
    input
        .write_all(policy.as_bytes())
        .expect("the file is read");
    drop(input);
    let output = child.wait_with_output().expect("the desk program ends");
    String::from_utf8(output.stdout).expect("text")
}

/// In the second round the night's calls find the journal that the first left.
#[test]
fn the_examples_of_the_readme_print_what_it_says() {
    let readme = fs::read_to_string(root().join("README.md")).expect("README.md");
    let examples = examples(&readme);
    assert_eq!(examples.len(), 3);
    let folder = folder_with_commands();
    for _ in 0..2 {
        for (command, expected) in &examples {
            let printed = (Some(0), expected.to_string());
            assert_eq!(shell(command, &folder.0), printed, "{command}");
        }
    }
}

#[test]
fn the_files_shown_for_the_codes_are_refused_as_they_say() {
    let codes = fs::read_to_string(root().join("docs/CODES.md")).expect("docs/CODES.md");
    let examples = blocks(&codes, "```policy");
    assert_eq!(examples.len(), 2);
    for (policy, rest) in examples {
        assert_eq!(desk(&file(policy)).trim_end(), printed(rest), "{policy}");
    }
}

#[test]
fn the_commands_shown_for_the_codes_are_refused_as_they_say() {
    let codes = fs::read_to_string(root().join("docs/CODES.md")).expect("docs/CODES.md");
    let examples = blocks(&codes, "```sh");
    assert_eq!(examples.len(), 3);
    for (command, rest) in examples {
        let refused = (Some(1), printed(rest).to_string());
        assert_eq!(shell(command, &root()), refused, "{command}");
    }
}

/// What comes of a call for a chain that a document shows: a query's count, the
/// journal's used length and the lent buffer's length.
fn called(call: &str, file: &[u8], journal: &[u8]) -> String {
    let numbers = call.split(|sign: char| !sign.is_ascii_digit());
    let numbers: Vec<usize> = numbers.filter_map(|number| number.parse().ok()).collect();
    let [query, used, out] = numbers[..] else {
        panic!("three numbers in '{call}'");
    };
    let chained = brimusket::chain(file, journal, used, query, &mut vec![0; out]);
    match chained.code {
        0 => format!("{} records", chained.records),
        code => format!("refused {code} {}", chained.place),
    }
}

#[test]
fn the_calls_shown_for_the_codes_of_a_chain_come_out_as_they_say() {
    let codes = fs::read_to_string(root().join("docs/CODES.md")).expect("docs/CODES.md");
    let [(policy, _)] = blocks(&codes, "```chained")[..] else {
        panic!("one file");
    };
    let file = file(policy);
    let journal = journals::finished(file.as_bytes());
    assert_eq!(journal.len(), 36);
    let calls = blocks(&codes, "```calls");
    let calls: Vec<&str> = calls.iter().flat_map(|(calls, _)| calls.lines()).collect();
    assert_eq!(calls.len(), 7);
    for shown in calls {
        let (call, expected) = shown.split_once(": ").expect("a call and what comes of it");
        assert_eq!(called(call, file.as_bytes(), &journal), expected, "{call}");
    }
}
