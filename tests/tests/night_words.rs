//! What the program says: its status, what it prints on standard output, and its
//! words on standard error, letter by letter.
#![cfg(feature = "proved")]

use against::journals::{self, RECORD};
use against::machine::{limit_stack, share};
use against::made_up;
use against::night::{
    brimusket, cannot, ended, expected, fails, goes_through, night, policies, stale, started, told,
    torn, Folder, Told, ANSWERS, MOST, NIGHT,
};
use against::rng::Rng;
use against::workspace::{program, root};
use std::fs::{self, File};
use std::io::Write;
use std::path::Path;
use std::process::{Command, Stdio};

/// The words behind each that is wrong in a command line.
fn usage(wrong: &str) -> String {
    format!(
        "brimusket: {wrong}: call brimusket night POLICY JOURNAL [LIMIT] or brimusket desk [POLICY]; --help says more\n"
    )
}

/// The words behind a refusal.
fn refusal(name: &str, code: usize) -> String {
    format!(
        "brimusket: {name} was refused with code {code}, and nothing was changed: \
         docs/CODES.md says what that means and what to do\n"
    )
}

/// Text that is no journal.
const TEXT: &[u8] = b"H b\nQ b\n and no journal";

// ---------------------------------------------------------------------------
// Command lines
// ---------------------------------------------------------------------------

#[test]
fn a_night_from_nothing_is_answered() {
    let folder = Folder::with(NIGHT);
    assert_eq!(told(&mut folder.call()), Told::new(0, ANSWERS, ""));
    assert!(folder.kept() == journals::finished(NIGHT));
    assert_eq!(told(&mut folder.call()), Told::new(0, ANSWERS, ""));
    let open = "1 open\n2 open\n3 open\n4 open\n";
    folder.set(b"");
    assert_eq!(told(folder.call().arg("3")), Told::new(0, open, ""));
    assert_eq!(folder.kept().len(), 3 * RECORD);
}

#[test]
fn a_wrong_command_line_is_told() {
    let folder = Folder::cut_night();
    let option = "(a name that begins with a dash goes behind --)";
    let rows: [(&[&str], String); 13] = [
        (&[], "no command".into()),
        (&["x"], r#"no command "x""#.into()),
        (&[""], r#"no command """#.into()),
        (
            &["Night", "policy", "journal"],
            r#"no command "Night""#.into(),
        ),
        (&["policy", "journal"], r#"no command "policy""#.into()),
        (&["--help", "x"], r#"no command "--help""#.into()),
        (&["--version", "x"], r#"no command "--version""#.into()),
        (&["night"], "too few or too many names".into()),
        (&["night", "policy"], "too few or too many names".into()),
        (
            &["night", "policy", "journal", "1", "2"],
            "too few or too many names".into(),
        ),
        (
            &["desk", "policy", "journal"],
            "too few or too many names".into(),
        ),
        (
            &["night", "-q", "policy", "journal"],
            format!(r#"no option "-q" {option}"#),
        ),
        (
            &["desk", "--question", "policy"],
            format!(r#"no option "--question" {option}"#),
        ),
    ];
    for (words, wrong) in rows {
        let mut command = Command::new(program("brimusket"));
        command.args(words).current_dir(&folder.0);
        fails(&mut command, &folder, &usage(&wrong));
    }
}

#[test]
fn help_and_version_are_printed() {
    let folder = Folder::cut_night();
    let old = folder.contents();
    let help = told(&mut brimusket("--help"));
    assert_eq!((help.status, help.words.as_str()), (Some(0), ""));
    assert!(help
        .text
        .starts_with("brimusket night [--questions] [--] POLICY JOURNAL [LIMIT]\n"));
    for status in ["Status: 0", " 1 ", " 2 ", " 3 ", "\n4 "] {
        assert!(help.text.contains(status), "{}", help.text);
    }
    assert_eq!(told(folder.call().arg("--help")), help);
    assert_eq!(told(brimusket("desk").arg("--help")), help);
    let version = told(&mut brimusket("--version"));
    assert_eq!((version.status, version.words.as_str()), (Some(0), ""));
    assert!(version.text.starts_with("brimusket ") && version.text.ends_with("\n"));
    assert!(folder.contents() == old);
}

#[test]
fn a_limit_is_any_row_of_digits() {
    let uncut = journals::finished(NIGHT);
    let thirty = "9".repeat(30);
    let zeros = format!("{}2", "0".repeat(300));
    let rows = [
        ("0", 0),
        ("1", 1),
        ("007", 7),
        ("4096", MOST),
        ("18446744073709551615", MOST),
        ("18446744073709551616", MOST),
        (&thirty, MOST),
        (&zeros, 2),
    ];
    for (word, limit) in rows {
        let folder = Folder::night(&uncut[..RECORD]);
        let whole = expected(NIGHT, &uncut[..RECORD], limit);
        let said = told(folder.call().arg(word));
        assert_eq!(said, Told::new(0, &whole.text, ""), "{word}");
        assert!(folder.kept() == whole.journal, "{word}");
    }
}

#[test]
fn a_limit_that_is_no_number_is_told() {
    let folder = Folder::cut_night();
    for limit in [
        "", "x", "-1", "+1", " 1", "1 ", "1\n", "0x1", "1e3", "1.0", "\u{661}",
    ] {
        let mut command = brimusket("night");
        command.arg("--").arg(folder.policy()).arg(folder.journal());
        let words = usage(&format!("the limit {limit:?} is no number"));
        fails(command.arg(limit), &folder, &words);
    }
}

// ---------------------------------------------------------------------------
// Questions and refusals
// ---------------------------------------------------------------------------

/// The answers with each question of the file behind its own.
fn with_questions(policy: &[u8], answers: &str) -> String {
    let policy = String::from_utf8_lossy(policy);
    let questions = policy.lines().filter_map(|line| line.strip_prefix("Q "));
    let lines = answers.lines().zip(questions);
    lines
        .map(|(answer, asked)| format!("{answer} {asked}\n"))
        .collect()
}

#[test]
fn each_question_stands_behind_its_answer_where_that_is_wanted() {
    let mut rng = Rng::new(91);
    let mut files = policies(&mut rng);
    files.extend((0..share(20)).map(|_| made_up::lenders(&mut rng)));
    for policy in files {
        let folder = Folder::with(&policy);
        let whole = expected(&policy, &[], MOST);
        let text = with_questions(&policy, &whole.text);
        assert_eq!(text.lines().count(), whole.text.lines().count());
        let mut command = brimusket("night");
        command
            .arg("--questions")
            .arg(folder.policy())
            .arg(folder.journal());
        assert_eq!(told(&mut command), Told::new(0, &text, ""));
        assert!(folder.kept() == whole.journal);
        let mut command = brimusket("desk");
        command.arg(folder.policy()).arg("--questions");
        assert_eq!(told(&mut command), Told::new(0, &text, ""));
        assert_eq!(
            told(folder.call().arg("--questions")),
            Told::new(0, &text, "")
        );
    }
}

#[test]
fn a_policy_that_asks_nothing_is_told() {
    for policy in [&b""[..], b"H b\n", b"H b\nH > b c\n"] {
        let folder = Folder::with(policy);
        let name = folder.policy();
        let words = format!("brimusket: {name:?} asks no question\n");
        assert_eq!(told(&mut folder.call()), Told::new(0, "", &words));
        assert!(folder.kept() == journals::finished(policy));
        assert_eq!(told(brimusket("desk").arg(&name)), Told::new(0, "", &words));
    }
}

#[test]
fn a_refused_policy_is_printed_and_changes_nothing() {
    let refusals: [(&[u8], usize, &str); 5] = [
        (&[b'x'; 32_769], 1, "refused 1 0\n"),
        (&[b'x'; 100_000], 1, "refused 1 0\n"),
        (b"H b\nQ  b\n", 2, "refused 2 4\n"),
        (b"H b", 2, "refused 2 0\n"),
        (b"Q S a S b S c S d S e lien\n", 4, "refused 4 0\n"),
    ];
    for (policy, code, text) in refusals {
        for journal in [&journals::finished(NIGHT), TEXT, &b"L"[..]] {
            let folder = Folder::with(policy);
            folder.set(journal);
            let old = folder.contents();
            let words = refusal(&format!("{:?}", folder.policy()), code);
            assert_eq!(told(&mut folder.call()), Told::new(1, text, &words));
            assert!(folder.contents() == old);
        }
    }
}

// ---------------------------------------------------------------------------
// What is not kept
// ---------------------------------------------------------------------------

#[test]
fn dropped_records_are_told_and_saved() {
    let folder = Folder::night(&stale());
    let [policy, journal, saved] = ["policy", "journal", "journal.saved-1"].map(|n| folder.path(n));
    let words = format!(
        "brimusket: keeps 2 of 18 records of {journal:?}; what stands from byte 18 on does not follow from {policy:?}. \
         That can mean another policy file, an edited one, or a damaged disk. The old journal stays as {saved:?}\n"
    );
    assert_eq!(told(&mut folder.call()), Told::new(0, ANSWERS, &words));
    assert!(fs::read(saved).expect("a copy") == stale());
    assert!(folder.kept() == journals::finished(NIGHT));
    assert_eq!(told(&mut folder.call()), Told::new(0, ANSWERS, ""));
    assert_eq!(folder.saved().len(), 1);
}

#[test]
fn the_names_are_told_as_they_were_given() {
    let folder = Folder::night(b"x");
    let mut command = night("./policy", "journal");
    let said = told(command.current_dir(&folder.0));
    let words = "brimusket: keeps 0 of 0 records of \"journal\"; what stands from byte 0 on does not follow from \
                 \"./policy\". That can mean another policy file, an edited one, or a damaged disk. \
                 The old journal stays as \"journal.saved-1\"\n";
    assert_eq!(said, Told::new(0, ANSWERS, words));
}

#[test]
fn the_same_bytes_are_saved_once_and_others_beside_them() {
    let folder = Folder::with(NIGHT);
    let uncut = journals::finished(NIGHT);
    let other = [&uncut[..], &uncut[..]].concat();
    for (journal, count) in [
        (&stale(), 1),
        (&stale(), 1),
        (&other, 2),
        (&stale(), 2),
        (&other, 2),
    ] {
        folder.set(journal);
        goes_through(&folder, MOST);
        goes_through(&folder, MOST);
        assert_eq!((folder.saved().len(), folder.copies(journal)), (count, 1));
    }
}

#[test]
fn a_gap_in_the_numbers_is_filled_and_looked_behind() {
    let folder = Folder::with(NIGHT);
    let save = |number: usize, bytes: &[u8]| {
        fs::write(folder.path(format!("journal.saved-{number}")), bytes).expect("a copy");
    };
    save(1, b"one");
    save(3, b"three");
    save(7, b"seven");
    for (journal, count) in [(&b"two"[..], 4), (b"seven", 4), (b"four", 5), (b"three", 5)] {
        folder.set(journal);
        goes_through(&folder, MOST);
        assert_eq!((folder.saved().len(), folder.copies(journal)), (count, 1));
    }
    let saved: Vec<Vec<u8>> = folder.saved().into_values().collect();
    assert_eq!(saved, [&b"one"[..], b"two", b"three", b"four", b"seven"]);
}

#[test]
fn a_saved_journal_that_is_an_output_is_no_copy() {
    for output in [">>", "2>>"] {
        let folder = Folder::night(TEXT);
        fs::write(folder.path("journal.saved-1"), TEXT).expect("a copy");
        let setting = format!("exec {output}journal.saved-1");
        assert_eq!(told(&mut folder.after(&setting)).status, Some(0));
        assert_eq!((folder.saved().len(), folder.copies(TEXT)), (2, 1));
    }
}

#[test]
fn a_call_that_is_refused_or_fails_saves_nothing() {
    let folder = Folder::night(&stale());
    let missing = folder.path("none");
    let words = cannot("read", &missing, "No such file or directory");
    fails(&mut night(&missing, folder.journal()), &folder, &words);
    let words = cannot("write", &folder.reserved(), "File too large");
    let mut command = folder.after("trap '' XFSZ; ulimit -f 0");
    fails(&mut command, &folder, &words);
    fails(&mut folder.after("exec >&-"), &folder, CLOSED);
    fs::write(folder.policy(), b"x\n").expect("a policy");
    assert_eq!(told(&mut folder.call()).status, Some(1));
    assert!(folder.saved().is_empty() && folder.kept() == stale());
}

#[test]
fn a_file_that_is_no_journal_is_told_and_saved() {
    let folder = Folder::with(NIGHT);
    let uncut = journals::finished(NIGHT);
    let mut files: Vec<Vec<u8>> = (1..=8)
        .map(|length| b"H b\nQ b\n"[..length].to_vec())
        .collect();
    files.extend([
        b"LQ begins like a journal and is none".to_vec(),
        b"LQ\0\0\0\0\0\0\0".to_vec(),
        b"LQ\n".to_vec(),
        b"LQ hello".to_vec(),
        b"lq".to_vec(),
        b"LX".to_vec(),
        TEXT.to_vec(),
        NIGHT.to_vec(),
        vec![0; 3],
        vec![0; MOST],
        vec![0xFF; 10],
        [&uncut[..], b"x"].concat(),
        [&uncut[..18], b"\0\0\0\0\0\0\0\0"].concat(),
    ]);
    for (journal, count) in files.iter().zip(1..) {
        folder.set(journal);
        goes_through(&folder, MOST);
        assert_eq!((folder.saved().len(), folder.copies(journal)), (count, 1));
        assert!(folder.kept() == uncut);
    }
}

#[test]
fn a_torn_last_record_is_told_in_a_line_and_not_saved() {
    let uncut = journals::finished(NIGHT);
    let last = uncut.len() - RECORD;
    for whole in [0, RECORD, 4 * RECORD, last] {
        for length in 1..RECORD {
            let folder = Folder::night(&uncut[..whole + length]);
            let words = torn(&folder.journal());
            assert_eq!(told(&mut folder.call()), Told::new(0, ANSWERS, &words));
            assert!(folder.kept() == uncut && folder.saved().is_empty());
        }
    }
}

#[test]
fn an_empty_policy_drops_a_long_journal_and_saves_it() {
    let mut rng = Rng::new(92);
    let long = journals::finished(&policies(&mut rng).pop().expect("the large one"));
    let folder = Folder::with(b"");
    for old in [&long, &journals::finished(NIGHT)] {
        folder.set(old);
        goes_through(&folder, MOST);
        assert!(folder.kept().is_empty() && folder.copies(old) == 1);
    }
}

// ---------------------------------------------------------------------------
// Outputs that do not work
// ---------------------------------------------------------------------------

const CLOSED: &str =
    "brimusket: standard output is closed: no answer can be given, and nothing was done\n";

/// The words where the text could not be written out, without their end.
fn unprinted(why: &str) -> String {
    format!("brimusket: cannot write standard output: {why}; not all is printed: call again")
}

/// Commands that end with an output to which nothing can be written, and why.
const OUTPUTS: [(&str, &str); 2] = [
    ("exec >/dev/full", "No space left on device"),
    ("exec 1</dev/null", "Bad file descriptor"),
];

#[test]
fn a_closed_standard_output_stops_every_call_before_it_begins() {
    let folder = Folder::cut_night();
    fails(&mut folder.after("exec >&-"), &folder, CLOSED);
    fails(&mut folder.after("exec >&- <&-"), &folder, CLOSED);
    fs::write(folder.policy(), b"x\n").expect("a policy");
    fails(&mut folder.after("exec >&-"), &folder, CLOSED);
    assert_eq!(
        told(&mut folder.after("exec >&- 2>&-")),
        Told::new(2, "", "")
    );
}

#[test]
fn an_output_that_takes_nothing_is_told_after_the_journal_is_safe() {
    for (setting, why) in OUTPUTS {
        let folder = Folder::cut_night();
        let words = unprinted(why) + "; the journal is safe\n";
        assert_eq!(told(&mut folder.after(setting)), Told::new(4, "", &words));
        assert!(folder.kept() == journals::finished(NIGHT));
        folder.set(TEXT);
        let said = told(&mut folder.after(setting));
        assert_eq!(said.status, Some(4));
        assert!(said
            .words
            .starts_with("brimusket: keeps 0 of 2 records of "));
        assert!(said.words.ends_with(&words) && folder.copies(TEXT) == 1);
        fs::write(folder.policy(), b"x\n").expect("a policy that is refused");
        let old = folder.contents();
        let words = unprinted(why) + "\n";
        assert_eq!(told(&mut folder.after(setting)), Told::new(4, "", &words));
        assert!(folder.contents() == old);
    }
}

/// A file that may not grow takes the first of 600 lines and no more.
#[test]
fn answers_that_are_out_in_part_are_told_after_the_journal_is_safe() {
    let policy = [b"H b\n".to_vec(), b"Q b\n".repeat(600)].concat();
    let folder = Folder::with(&policy);
    let setting = "exec >answers; trap '' XFSZ; ulimit -f 1";
    let words = unprinted("File too large") + "; the journal is safe\n";
    assert_eq!(told(&mut folder.after(setting)), Told::new(4, "", &words));
    assert!(folder.kept() == journals::finished(&policy));
    let answers = fs::read_to_string(folder.path("answers")).expect("a file");
    let whole = expected(&policy, &[], MOST).text;
    assert!(answers.starts_with("1 yes\n") && answers.len() < whole.len());
    assert!(whole.starts_with(&answers));
}

/// The signal for this would end the program without a word; the command has it
/// ignored.
#[test]
fn a_journal_that_may_not_grow_is_told_through_the_command() {
    let folder = Folder::cut_night();
    let mut command = Command::new("sh");
    command.args(["-c", "ulimit -f 0; exec \"$@\"", "sh"]);
    command.arg(root().join("bin/brimusket")).arg("night");
    command.arg(folder.policy()).arg(folder.journal());
    let words = cannot("write", &folder.path(".brimusket-new"), "File too large");
    fails(&mut command, &folder, &words);
}

#[test]
fn a_pipe_whose_reader_is_gone_is_told_after_the_journal_is_safe() {
    let folder = Folder::cut_night();
    let (reader, writer) = std::io::pipe().expect("a pipe");
    drop(reader);
    let mut command = folder.call();
    command.stdout(writer).stderr(Stdio::piped());
    let child = command.spawn().expect("it starts");
    let words = unprinted("Broken pipe") + "; the journal is safe\n";
    assert_eq!(ended(child), Told::new(4, "", &words));
    assert!(folder.kept() == journals::finished(NIGHT));
}

#[test]
fn a_standard_error_that_takes_nothing_changes_neither_status_nor_answers() {
    for setting in [
        "exec 2>&-",
        "exec 2>/dev/full",
        "exec 2</dev/null",
        "exec 2>&- <&-",
    ] {
        for journal in [&stale(), TEXT, &b"LQ"[..]] {
            let folder = Folder::night(journal);
            assert_eq!(told(&mut folder.after(setting)), Told::new(0, ANSWERS, ""));
            assert!(folder.kept() == journals::finished(NIGHT));
            fs::write(folder.policy(), b"x\n").expect("a policy");
            assert_eq!(
                told(&mut folder.after(setting)),
                Told::new(1, "refused 2 0\n", "")
            );
            fs::remove_file(folder.policy()).expect("it is there");
            assert_eq!(told(&mut folder.after(setting)), Told::new(2, "", ""));
            assert!(folder.kept() == journals::finished(NIGHT));
        }
    }
}

#[test]
fn a_loaders_warning_changes_neither_status_nor_answers() {
    let folder = Folder::cut_night();
    let [wrong, none] = ["wrong", "none"].map(|name| folder.path(name));
    fs::write(&wrong, b"x\n").expect("a policy");
    let refused = refusal(&format!("{wrong:?}"), 2);
    let failed = cannot("read", &none, "No such file or directory");
    let old = folder.contents();
    let rows = [
        (&wrong, 1, "refused 2 0\n", refused.as_str()),
        (&none, 2, "", &failed),
        (&folder.policy(), 0, ANSWERS, "\n"),
    ];
    for (policy, status, text, words) in rows {
        let mut command = night(policy, folder.journal());
        let said = told(command.env("LD_PRELOAD", "/none.so"));
        assert_eq!((said.status, said.text.as_str()), (Some(status), text));
        assert!(said.words.contains("/none.so") && said.words.ends_with(words));
        assert!(status == 0 || folder.contents() == old);
    }
    assert!(folder.kept() == journals::finished(NIGHT));
}

#[test]
fn a_stack_of_256_kib_is_enough_and_a_small_one_changes_nothing() {
    let mut rng = Rng::new(93);
    for policy in policies(&mut rng) {
        let uncut = journals::finished(&policy);
        let text = expected(&policy, &[], MOST).text;
        let folder = Folder::with(&policy);
        for size in [8, 16, 24, 32, 48, 64, 96, 128, 160, 256, 512] {
            folder.set(&uncut[..RECORD]);
            let old = folder.contents();
            let said = told(&mut folder.after(&limit_stack(size)));
            if said.status == Some(0) {
                assert_eq!(said, Told::new(0, &text, ""));
                assert!(folder.kept() == uncut, "{size}");
            } else {
                assert!(size < 256 && said.text.is_empty(), "{size}");
                assert!(folder.contents() == old, "{size}");
            }
        }
    }
}

// ---------------------------------------------------------------------------
// The desk
// ---------------------------------------------------------------------------

/// What a program tells for this file on its standard input.
fn fed(command: &mut Command, file: &[u8]) -> Told {
    let mut child = started(command.stdin(Stdio::piped()));
    let mut input = child.stdin.take().expect("a pipe");
    // It need not read on once it knows that the file is too long.
    let _ = input.write_all(file);
    drop(input);
    ended(child)
}

/// Both ways to ask the desk say what the proved program prints.
fn desk_says_the_same(file: &[u8]) {
    let text = fed(&mut Command::new(program("desk")), file).text;
    let folder = Folder::with(file);
    let name = folder.policy();
    let from_file = told(brimusket("desk").arg(&name));
    let from_input = fed(&mut brimusket("desk"), file);
    for (said, name) in [
        (from_file, format!("{name:?}")),
        (from_input, "standard input".into()),
    ] {
        let (status, words) = match text.strip_prefix("refused ") {
            Some(code) => (1, refusal(&name, usize::from(code.as_bytes()[0] - b'0'))),
            None if text.is_empty() => (0, format!("brimusket: {name} asks no question\n")),
            None => (0, String::new()),
        };
        assert_eq!(said, Told::new(status, &text, &words));
    }
    assert_eq!(folder.contents().len(), 1);
}

#[test]
fn the_desk_says_what_the_proved_desk_program_prints() {
    let mut rng = Rng::new(94);
    for _ in 0..share(80) {
        let mut file = made_up::any(&mut rng);
        if rng.once_in(3) {
            file = made_up::damaged(&mut rng, file);
        }
        desk_says_the_same(&file);
    }
    desk_says_the_same(NIGHT);
    desk_says_the_same(b"");
    desk_says_the_same(&[b'x'; 32_768]);
    desk_says_the_same(&[b'x'; 32_769]);
    desk_says_the_same(&[b'x'; 200_000]);
    desk_says_the_same(&b"Q T\n".repeat(1_024));
}

#[test]
fn a_file_that_the_desk_cannot_read_is_told() {
    let folder = Folder::with(NIGHT);
    let said = |path: &Path, why: &str| {
        let words = format!("brimusket: cannot read {path:?}: {why}\n");
        assert_eq!(told(brimusket("desk").arg(path)), Told::new(2, "", &words));
    };
    said(&folder.path("none"), "No such file or directory");
    said(Path::new(""), "No such file or directory");
    said(&folder.0, "Is a directory");
    assert_eq!(folder.contents().len(), 1);
}

#[test]
fn a_standard_input_that_cannot_be_read_is_no_empty_policy() {
    let folder = Folder::new();
    let rows = [
        ("<&-", "it is closed"),
        ("0>written", "Bad file descriptor"),
        ("<.", "Is a directory"),
    ];
    for (input, why) in rows {
        let mut command = Command::new("sh");
        let text = format!("exec \"$0\" desk {input}");
        command.arg("-c").arg(text).arg(program("brimusket"));
        let said = told(command.current_dir(&folder.0));
        let words = format!("brimusket: cannot read standard input: {why}\n");
        assert_eq!(said, Told::new(2, "", &words));
    }
}

#[test]
fn a_desk_says_nothing_into_its_policy() {
    for words in ["policy", "<policy", "--bad <policy", "policy policy"] {
        let folder = Folder::with(NIGHT);
        let mut command = Command::new("sh");
        let text = format!("exec \"$0\" desk {words} 2>>policy");
        command.arg("-c").arg(text).arg(program("brimusket"));
        let said = told(command.current_dir(&folder.0));
        assert_eq!(said, Told::new(2, "", ""));
        assert!(fs::read(folder.policy()).expect("the policy") == NIGHT);
    }
}

#[test]
fn a_desk_that_would_print_into_its_policy_does_not() {
    let folder = Folder::with(NIGHT);
    for (words, name) in [("policy", "\"policy\""), ("<policy", "standard input")] {
        let mut command = Command::new("sh");
        let text = format!("exec \"$0\" desk {words} >>policy");
        command.arg("-c").arg(text).arg(program("brimusket"));
        let words = format!("brimusket: standard output and {name} are one file\n");
        let said = told(command.current_dir(&folder.0));
        assert_eq!(said, Told::new(2, "", &words));
        assert!(fs::read(folder.policy()).expect("the policy") == NIGHT);
    }
}

#[test]
fn a_desk_whose_output_takes_nothing_ends_with_status_4() {
    let folder = Folder::with(NIGHT);
    for words in [vec!["desk", "policy"], vec!["--help"], vec!["--version"]] {
        let full = File::options().write(true).open("/dev/full");
        let mut command = Command::new(program("brimusket"));
        command.args(words).current_dir(&folder.0);
        command
            .stdout(full.expect("it opens"))
            .stderr(Stdio::piped());
        let child = command.spawn().expect("it starts");
        let words = unprinted("No space left on device") + "\n";
        assert_eq!(ended(child), Told::new(4, "", &words));
    }
}
