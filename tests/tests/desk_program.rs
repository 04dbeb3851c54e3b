//! The compiled desk program against the second program's.
//!
//! Where it is missing, these tests fail.

use against::machine::share;
use against::made_up;
use against::rng::Rng;
use against::workspace::program;
use second::desk::desk;
use std::io::{ErrorKind, Write};
use std::process::{ChildStdin, Command, Stdio};
use std::thread::sleep;
use std::time::Duration;

/// Writes the file in pieces of this length, with a pause between them.
fn write_in_pieces(mut input: ChildStdin, file: &[u8], length: usize) {
    for (count, piece) in file.chunks(length).enumerate() {
        if count > 0 {
            sleep(Duration::from_millis(1));
        }
        match input.write_all(piece) {
            // The program need not read on once it knows that code 1 is due.
            Err(error) if error.kind() == ErrorKind::BrokenPipe => return,
            result => result.expect("the program takes its input"),
        }
    }
}

/// What the desk program prints for the file.
fn printed(file: &[u8], piece: usize) -> String {
    let mut child = Command::new(program("desk"))
        .stdin(Stdio::piped())
        .stdout(Stdio::piped())
        .spawn()
        .expect("the program starts");
    write_in_pieces(child.stdin.take().expect("a pipe"), file, piece);
    let output = child.wait_with_output().expect("the program ends");
    assert!(output.status.success(), "{}", output.status);
    String::from_utf8(output.stdout).expect("plain text")
}

fn assert_prints(file: &[u8], piece: usize) {
    let text = file.escape_ascii();
    assert_eq!(printed(file, piece), desk(file), "{text}");
}

#[test]
#[cfg_attr(not(feature = "proved"), ignore = "needs the proved desk program")]
fn prints_the_desk_cases() {
    let case_2 = b"H > S bank paid paid\nH S bank paid\nQ paid\nQ P bank paid\nQ S bank lien\n";
    assert_eq!(printed(case_2, 100), "1 yes\n2 yes\n3 no\n");
    assert_eq!(printed(b"", 1), "");
    assert_eq!(printed(b"H b\n", 9), "");
    assert_eq!(printed(b"H b", 9), "refused 2 0\n");
    assert_eq!(printed(b"H b\nQ  b\n", 9), "refused 2 4\n");
    assert_eq!(printed(&[b'x'; 32_769], 50_000), "refused 1 0\n");
}

#[test]
#[cfg_attr(not(feature = "proved"), ignore = "needs the proved desk program")]
fn prints_the_same_on_made_up_files() {
    let mut rng = Rng::new(51);
    for _ in 0..share(250) {
        let mut file = made_up::any(&mut rng);
        if rng.once_in(3) {
            file = made_up::damaged(&mut rng, file);
        }
        assert_prints(&file, 70_000);
    }
}

#[test]
#[cfg_attr(not(feature = "proved"), ignore = "needs the proved desk program")]
fn prints_the_same_at_the_limits() {
    let edges = [
        made_up::edges_of_length(),
        made_up::edges_of_nodes(),
        made_up::edges_of_depth(),
        made_up::edges_of_list(),
    ];
    for edge in edges.iter().flatten() {
        assert_prints(&edge.file, 70_000);
    }
    assert_prints(&b"Q T\n".repeat(1_024), 70_000);
    assert_prints(&b"H b\n".repeat(25_000), 70_000);
}

#[test]
#[cfg_attr(not(feature = "proved"), ignore = "needs the proved desk program")]
fn joins_short_reads() {
    let mut rng = Rng::new(52);
    for _ in 0..10 {
        assert_prints(&made_up::lenders(&mut rng), 1 + rng.below(40));
    }
    assert_prints(&b"Q T\n".repeat(1_000), 1_000);
    assert_prints(&b"H b\n".repeat(8_192), 4_096);
    assert_prints(&[b'x'; 32_769], 32_768);
}
