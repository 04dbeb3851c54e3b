//! The header, from C: compiled by the system's C compiler, or the one that the
//! variable CC names, linked with the proved library and run.
#![cfg(feature = "proved")]

use against::machine::c_compiler;
use against::workspace::root;
use brimusket::Dropped;
use std::fs;
use std::path::Path;
use std::process::Command;

/// What a program under `tests/c` prints.
fn printed(name: &str) -> String {
    let program = Path::new(env!("CARGO_TARGET_TMPDIR")).join(name);
    let compiled = Command::new(c_compiler())
        .args(["-std=c99", "-Wall", "-Wextra", "-Werror", "-pedantic"])
        .arg("-O2")
        .arg("-I")
        .arg(root().join("include"))
        .arg(root().join(format!("tests/c/{name}.c")))
        .arg(root().join("target/staticlib/libbrimusket.a"))
        .arg("-o")
        .arg(&program)
        .output()
        .expect("a C compiler, cc or the one that CC names");
    let wrong = String::from_utf8_lossy(&compiled.stderr);
    assert!(compiled.status.success(), "{wrong}");
    let run = Command::new(&program).output().expect("the program runs");
    assert!(run.status.success());
    String::from_utf8(run.stdout).expect("text")
}

#[test]
fn the_second_desk_case_runs_through_the_header() {
    assert_eq!(
        printed("case2"),
        "kept 0, added 4, finished 1, used 36\n1 yes\n2 yes\n3 no\n"
    );
}

#[test]
fn the_chain_of_a_query_is_had_through_the_header() {
    assert_eq!(
        printed("chain"),
        "rule 1 for 0\n\
         rule 1 for 1\n\
         rule 7 for 3 from 1 and 0\n\
         query 3: code 32, records 0, buffer as it was\n\
         query 0: code 31, records 0, buffer as it was\n\
         query 4: code 31, records 0, buffer as it was\n\
         one byte short: code 33, records 0, buffer as it was\n\
         no buffer: code 33, records 0, buffer as it was\n"
    );
}

/// The header's constants, as it has them.
fn constants() -> Vec<(String, usize)> {
    let header = fs::read_to_string(root().join("include/brimusket.h")).expect("the header");
    let lines = header.lines().filter_map(|line| {
        let (name, value) = line.trim().trim_end_matches(',').split_once(" = ")?;
        Some((name.strip_prefix("BRIMUSKET_")?.into(), value.parse().ok()?))
    });
    lines.collect()
}

#[test]
fn the_headers_constants_are_those_of_the_crate() {
    let expected = [
        ("FILE_BYTES", brimusket::FILE_BYTES),
        ("RECORD_BYTES", brimusket::RECORD_BYTES),
        ("JOURNAL_BYTES", brimusket::JOURNAL_BYTES),
        ("QUERIES", brimusket::QUERIES),
        ("TEXT_BYTES", brimusket::TEXT_BYTES),
        ("ALL", brimusket::ALL),
        ("NO", brimusket::NO.into()),
        ("YES", brimusket::YES.into()),
        ("OPEN", brimusket::OPEN.into()),
        ("NOTHING", Dropped::Nothing as usize),
        ("TORN", Dropped::Torn as usize),
        ("MORE", Dropped::More as usize),
    ];
    let expected = expected.map(|(name, value)| (name.to_string(), value));
    assert_eq!(constants(), expected);
}

#[test]
fn the_edges_are_as_the_header_says() {
    assert_eq!(
        printed("edges"),
        "nothing at all: code 0, kept 0, added 0, finished 1, used 0\n\
         no journal: code 6, kept 0, added 0, finished 0, used 0\n\
         no answers: code 8, kept 0, added 0, finished 0, used 0\n\
         used too large: code 7, kept 0, added 0, finished 0, used 100\n\
         one record: code 0, kept 0, added 1, finished 1, used 9\n\
         behind it 7 7 7, answers 7 7 7\n\
         settled: 1 no b\n\
         records 1, dropped 2\n\
         no text: code 8, length 0\n"
    );
}
