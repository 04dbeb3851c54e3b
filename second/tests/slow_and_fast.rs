//! The two engines agree on many made-up inputs.

use second::{fast, slow, Report, Run};

/// A small generator of numbers, enough for made-up inputs.
struct Numbers(u64);

impl Numbers {
    fn below(&mut self, bound: usize) -> usize {
        self.0 = self
            .0
            .wrapping_mul(6_364_136_223_846_793_005)
            .wrapping_add(1_442_695_040_888_963_407);
        (self.0 >> 33) as usize % bound
    }

    fn one_of<'a>(&mut self, words: &[&'a str]) -> &'a str {
        words[self.below(words.len())]
    }
}

fn formula(numbers: &mut Numbers, size: usize, out: &mut String) {
    if size < 2 {
        *out += numbers.one_of(&["T", "b", "c", "d", "e"]);
        return;
    }
    if numbers.below(2) == 0 {
        *out += numbers.one_of(&["S a ", "S b ", "P a "]);
    } else {
        *out += numbers.one_of(&["+ ", "> ", "> "]);
        formula(numbers, size / 2, out);
        out.push(' ');
    }
    formula(numbers, size / 2, out);
}

fn file(numbers: &mut Numbers) -> Vec<u8> {
    let mut text = String::new();
    for _ in 0..numbers.below(9) {
        text += numbers.one_of(&["H ", "H ", "Q "]);
        let size = 1 << numbers.below(5);
        formula(numbers, size, &mut text);
        text.push('\n');
    }
    text.into_bytes()
}

/// Exchanges, repeats or spoils a few bytes.
fn disturb(numbers: &mut Numbers, bytes: &mut [u8]) {
    for _ in 0..numbers.below(3) {
        if !bytes.is_empty() {
            let at = numbers.below(bytes.len());
            bytes[at] = bytes[numbers.below(bytes.len())].wrapping_add(numbers.below(2) as u8);
        }
    }
}

struct Input {
    file: Vec<u8>,
    journal: Vec<u8>,
    used: usize,
    limit: usize,
    answers: usize,
}

/// A run by one engine: its report and what it leaves in the buffers.
fn left_by(run: Run, input: &Input) -> (Report, Vec<u8>, Vec<u8>) {
    let mut journal = input.journal.clone();
    let mut answers = vec![9; input.answers];
    let report = run(
        &input.file,
        &mut journal,
        input.used,
        input.limit,
        &mut answers,
    );
    (report, journal, answers)
}

/// Compares the engines and hands on the journal they leave.
fn agree(input: &Input) -> (Report, Vec<u8>) {
    let slowly = left_by(slow::run, input);
    let quickly = left_by(fast::run, input);
    let file = String::from_utf8_lossy(&input.file);
    assert_eq!(slowly, quickly, "limit {}, file:\n{file}", input.limit);
    (slowly.0, slowly.1)
}

#[test]
fn on_made_up_files_and_journals() {
    let mut numbers = Numbers(2);
    let mut finished = 0;
    for _ in 0..1_500 {
        let mut input = Input {
            file: file(&mut numbers),
            journal: vec![0xEE; 9 * numbers.below(400)],
            used: 0,
            limit: numbers.below(30),
            answers: numbers.below(12),
        };
        for _ in 0..3 {
            let (report, journal) = agree(&input);
            finished += usize::from(report.finished);
            input.journal = journal;
            input.used = report.used;
            disturb(&mut numbers, &mut input.journal);
        }
    }
    assert!(finished > 1_000, "only {finished} finished runs");
}

#[test]
fn on_damaged_files() {
    let mut numbers = Numbers(3);
    let mut refused = 0;
    for _ in 0..2_000 {
        let mut file = file(&mut numbers);
        disturb(&mut numbers, &mut file);
        let (report, _) = agree(&Input {
            file,
            journal: vec![0; 9 * 1_000],
            used: 0,
            limit: usize::MAX,
            answers: 12,
        });
        refused += usize::from(report.code == 2);
    }
    assert!(refused > 300, "only {refused} refusals");
}

#[test]
fn on_long_lists() {
    for leaves in [60, 127, 128] {
        let mut text = String::from("H S a S b P c S d");
        for leaf in 1..leaves {
            text += &format!(" + x{leaf}");
        }
        text += " y\nH P a P b P c P d > x1 z\nQ P a P b P c P d z\nQ S e y\n";
        let (report, _) = agree(&Input {
            file: text.into_bytes(),
            journal: vec![0; 9 * 4_096],
            used: 0,
            limit: usize::MAX,
            answers: 2,
        });
        assert_eq!(report.code, 0);
        assert!(report.added > 8 * leaves);
    }
}
