//! Desk cases as they are written down: files with a slash for each line feed, and
//! records as rows of numbers.

/// No premise.
pub const NONE: u16 = 0xFFFF;

/// A rule, a formula's number, a first and a second premise.
pub type Record = (u8, u16, u16, u16);

/// The file that is spelled so; one more line feed ends it.
pub fn file(spelling: &str) -> Vec<u8> {
    (spelling.replace('/', "\n") + "\n").into_bytes()
}

/// The records as a journal has them.
pub fn bytes(records: &[Record]) -> Vec<u8> {
    let mut bytes = Vec::new();
    for (rule, formula, first, second) in records {
        bytes.extend([0x4C, 0x51, *rule]);
        bytes.extend(formula.to_be_bytes());
        bytes.extend(first.to_be_bytes());
        bytes.extend(second.to_be_bytes());
    }
    bytes
}

/// The files of case 12, each with its code and place, 0 and 0 where it is accepted.
pub fn case_12() -> [(String, usize, usize); 9] {
    let name = "a".repeat(16);
    [
        ("Q S a S a S a S a b\n".into(), 0, 0),
        ("H b\nQ S a P a S a S a S a b\n".into(), 4, 4),
        (format!("Q {name}\n"), 0, 0),
        (format!("Q {name}a\n"), 2, 0),
        ("x".repeat(32_768), 2, 0),
        ("Q b\n".repeat(8_192), 3, 4_096),
        ("Q b\n".repeat(8_191) + "Q bb\n", 1, 0),
        ("H b".into(), 2, 0),
        ("H b\nQ  b\n".into(), 2, 4),
    ]
}
