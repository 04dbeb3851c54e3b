//! The desk program of the second program: a policy file from standard input,
//! the answers to standard output.

use std::io::{Read, Write};

fn main() -> std::io::Result<()> {
    let mut file = Vec::new();
    std::io::stdin().read_to_end(&mut file)?;
    std::io::stdout().write_all(second::desk::desk(&file).as_bytes())
}
