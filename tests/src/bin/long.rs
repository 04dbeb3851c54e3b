//! A longer run: `long SEED COUNT` makes up that many cases. At the first on
//! which the engines differ it prints the smallest such case it can find and
//! ends with status 1.

use against::compare::{compare_one, failure};
use against::rng::Rng;
use against::{cases, engine};
use std::env;
use std::process::ExitCode;

fn main() -> ExitCode {
    let arguments: Vec<String> = env::args().skip(1).collect();
    let numbers: Option<Vec<u64>> = arguments.iter().map(|word| word.parse().ok()).collect();
    let Some(&[seed, count]) = numbers.as_deref() else {
        eprintln!("usage: long SEED COUNT");
        return ExitCode::from(2);
    };
    println!("{}: seed {seed}, {count} cases", engine::NAME);
    for at in 0..count {
        if let Err(text) = check(seed, at) {
            println!("case {at} of seed {seed}: {text}");
            return ExitCode::FAILURE;
        }
        if (at + 1) % 10_000 == 0 {
            println!("{} cases", at + 1);
        }
    }
    println!("no difference");
    ExitCode::SUCCESS
}

fn check(seed: u64, at: u64) -> Result<(), String> {
    let case = cases::any(&mut Rng::for_case(seed, at));
    let reference = engine::reference(&case.file);
    match compare_one(engine::under_test, reference, &case) {
        Ok(_) => Ok(()),
        Err(_) => Err(failure(engine::under_test, reference, &case)),
    }
}
