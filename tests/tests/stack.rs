//! How much stack a call needs: the proved library, called on a thread that
//! has no more than the documents promise.
#![cfg(feature = "proved")]

use against::journals::{finished, RECORD};
use against::made_up;
use against::rng::Rng;
use std::thread;

/// What README.md and the header promise. The thread's own frames are within it
/// too, so that the call gets less.
const STACK_BYTES: usize = 192 * 1024;

/// Does something with a large file on a thread with this stack.
fn on_that_stack(call: fn(&[u8])) {
    let file = made_up::large(&mut Rng::new(7));
    thread::Builder::new()
        .stack_size(STACK_BYTES)
        .spawn(move || call(&file))
        .expect("a thread")
        .join()
        .expect("the call returned");
}

#[test]
fn a_run_fits_the_stack_that_is_promised() {
    on_that_stack(|file| {
        let mut journal = vec![0; brimusket::JOURNAL_BYTES];
        let mut answers = vec![0; brimusket::QUERIES];
        let report = brimusket::run(file, &mut journal, 0, brimusket::ALL, &mut answers);
        assert_eq!(report.code, 0);
        assert!(report.finished);
    });
}

#[test]
fn a_settled_call_fits_the_stack_that_is_promised() {
    on_that_stack(|file| {
        let mut journal = vec![0; brimusket::JOURNAL_BYTES];
        let mut text = vec![0; brimusket::TEXT_BYTES];
        let settled = brimusket::settle(file, &mut journal, 0, brimusket::ALL, true, &mut text);
        assert_eq!(settled.report.code, 0);
        assert!(settled.length > 0);
    });
}

#[test]
fn a_chain_fits_the_stack_that_is_promised() {
    on_that_stack(|file| {
        let journal = finished(file);
        assert!(journal.len() > 400 * RECORD);
        let mut out = vec![0; brimusket::JOURNAL_BYTES];
        let chain = |query| brimusket::chain(file, &journal, journal.len(), query, &mut out);
        let mut chains = (1..=brimusket::QUERIES).map(chain);
        assert!(chains.any(|chained| chained.records > 3));
    });
}
