//! The comparison must fail when a desk is wrong: copies of the independent desk, each broken in
//! one way (`list.rs`, `wide.rs`, `quotes.rs`), are compared with the proved desk, and each must be found within
//! the cases, or the lists of quotes, of a default run.

#![cfg(test)]

use std::panic::{catch_unwind, AssertUnwindSafe};

use harness::desks::{Desk, Proved, QuoteDesk};
use harness::quote_stream::quote_stream;
use harness::settings;
use harness::stream::{stream, Found};

include!(concat!(env!("OUT_DIR"), "/mutants.rs"));

enum Verdict {
    FoundAfter(u64),
    Panicked,
    Survived,
}

fn judge(run: impl Fn() -> Result<(), Found>) -> Verdict {
    match catch_unwind(AssertUnwindSafe(run)) {
        Ok(Err(found)) => Verdict::FoundAfter(found.compared),
        Ok(Ok(())) => Verdict::Survived,
        Err(_) => Verdict::Panicked,
    }
}

/// Prints each mutant's verdict; none may survive.
fn report<'a>(of: &str, verdicts: impl Iterator<Item = (&'a str, Verdict)>) {
    println!("seed {}: found after so many {of}", settings::seed());
    let mut mutants = 0;
    let mut survivors = Vec::new();
    for (name, verdict) in verdicts {
        mutants += 1;
        match verdict {
            Verdict::FoundAfter(compared) => println!("{compared:>9}  {name}"),
            Verdict::Panicked => println!("    panic  {name}"),
            Verdict::Survived => survivors.push(name),
        }
    }
    println!("{mutants} mutants, {} not found", survivors.len());
    assert!(survivors.is_empty(), "not found: {survivors:#?}");
}

#[test]
fn every_mutant_is_found() {
    let (seed, cases) = (settings::seed(), settings::cases());
    let judged =
        |mutant: &dyn Desk| judge(|| stream(&Proved, mutant, seed, cases, |_| ()).map(|_| ()));
    report(
        "cases",
        MUTANTS
            .iter()
            .map(|&mutant| (mutant.name(), judged(mutant))),
    );
}

#[test]
fn every_mutant_of_the_quotes_is_found() {
    let (seed, lists) = (settings::seed(), settings::lists());
    let judged =
        |mutant: &dyn QuoteDesk| judge(|| quote_stream(&Proved, mutant, seed, lists, |_| ()));
    report(
        "lists",
        QUOTE_MUTANTS
            .iter()
            .map(|&mutant| (mutant.name(), judged(mutant))),
    );
}
