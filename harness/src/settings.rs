//! What a run can be told: `DESK_SEED` and `DESK_CASES`.

use std::env;

const SEED: u64 = 20_260_101;
const CASES: u64 = 1_000_000;

/// The seed of the run; printed with every result and difference, so that it can be repeated.
pub fn seed() -> u64 {
    number("DESK_SEED", SEED)
}

/// How many cases the long comparison makes.
pub fn cases() -> u64 {
    number("DESK_CASES", CASES)
}

/// How many lists of quotes it makes: one for each ten cases.
pub fn lists() -> u64 {
    cases() / 10
}

fn number(name: &str, usual: u64) -> u64 {
    match env::var(name) {
        Ok(text) => text
            .parse()
            .unwrap_or_else(|_| panic!("{name} must be a number, not {text:?}")),
        Err(_) => usual,
    }
}
