//! The long comparison of the proved and the independent desk, and that it reaches every rule.

use harness::coverage::Coverage;
use harness::desks::{Plain, Proved};
use harness::settings;
use harness::stream::stream;

#[test]
fn the_desks_agree_on_a_million_cases() {
    let seed = settings::seed();
    let mut coverage = Coverage::default();
    let compared = stream(&Proved, &Plain, seed, settings::cases(), |seen| {
        coverage.add(seen);
    })
    .expect("the desks agree");
    println!("seed {seed}: {compared} cases agree\n{coverage}");
    let surprises = coverage.surprises();
    assert!(surprises.is_empty(), "not as expected: {surprises:?}");
}
