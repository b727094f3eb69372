//! What request L4 leaves as it was and what it changes, tried on the answers of the proved desk: kind 1
//! is ruled the old way, and kind 2 differs from it only where the quotes are wide.

use harness::accepted::accepted_of;
use harness::desks::{Desk, Proved};
use harness::fields::{Fields, RulingFields, NONE};
use harness::random::Random;
use harness::settings;

const TRIES: usize = 100_000;

fn answer(fields: &Fields) -> [u8; 96] {
    let mut answer = [0; 96];
    let number = Proved.rule_case(&fields.encode(), &mut answer);
    assert_eq!(number, 0, "\n{fields}");
    answer
}

/// The case without its quotes.
fn unquoted(fields: Fields) -> Fields {
    Fields {
        bid: NONE,
        offer: NONE,
        bid_size: 0,
        offer_size: 0,
        ..fields
    }
}

/// Where the quotes are not wide, the very bytes that the same facts get in a case of kind 1; where they
/// are, those that they get without quotes.
#[test]
fn kind_2_differs_from_kind_1_only_where_the_quotes_are_wide() {
    let mut random = Random::new(settings::seed());
    let mut seen = [[0; 2]; 2];
    for _ in 0..TRIES {
        let wide = accepted_of(&mut random, true);
        let narrow = wide.clone().narrow();
        let ruled = answer(&wide);
        let by_old_way = answer(&narrow);
        let expected = if wide.is_wide() {
            answer(&unquoted(narrow))
        } else {
            by_old_way
        };
        assert_eq!(ruled, expected, "\n{wide}");
        seen[usize::from(wide.is_wide())][usize::from(ruled != by_old_way)] += 1;
    }
    let [[same, other], [wide_same, wide_other]] = seen;
    assert_eq!(other, 0);
    assert!(same > TRIES / 5 && wide_other > TRIES / 10, "{seen:?}");
    // Late and decided cases are the same in every kind.
    assert!(wide_same > TRIES / 100, "{seen:?}");
}

/// A case of kind 1 gets its answer whatever the quote is that is not its side's.
#[test]
fn kind_1_does_not_look_at_the_other_quote() {
    let mut random = Random::new(settings::seed());
    for _ in 0..TRIES {
        let fields = accepted_of(&mut random, false);
        let (price, size) =
            random.pick(&[(NONE, 0), (0, 0), (0, 1), (1, 7), (9_999_999, 1_000_000)]);
        let mut other = fields.clone();
        if fields.side == 1 {
            (other.bid, other.bid_size) = (price, size);
        } else {
            (other.offer, other.offer_size) = (price, size);
        }
        assert_eq!(answer(&fields), answer(&other), "\n{fields}");
    }
}

/// The differential says whether the quotes are wide, and nothing else; and quotes that are wide by one
/// are wide by every smaller one.
#[test]
fn the_differential_tells_wide_from_not_wide_alone() {
    let mut random = Random::new(settings::seed());
    let mut compared = [0; 2];
    for _ in 0..TRIES {
        let fields = accepted_of(&mut random, true);
        let differential = fields.differential.expect("kind 2");
        let another = random.within(1, 9_999_999);
        let another = random.pick(&[
            1,
            differential.saturating_sub(1).max(1),
            (differential + 1).min(9_999_999),
            another,
            9_999_999,
        ]);
        let other = fields.clone().wide(another);
        if another <= differential {
            assert!(other.is_wide() || !fields.is_wide(), "\n{fields}");
        }
        if other.is_wide() == fields.is_wide() {
            assert_eq!(answer(&fields), answer(&other), "\n{fields}");
            compared[usize::from(fields.is_wide())] += 1;
        }
    }
    assert!(
        compared.iter().all(|&cases| cases > TRIES / 10),
        "{compared:?}"
    );
}

/// No quote gives TP where they are wide: its origin is 2 where there is an official's price and TP is
/// asked for, else 0; it waits exactly where there is none; and no adjustment is limited by a size.
#[test]
fn wide_quotes_give_no_tp() {
    let mut random = Random::new(settings::seed());
    let mut seen = [0; 3];
    for _ in 0..TRIES {
        let fields = accepted_of(&mut random, true);
        if !fields.is_wide() {
            continue;
        }
        let ruling = RulingFields::of_answer(&answer(&fields));
        let asked = ![2, 3].contains(&ruling.reason);
        let expected = match (asked, fields.official) {
            (false, _) => (0, NONE),
            (true, NONE) => (0, NONE),
            (true, price) => (2, price),
        };
        assert_eq!((ruling.origin, ruling.tp), expected, "\n{fields}");
        let waits = asked && fields.official == NONE;
        assert_eq!(ruling.outcome == 3, waits, "\n{fields}");
        if ruling.outcome == 1 {
            assert_eq!(ruling.adjusted, fields.contracts, "\n{fields}");
        }
        let which = if waits { 0 } else { usize::from(asked) + 1 };
        seen[which] += 1;
    }
    assert!(seen.iter().all(|&cases| cases > TRIES / 100), "{seen:?}");
}
