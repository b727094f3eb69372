//! The long comparison of quotes: lists, each looked up at a few trade times, with the right number of
//! quotes before the trade and with wrong ones, and filled into a few cases, until enough are compared.

use std::collections::BTreeSet;

use crate::compare::Difference;
use crate::desk::DeskBest;
use crate::desks::QuoteDesk;
use crate::lists::{trade_time, Lists};
use crate::quote_compare::{FillAnswer, QuoteComparison};
use crate::quote_faults::{Counted, NUMBER_FAULTS};
use crate::random::Random;
use crate::stream::Found;

/// A call on which both desks agreed.
pub enum Agreed<'a> {
    Best {
        list: &'a [u8],
        trade_time: u32,
        /// The number that was brought.
        before: u64,
        answer: DeskBest,
    },
    Before {
        list: &'a [u8],
        trade_time: u32,
        answer: u64,
    },
    Fill(&'a FillAnswer),
}

/// Compares so many lists; `saw` is shown each call.
pub fn quote_stream(
    left: &dyn QuoteDesk,
    right: &dyn QuoteDesk,
    seed: u64,
    lists: u64,
    mut saw: impl FnMut(Agreed),
) -> Result<(), Found> {
    let comparison = QuoteComparison::new(left, right);
    let source = Lists::default();
    let mut random = Random::new(seed);
    for compared in 0..lists {
        let list = source.list(&mut random);
        round(&comparison, &source, &list, &mut random, &mut saw).map_err(|difference| Found {
            seed,
            compared,
            of: "lists",
            difference,
        })?;
    }
    Ok(())
}

const TRADES: usize = 3;
const CASES: usize = 2;

fn round(
    comparison: &QuoteComparison,
    source: &Lists,
    list: &[u8],
    random: &mut Random,
    saw: &mut impl FnMut(Agreed),
) -> Result<(), Difference> {
    for _ in 0..TRADES {
        let trade_time = trade_time(random, list);
        let answer = comparison.quotes_before(list, trade_time)?;
        saw(Agreed::Before {
            list,
            trade_time,
            answer,
        });
        for before in numbers(Counted::new(list, trade_time)) {
            let answer = comparison.best_quotes(list, trade_time, before)?;
            saw(Agreed::Best {
                list,
                trade_time,
                before,
                answer,
            });
        }
    }
    for _ in 0..CASES {
        let case = source.case(random, list);
        let answer = comparison.fill_case(list, &case)?;
        saw(Agreed::Fill(&answer));
    }
    Ok(())
}

/// The right number and the wrong ones, each once.
fn numbers(counted: Counted) -> BTreeSet<u64> {
    let mut numbers = BTreeSet::from([counted.before]);
    numbers.extend(NUMBER_FAULTS.iter().map(|fault| fault.apply(counted)));
    numbers
}
