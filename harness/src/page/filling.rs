//! Request L1 of document 02: "The result fills bytes 20 to 35 of a case's facts", which are in the same
//! place in every form.

use super::case::Quote;
use super::quotes::{best_quotes, quotes_before};
use super::reading::{read_case, NONE};
use super::refusal::Refusal;

/// The case is read first, for its execution is the trade: tests 1 to 9, then 20 to 22. The number of
/// quotes before it is found here and not brought. What is refused is left as it was.
pub fn fill_case(quotes: &[u8], case: &mut [u8]) -> Result<(), Refusal> {
    let executed_at = read_case(case)?.executed_at;
    let before = quotes_before(quotes, executed_at.0)?;
    let best = best_quotes(quotes, executed_at.0, before)?;
    put(case, 20, price_of(best.bid));
    put(case, 24, price_of(best.offer));
    put(case, 28, size_of(best.bid));
    put(case, 32, size_of(best.offer));
    Ok(())
}

fn price_of(quote: Option<Quote>) -> u32 {
    quote.map_or(NONE, |quote| quote.price.0)
}

/// "A quote of none has size 0."
fn size_of(quote: Option<Quote>) -> u32 {
    quote.map_or(0, |quote| quote.size.0)
}

fn put(case: &mut [u8], at: usize, word: u32) {
    case[at..at + 4].copy_from_slice(&word.to_le_bytes());
}
