//! What a lookup gives back, in numbers: "beside a refusal" stand none and none, sizes of 0 and a
//! count of 0.

use super::case::Quote;
use super::quotes::{best_quotes, quotes_before};
use super::reading::NONE;

/// The number of the refusal or 0; the best bid, the best offer; the size of each; the quotes
/// examined.
pub fn best_told(quotes: &[u8], trade_time: u32, before: u64) -> [u64; 6] {
    match best_quotes(quotes, trade_time, before) {
        Ok(best) => [
            0,
            price_of(best.bid),
            price_of(best.offer),
            size_of(best.bid),
            size_of(best.offer),
            best.examined as u64,
        ],
        Err(refusal) => {
            let none = u64::from(NONE);
            [u64::from(refusal.number()), none, none, 0, 0, 0]
        }
    }
}

/// The number of quotes strictly before the trade; 0 where the quotes or the time are refused.
pub fn number_told(quotes: &[u8], trade_time: u32) -> u64 {
    quotes_before(quotes, trade_time).unwrap_or(0)
}

fn price_of(quote: Option<Quote>) -> u64 {
    u64::from(quote.map_or(NONE, |quote| quote.price.0))
}

fn size_of(quote: Option<Quote>) -> u64 {
    u64::from(quote.map_or(0, |quote| quote.size.0))
}
