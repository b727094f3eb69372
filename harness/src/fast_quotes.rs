//! The lookup as plain Rust has it where it must be quick, for the benchmark: one pass for the tests,
//! a look at the two quotes beside the number brought, and a walk back from the trade that ends where
//! all sixteen exchanges are known.

use crate::desk::{DeskBest, NONE};

type Record = [u8; 28];

const MOST_QUOTES: usize = 2_000;
const LENGTH_AND_KIND: u32 = 28 | 32 << 16;
const EXCHANGES: u32 = 16;
const ALL_KNOWN: u32 = (1 << EXCHANGES) - 1;
const LAST_SECOND: u32 = 86_399;
const HIGHEST_PRICE: u32 = 9_999_999;
const MOST_CONTRACTS: u32 = 1_000_000;

pub fn best_quotes(quotes: &[u8], trade_time: u32, before: u64) -> DeskBest {
    let earlier = tested(quotes, trade_time)
        .and_then(|list| earlier(list, trade_time, before).ok_or(28))
        .map(walk);
    earlier.unwrap_or_else(|refusal| DeskBest {
        refusal,
        bid: u64::from(NONE),
        offer: u64::from(NONE),
        bid_size: 0,
        offer_size: 0,
        examined: 0,
    })
}

pub fn quotes_before(quotes: &[u8], trade_time: u32) -> u64 {
    tested(quotes, trade_time).map_or(0, |list| {
        list.partition_point(|quote| time(quote) < trade_time) as u64
    })
}

/// The quotes, or the number of the first test from 20 to 23 that fails.
fn tested(quotes: &[u8], trade_time: u32) -> Result<&[Record], u64> {
    let (list, rest) = quotes.as_chunks();
    if !rest.is_empty() || list.len() > MOST_QUOTES {
        return Err(20);
    }
    let mut last = 0;
    let mut back = false;
    for quote in list {
        if !is_good(quote) {
            return Err(21);
        }
        back |= time(quote) < last;
        last = time(quote);
    }
    if back {
        Err(22)
    } else if trade_time > LAST_SECOND {
        Err(23)
    } else {
        Ok(list)
    }
}

fn is_good(quote: &Record) -> bool {
    number(quote, 0) == LENGTH_AND_KIND
        && (1..=EXCHANGES).contains(&exchange(quote))
        && time(quote) <= LAST_SECOND
        && fit(number(quote, 12), number(quote, 20))
        && fit(number(quote, 16), number(quote, 24))
}

fn fit(price: u32, size: u32) -> bool {
    if price == NONE {
        size == 0
    } else {
        price <= HIGHEST_PRICE && size <= MOST_CONTRACTS && (size > 0 || price == 0)
    }
}

/// The quotes before the trade, if they are so many: the list is in order.
fn earlier(list: &[Record], trade_time: u32, before: u64) -> Option<&[Record]> {
    let (earlier, later) = list.split_at_checked(usize::try_from(before).ok()?)?;
    let right = earlier.last().is_none_or(|quote| time(quote) < trade_time)
        && later.first().is_none_or(|quote| time(quote) >= trade_time);
    right.then_some(earlier)
}

fn walk(earlier: &[Record]) -> DeskBest {
    let mut bid = Half::default();
    let mut offer = Half::default();
    let mut known = 0; // a bit for each exchange
    let mut examined = 0;
    for quote in earlier.iter().rev() {
        examined += 1;
        let bit = 1 << (exchange(quote) - 1);
        if known & bit != 0 {
            continue;
        }
        known |= bit;
        bid.join(number(quote, 12), number(quote, 20), u32::gt);
        offer.join(number(quote, 16), number(quote, 24), u32::lt);
        if known == ALL_KNOWN {
            break;
        }
    }
    DeskBest {
        refusal: 0,
        bid: u64::from(bid.price),
        offer: u64::from(offer.price),
        bid_size: u64::from(bid.size.min(MOST_CONTRACTS)),
        offer_size: u64::from(offer.size.min(MOST_CONTRACTS)),
        examined,
    }
}

/// The best price so far and the sum of sizes at it.
struct Half {
    price: u32,
    size: u32,
}

impl Default for Half {
    fn default() -> Half {
        Half {
            price: NONE,
            size: 0,
        }
    }
}

impl Half {
    fn join(&mut self, price: u32, size: u32, better: fn(&u32, &u32) -> bool) {
        if price == NONE {
            return;
        }
        if self.price == NONE || better(&price, &self.price) {
            *self = Half { price, size };
        } else if price == self.price {
            self.size += size; // at most sixteen times 1,000,000
        }
    }
}

fn exchange(quote: &Record) -> u32 {
    number(quote, 4)
}

fn time(quote: &Record) -> u32 {
    number(quote, 8)
}

fn number(quote: &Record, at: usize) -> u32 {
    u32::from_le_bytes([quote[at], quote[at + 1], quote[at + 2], quote[at + 3]])
}
