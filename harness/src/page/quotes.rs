//! Requests L1 and L8 of document 02: the best bid and offer from the exchanges' quotes, how many
//! quotes were examined for them, and the tests 20 to 23 and 28 in their order.

use super::case::Quote;
use super::reading::{u16_at, u32_at, HIGHEST_PRICE, LAST_SECOND, MOST_CONTRACTS, NONE};
use super::refusal::Refusal;
use super::units::{Contracts, Mills, Seconds};

const QUOTE_BYTES: usize = 28;
const KIND: u16 = 32;
const LONGEST_LIST: usize = 56_000;
const EXCHANGES: usize = 16;

/// A quote as it was sent: "length 28, kind, exchange number (1 to 16), time in seconds, bid, offer,
/// bid size, offer size, four bytes each after the kind".
type Sent = [u8; QUOTE_BYTES];

/// Each exchange's last quote before the trade, in the exchange's place.
type LastSent<'a> = [Option<&'a Sent>; EXCHANGES];

/// The best bid and the best offer, each none where no exchange has a say; and "the quotes examined
/// with each lookup".
#[derive(Clone, Copy, Debug, PartialEq, Eq)]
pub struct Best {
    pub bid: Option<Quote>,
    pub offer: Option<Quote>,
    pub examined: usize,
}

/// "The caller brings the number of quotes strictly before the trade. Refusals: 28 that number is
/// wrong, after 23."
pub fn best_quotes(quotes: &[u8], trade_time: u32, before: u64) -> Result<Best, Refusal> {
    let (list, trade_time) = tested(quotes, trade_time)?;
    right_number(list, trade_time, before)?;
    let (bid, offer) = best_of(&last_sent(list, trade_time));
    Ok(Best {
        bid,
        offer,
        examined: examined(&list[..number_before(list, trade_time)]),
    })
}

/// The number that a caller should bring.
pub fn quotes_before(quotes: &[u8], trade_time: u32) -> Result<u64, Refusal> {
    let (list, trade_time) = tested(quotes, trade_time)?;
    Ok(number_before(list, trade_time) as u64)
}

/// "Refusals: 20 .., 21 .., 22 .., 23 .., in that order": each test is made on the whole list before
/// the next.
fn tested(quotes: &[u8], trade_time: u32) -> Result<(&[Sent], Seconds), Refusal> {
    let list = list_of(quotes)?;
    good_fields(list)?;
    in_order(list)?;
    let trade_time = time_of_trade(trade_time)?;
    Ok((list, trade_time))
}

/// Test 20: "length not a multiple of 28 or above 56,000".
fn list_of(quotes: &[u8]) -> Result<&[Sent], Refusal> {
    let (list, rest) = quotes.as_chunks::<QUOTE_BYTES>();
    if rest.is_empty() && quotes.len() <= LONGEST_LIST {
        Ok(list)
    } else {
        Err(Refusal::QuotesLength)
    }
}

/// Test 21: "a bad field".
fn good_fields(list: &[Sent]) -> Result<(), Refusal> {
    if list.iter().all(is_good) {
        Ok(())
    } else {
        Err(Refusal::QuoteField)
    }
}

fn is_good(sent: &Sent) -> bool {
    u16_at(sent, 0) == QUOTE_BYTES as u16
        && u16_at(sent, 2) == KIND
        && (1..=EXCHANGES).contains(&exchange(sent))
        && time(sent) <= Seconds(LAST_SECOND)
        && fit(u32_at(sent, 12), u32_at(sent, 20))
        && fit(u32_at(sent, 16), u32_at(sent, 24))
}

/// "Prices may be none under the same size rules": a quote of none has size 0, one above zero at
/// least 1, one of zero either.
fn fit(price: u32, size: u32) -> bool {
    match price {
        NONE => size == 0,
        0 => size <= MOST_CONTRACTS,
        1..=HIGHEST_PRICE => (1..=MOST_CONTRACTS).contains(&size),
        _ => false,
    }
}

/// Test 22: "times going back".
fn in_order(list: &[Sent]) -> Result<(), Refusal> {
    if list.is_sorted_by(|sent, next| time(sent) <= time(next)) {
        Ok(())
    } else {
        Err(Refusal::QuoteOrder)
    }
}

/// Test 23: "a trade time above 86,399".
fn time_of_trade(word: u32) -> Result<Seconds, Refusal> {
    if word <= LAST_SECOND {
        Ok(Seconds(word))
    } else {
        Err(Refusal::TradeTime)
    }
}

/// Test 28: "that number is wrong".
fn right_number(list: &[Sent], trade_time: Seconds, before: u64) -> Result<(), Refusal> {
    if before == number_before(list, trade_time) as u64 {
        Ok(())
    } else {
        Err(Refusal::QuotesBefore)
    }
}

/// "The number of quotes strictly before the trade."
fn number_before(list: &[Sent], trade_time: Seconds) -> usize {
    let before = list.iter().filter(|sent| time(sent) < trade_time);
    before.count()
}

/// "From the last quote strictly before the trade backwards, down to and including the one by which
/// all sixteen exchanges are known, or to the first if that never comes." Any quote makes its
/// exchange known, one of none too.
fn examined(before: &[Sent]) -> usize {
    let mut known = [false; EXCHANGES];
    let mut count = 0;
    for sent in before.iter().rev() {
        count += 1;
        known[exchange(sent) - 1] = true;
        if known == [true; EXCHANGES] {
            break;
        }
    }
    count
}

/// "Find each exchange's last quote strictly before the trade."
fn last_sent(list: &[Sent], trade_time: Seconds) -> LastSent<'_> {
    let mut last = [None; EXCHANGES];
    for sent in list {
        if time(sent) >= trade_time {
            break; // and so is every later one
        }
        last[exchange(sent) - 1] = Some(sent);
    }
    last
}

/// "The best bid is the highest bid among those, its size the sum of sizes at that price; the offer
/// likewise with the lowest. An exchange that last sent none has no say."
fn best_of(last: &LastSent) -> (Option<Quote>, Option<Quote>) {
    let bids = last.iter().flatten().filter_map(|sent| bid(sent));
    let offers = last.iter().flatten().filter_map(|sent| offer(sent));
    let highest = bids.clone().map(|bid| bid.price).max();
    let lowest = offers.clone().map(|offer| offer.price).min();
    (
        highest.map(|price| joined(price, bids)),
        lowest.map(|price| joined(price, offers)),
    )
}

/// The quotes at that price as one. "A sum above 1,000,000 is given as 1,000,000."
fn joined(price: Mills, quotes: impl Iterator<Item = Quote>) -> Quote {
    let at_price = quotes.filter(|quote| quote.price == price);
    let sum: u32 = at_price.map(|quote| quote.size.0).sum();
    Quote {
        price,
        size: Contracts(sum.min(MOST_CONTRACTS)),
    }
}

fn exchange(sent: &Sent) -> usize {
    u32_at(sent, 4) as usize
}

fn time(sent: &Sent) -> Seconds {
    Seconds(u32_at(sent, 8))
}

fn bid(sent: &Sent) -> Option<Quote> {
    quote_or_none(u32_at(sent, 12), u32_at(sent, 20))
}

fn offer(sent: &Sent) -> Option<Quote> {
    quote_or_none(u32_at(sent, 16), u32_at(sent, 24))
}

fn quote_or_none(price: u32, size: u32) -> Option<Quote> {
    (price != NONE).then_some(Quote {
        price: Mills(price),
        size: Contracts(size),
    })
}
