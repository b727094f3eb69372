//! What the count of a lookup shows: where the walk back from the trade ended, and by which quote.

use crate::fields::{QuoteFields, NONE};

const OF_NO_QUOTES: &str = "none of no quotes";
const NONE_BEFORE: &str = "none, every quote being at the trade or after it";
const STOPPED: &str = "fewer than precede the trade";
const SIXTEEN: &str = "sixteen of more";
const AT_FIRST: &str = "all, sixteen exchanges being known by the first of them";
const FEWER_KNOWN: &str = "all, fewer than sixteen exchanges being known";
const FIFTEEN_KNOWN: &str = "all, fifteen exchanges being known";
const SIXTEENTH_LATE: &str = "all, the sixteenth exchange quoting from the trade's second on";
const TO_NONE: &str = "down to a quote of none and none";
const TO_ONLY_NONE: &str = "down to a quote of none and none, its exchange's only one";
const TO_NO_BID: &str = "down to a quote without a bid";
const TO_NO_OFFER: &str = "down to a quote without an offer";
const PAST_NONE: &str = "past an exchange known by nothing but none and none";
const ALL_2_000: &str = "2,000";
const OF_2_000: &str = "fewer than the 2,000 that precede the trade";

pub(crate) const WALKS: [&str; 15] = [
    OF_NO_QUOTES,
    NONE_BEFORE,
    STOPPED,
    SIXTEEN,
    AT_FIRST,
    FEWER_KNOWN,
    FIFTEEN_KNOWN,
    SIXTEENTH_LATE,
    TO_NONE,
    TO_ONLY_NONE,
    TO_NO_BID,
    TO_NO_OFFER,
    PAST_NONE,
    ALL_2_000,
    OF_2_000,
];

/// The quotes at a trade, and how many of those before it were examined.
pub(crate) struct Walk<'a> {
    before: &'a [QuoteFields],
    from_the_trade_on: &'a [QuoteFields],
    examined: &'a [QuoteFields],
    /// The exchanges without a quote before the trade.
    unknown: Vec<u32>,
}

impl<'a> Walk<'a> {
    pub(crate) fn new(quotes: &'a [QuoteFields], trade_time: u32, examined: u64) -> Walk<'a> {
        let number = quotes.partition_point(|quote| quote.time < trade_time);
        let (before, from_the_trade_on) = quotes.split_at(number);
        let unknown = (1..=16).filter(|&exchange| of(exchange, before).next().is_none());
        Walk {
            before,
            from_the_trade_on,
            examined: &before[number - examined as usize..],
            unknown: unknown.collect(),
        }
    }

    pub(crate) fn shows(&self, what: &str) -> bool {
        let all = self.examined.len() == self.before.len();
        let down_to = |so: fn(&QuoteFields) -> bool| self.stop().is_some_and(so);
        match what {
            OF_NO_QUOTES => self.before.is_empty() && self.from_the_trade_on.is_empty(),
            NONE_BEFORE => self.before.is_empty() && !self.from_the_trade_on.is_empty(),
            STOPPED => !all,
            SIXTEEN => !all && self.examined.len() == 16,
            AT_FIRST => all && self.unknown.is_empty(),
            FEWER_KNOWN => all && !self.before.is_empty() && !self.unknown.is_empty(),
            FIFTEEN_KNOWN => all && self.unknown.len() == 1,
            SIXTEENTH_LATE => self
                .missing()
                .is_some_and(|exchange| of(exchange, self.from_the_trade_on).next().is_some()),
            TO_NONE => down_to(is_none),
            TO_ONLY_NONE => {
                down_to(is_none) && self.stop().is_some_and(|quote| self.is_only(quote))
            }
            TO_NO_BID => down_to(|quote| quote.bid == NONE && quote.offer != NONE),
            TO_NO_OFFER => down_to(|quote| quote.offer == NONE && quote.bid != NONE),
            PAST_NONE => self.passes_none(),
            ALL_2_000 => self.examined.len() == 2_000,
            _ => !all && self.before.len() == 2_000,
        }
    }

    /// The exchange by which all sixteen were known before the first quote was reached.
    pub(crate) fn sixteenth(&self) -> Option<u32> {
        self.stop().map(|quote| quote.exchange)
    }

    /// The one exchange that was never known.
    pub(crate) fn missing(&self) -> Option<u32> {
        match self.unknown[..] {
            [exchange] => Some(exchange),
            _ => None,
        }
    }

    /// The quote at which the walk ended before the first one.
    fn stop(&self) -> Option<&QuoteFields> {
        let all = self.examined.len() == self.before.len();
        self.examined.first().filter(|_| !all)
    }

    fn is_only(&self, quote: &QuoteFields) -> bool {
        of(quote.exchange, self.before).count() == 1
    }

    /// Were all sixteen known, one of them, other than the last, by nothing but none and none?
    fn passes_none(&self) -> bool {
        self.stop().is_some_and(|stop| {
            (1..=16)
                .filter(|&exchange| exchange != stop.exchange)
                .any(|exchange| of(exchange, self.examined).all(is_none))
        })
    }
}

fn of(exchange: u32, quotes: &[QuoteFields]) -> impl Iterator<Item = &QuoteFields> {
    quotes
        .iter()
        .filter(move |quote| quote.exchange == exchange)
}

fn is_none(quote: &QuoteFields) -> bool {
    (quote.bid, quote.offer) == (NONE, NONE)
}
