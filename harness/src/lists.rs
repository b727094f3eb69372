//! Lists of quotes, good and bad, in which few exchanges, seconds, prices and sizes meet again and
//! again; and trade times and cases that go with them.
//!
//! The numbers here are the documents' own, written once more: the generator must not lean on either
//! desk.

use crate::accepted::accepted;
use crate::fields::{encode_list, Fields, QuoteFields, NONE};
use crate::mixture::Mixture;
use crate::quote_faults::{quote_faults, QuoteFault};
use crate::random::Random;

const HIGHEST_PRICE: u32 = 9_999_999;
const MOST_CONTRACTS: u32 = 1_000_000;
const LAST_SECOND: u32 = 86_399;
const EXCHANGES: usize = 16;
const MOST_QUOTES: usize = 2_000;

/// Sizes of which a few sum to a little less than 1,000,000, to just that or to more.
const SIZES: [&[u32]; 5] = [
    &[1, 2, 10, 20],
    &[499_999, 500_000, 500_001],
    &[1, 999_999, MOST_CONTRACTS],
    &[333_333, 333_334],
    &[62_500, 62_501],
];

/// What the quotes of a list have in common.
struct Market {
    exchanges: Vec<u32>,
    /// One quote in so many is of any of them. The others come in turns, so that all are soon known.
    any: u32,
    waiting: Vec<u32>,
    prices: Vec<u32>,
    sizes: &'static [u32],
    /// One bid or offer in so many is none.
    none: u32,
}

impl Market {
    fn new(random: &mut Random) -> Market {
        let mut exchanges: Vec<u32> = (1..=EXCHANGES as u32).collect();
        random.shuffle(&mut exchanges);
        exchanges.truncate(random.pick(&[1, 2, 3, 5, EXCHANGES - 1, EXCHANGES, EXCHANGES]));
        let any = random.within(0, HIGHEST_PRICE);
        let price = random.pick(&[0, 1, 1, 2_000, HIGHEST_PRICE, any]);
        let prices = vec![
            price,
            price,
            price.saturating_sub(1),
            (price + 1).min(HIGHEST_PRICE),
            random.pick(&[0, HIGHEST_PRICE, price]),
        ];
        Market {
            exchanges,
            any: random.pick(&[1, 1, 6, 1_000]),
            waiting: Vec::new(),
            prices,
            sizes: random.pick(&SIZES),
            none: random.pick(&[1, 2, 2, 3, 3, 8, 8, 1_000]),
        }
    }

    fn quote(&mut self, random: &mut Random, time: u32) -> QuoteFields {
        let (bid, bid_size) = self.price_and_size(random);
        let (offer, offer_size) = self.price_and_size(random);
        QuoteFields {
            exchange: self.exchange(random),
            time,
            bid,
            offer,
            bid_size,
            offer_size,
            ..QuoteFields::example()
        }
    }

    fn exchange(&mut self, random: &mut Random) -> u32 {
        if random.once_in(self.any) {
            return random.pick(&self.exchanges);
        }
        if self.waiting.is_empty() {
            self.waiting.clone_from(&self.exchanges);
            random.shuffle(&mut self.waiting);
        }
        self.waiting.pop().expect("an exchange that waits")
    }

    /// "A quote of none has size 0; a quote above zero has size at least 1; a quote of zero may have
    /// either."
    fn price_and_size(&self, random: &mut Random) -> (u32, u32) {
        if random.once_in(self.none) {
            return (NONE, 0);
        }
        let price = random.pick(&self.prices);
        if price == 0 && random.once_in(2) {
            return (0, 0);
        }
        (price, random.pick(self.sizes))
    }
}

/// A list that no test refuses.
pub fn good_list(random: &mut Random) -> Vec<QuoteFields> {
    let count = match random.within(0, 499) {
        0 => random.pick(&[MOST_QUOTES - 1, MOST_QUOTES, MOST_QUOTES]),
        1..=5 => random.within(30, 300) as usize,
        6..=50 => random.within(0, 2) as usize,
        51..=200 => random.within(15, 40) as usize,
        _ => random.within(2, 24) as usize,
    };
    list_of(random, count)
}

/// A good list of so many quotes.
pub fn list_of(random: &mut Random, count: usize) -> Vec<QuoteFields> {
    let mut market = Market::new(random);
    let any = random.within(0, LAST_SECOND);
    let mut time = random.pick(&[0, 1, 34_190, LAST_SECOND - 4, any]);
    (0..count)
        .map(|_| {
            time = (time + random.pick(&[0, 0, 0, 1, 1, 2, 60])).min(LAST_SECOND);
            market.quote(random, time)
        })
        .collect()
}

/// The lists that the long comparison draws from, and cases beside them.
pub struct Lists {
    faults: Vec<QuoteFault>,
    cases: Mixture,
}

impl Default for Lists {
    fn default() -> Lists {
        Lists {
            faults: quote_faults(),
            cases: Mixture::default(),
        }
    }
}

impl Lists {
    /// Any bytes, mostly those of a good list.
    pub fn list(&self, random: &mut Random) -> Vec<u8> {
        let mut quotes = good_list(random);
        if random.once_in(8) {
            go_back(random, &mut quotes);
        }
        if random.once_in(8) {
            self.spoil(random, &mut quotes);
        }
        let mut bytes = encode_list(&quotes);
        if random.once_in(40) {
            damage(random, &mut bytes);
        }
        if random.once_in(20) {
            let change = random.within(1, 60) as usize;
            if random.once_in(2) {
                bytes.resize(bytes.len() + change, 0);
            } else {
                bytes.truncate(bytes.len().saturating_sub(change));
            }
        }
        if random.once_in(1_000) {
            bytes = encode_list(&list_of(random, MOST_QUOTES + 1));
        }
        bytes
    }

    /// A fault in one quote.
    fn spoil(&self, random: &mut Random, quotes: &mut [QuoteFields]) {
        if !quotes.is_empty() {
            let fault = random.within(0, self.faults.len() as u32 - 1);
            let at = random.within(0, quotes.len() as u32 - 1);
            self.faults[fault as usize].apply(&mut quotes[at as usize]);
        }
    }

    /// A case, mostly an accepted one that was executed beside a quote and filed soon after.
    pub fn case(&self, random: &mut Random, list: &[u8]) -> Vec<u8> {
        if random.once_in(8) {
            return self.cases.record(random);
        }
        let mut fields = accepted(random);
        fields.executed_at = trade_time(random, list).min(LAST_SECOND);
        if fields.day == 0 {
            fields.filed_at = (fields.executed_at + random.within(0, 5)).min(LAST_SECOND);
        }
        if random.once_in(4) {
            without_quotes(&mut fields);
        }
        let mut case = fields.encode();
        if random.once_in(40) {
            case.resize(random.within(0, 200) as usize, 0);
        }
        case
    }
}

/// A case as it comes before its quotes are known.
fn without_quotes(fields: &mut Fields) {
    (fields.bid, fields.bid_size) = (NONE, 0);
    (fields.offer, fields.offer_size) = (NONE, 0);
}

/// One quote's time goes back, mostly by a second, where it can.
fn go_back(random: &mut Random, quotes: &mut [QuoteFields]) {
    if quotes.len() > 1 {
        let at = random.within(1, quotes.len() as u32 - 1) as usize;
        let back = random.pick(&[1, 1, 1, 2, 100]);
        quotes[at].time = quotes[at - 1].time.saturating_sub(back);
    }
}

/// Up to three bytes changed, or single bits of them.
fn damage(random: &mut Random, bytes: &mut [u8]) {
    for _ in 0..random.within(1, 3) {
        if !bytes.is_empty() {
            let at = random.within(0, bytes.len() as u32 - 1) as usize;
            if random.once_in(2) {
                bytes[at] ^= 1 << random.within(0, 7);
            } else {
                bytes[at] = random.word() as u8;
            }
        }
    }
}

/// A trade time: mostly that of a quote or a second beside it, often of the last one; else an end of
/// the day or too late.
pub fn trade_time(random: &mut Random, list: &[u8]) -> u32 {
    let (quotes, _) = list.as_chunks();
    let Some(last) = quotes.last() else {
        return random.pick(&[0, 1, 34_200, LAST_SECOND, LAST_SECOND + 1, NONE]);
    };
    let quote = match random.within(0, 15) {
        0 => return random.pick(&[0, 1, LAST_SECOND - 1, LAST_SECOND]),
        1 => return random.pick(&[LAST_SECOND + 1, LAST_SECOND + 2, 1 << 31, NONE - 1, NONE]),
        2 => return random.within(0, LAST_SECOND),
        3..=5 => *last,
        _ => random.pick(quotes),
    };
    let beside = QuoteFields::decode(&quote).time.saturating_add(2);
    beside.saturating_sub(random.pick(&[0, 1, 1, 1, 2, 2, 3]))
}
