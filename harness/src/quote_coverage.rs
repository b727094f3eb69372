//! What a run with quotes has reached, counted: a comparison is worth as much as the rules that its
//! lists reach.
//!
//! Numbers, prices and sizes are read from the answers on which both desks agree; which tests a list
//! fails comes from the independent desk, quote by quote; and the quotes that an answer could have
//! been mistaken for are sought here.

use std::collections::BTreeMap;
use std::fmt;

use crate::desk::DeskBest;
use crate::fields::{Fields, QuoteFields, NONE};
use crate::page::{self, Refusal};
use crate::quote_compare::FillAnswer;
use crate::quote_faults::{Counted, NUMBER_FAULTS};
use crate::quote_stream::Agreed;
use crate::walk_coverage::{Walk, WALKS};

/// Something that a call can reach.
#[derive(Clone, Copy, Debug, PartialEq, Eq, PartialOrd, Ord)]
enum Reached {
    /// The number that a lookup gives; 0 is an answer.
    Number(u64),
    /// The number that filling gives to a case of so many bytes; of another length than a case's, 0.
    Filled {
        bytes: usize,
        number: u32,
    },
    /// How the quotes of a filled case of kind 2 stand.
    FilledWide(bool),
    /// Two tests that both fail.
    Both(u32, u32),
    /// Where a list that fails 21 and 22 does so first.
    First(&'static str),
    Quotes(usize),
    TradeTime(u32),
    /// The one exchange with the best bid.
    Exchange(u32),
    /// A wrong number of quotes before the trade, refused 28.
    Brought(&'static str),
    /// The number of quotes before the trade, as it is told.
    Told(&'static str),
    /// The refusal for which none was told, though there were quotes before the trade.
    NotTold(u16),
    /// The quotes examined.
    Examined(&'static str),
    /// The exchange by which all sixteen were known.
    Sixteenth(u32),
    /// The exchange that was never known, the others being so.
    Missing(u32),
    /// What a side's answer is, or could have been mistaken for.
    Best(&'static str, &'static str),
}

const PAIRS: [(u32, u32); 10] = [
    (20, 21),
    (20, 22),
    (20, 23),
    (20, 28),
    (21, 22),
    (21, 23),
    (21, 28),
    (22, 23),
    (22, 28),
    (23, 28),
];
const FIRSTS: [&str; 2] = ["a bad field", "a time going back"];
const COUNTS: [usize; 5] = [0, 1, 1_999, 2_000, 2_001];
const TRADE_TIMES: [u32; 5] = [0, 1, 86_399, 86_400, NONE];

const NONE_TOLD: &str = "0";
const SOME_TOLD: &str = "some";
const ALL_TOLD: &str = "all";

const NO_QUOTE: &str = "none: no quote precedes the trade";
const ALL_NONE: &str = "none: every exchange last sent none";
const ONE_SIDE: &str = "none, but not on the other side";
const ZERO: &str = "zero, of size 0";
const ZERO_WITH_SIZE: &str = "zero, of a size above 0";
const HIGHEST: &str = "9,999,999";
const ALONE: &str = "of one exchange";
const BESIDE_WORSE: &str = "beside a worse one";
const SUM: &str = "of several, their sum below 1,000,000";
const SUM_AT_CAP: &str = "of several, their sum 1,000,000";
const SUM_ABOVE_CAP: &str = "of several, their sum above 1,000,000";
const SECOND_BEFORE: &str = "of the second before the trade";
const IN_TRADES_SECOND: &str = "a better one in the trade's second";
const OLDER: &str = "a better one before an exchange's last";
const SAME_SECOND: &str = "a better one before an exchange's last in the same second";
const REVIVED: &str = "a better one behind an exchange's none";
const WHATS: [&str; 16] = [
    NO_QUOTE,
    ALL_NONE,
    ONE_SIDE,
    ZERO,
    ZERO_WITH_SIZE,
    HIGHEST,
    ALONE,
    BESIDE_WORSE,
    SUM,
    SUM_AT_CAP,
    SUM_ABOVE_CAP,
    SECOND_BEFORE,
    IN_TRADES_SECOND,
    OLDER,
    SAME_SECOND,
    REVIVED,
];
/// Only an offer of zero can be better than another.
const ZERO_BESIDE: Reached = Reached::Best("offer", "zero, beside a worse one");

impl Reached {
    /// All that a long run should reach.
    fn all() -> Vec<Reached> {
        let mut all = vec![Reached::Number(0)];
        all.extend((20..=23).chain([28]).map(Reached::Number));
        all.push(Reached::Filled {
            bytes: 0,
            number: 1,
        });
        for bytes in [88, 92] {
            let numbers = [0].into_iter().chain(2..=9).chain(20..=22);
            all.extend(numbers.map(|number| Reached::Filled { bytes, number }));
        }
        all.extend([false, true].map(Reached::FilledWide));
        all.extend(PAIRS.map(|(first, second)| Reached::Both(first, second)));
        all.extend(FIRSTS.map(Reached::First));
        all.extend(COUNTS.map(Reached::Quotes));
        all.extend(TRADE_TIMES.map(Reached::TradeTime));
        all.extend((1..=16).map(Reached::Exchange));
        for side in ["bid", "offer"] {
            all.extend(WHATS.map(|what| Reached::Best(side, what)));
        }
        all.push(ZERO_BESIDE);
        all.extend(
            NUMBER_FAULTS
                .iter()
                .map(|fault| Reached::Brought(fault.name)),
        );
        all.extend([NONE_TOLD, SOME_TOLD, ALL_TOLD].map(Reached::Told));
        all.extend((20..=23).map(Reached::NotTold));
        all.extend(WALKS.map(Reached::Examined));
        all.extend((1..=16).map(Reached::Sixteenth));
        all.extend((1..=16).map(Reached::Missing));
        all
    }
}

impl fmt::Display for Reached {
    fn fmt(&self, out: &mut fmt::Formatter) -> fmt::Result {
        match self {
            Reached::Number(0) => write!(out, "looked up"),
            Reached::Number(number) => write!(out, "lookup refused {number}"),
            Reached::Filled { bytes, number: 0 } => write!(out, "{bytes} bytes filled"),
            Reached::Filled { bytes: 0, number } => {
                write!(out, "another length: filling refused {number}")
            }
            Reached::Filled { bytes, number } => {
                write!(out, "{bytes} bytes: filling refused {number}")
            }
            Reached::FilledWide(true) => write!(out, "filled, and wide"),
            Reached::FilledWide(false) => write!(out, "filled, and not wide by its differential"),
            Reached::Both(first, second) => write!(out, "both {first} and {second}"),
            Reached::First(what) => write!(out, "21 and 22, first {what}"),
            Reached::Quotes(count) => write!(out, "{count} quotes"),
            Reached::TradeTime(time) => write!(out, "trade time {time}"),
            Reached::Exchange(exchange) => write!(out, "best bid of exchange {exchange} alone"),
            Reached::Best(side, what) => write!(out, "{side}: {what}"),
            Reached::Brought(name) => write!(out, "brought and refused 28: {name}"),
            Reached::Told(what) => write!(out, "before the trade: {what} told"),
            Reached::NotTold(number) => {
                write!(out, "before the trade: some not told, for {number}")
            }
            Reached::Examined(what) => write!(out, "examined: {what}"),
            Reached::Sixteenth(exchange) => write!(out, "all known by exchange {exchange}"),
            Reached::Missing(exchange) => write!(out, "all known but exchange {exchange}"),
        }
    }
}

/// Calls counted by what they reach.
#[derive(Default)]
pub struct QuoteCoverage(BTreeMap<Reached, u64>);

impl QuoteCoverage {
    pub fn add(&mut self, call: Agreed) {
        match call {
            Agreed::Fill(answer) => self.count_filled(answer),
            Agreed::Best {
                list,
                trade_time,
                before,
                answer,
            } => {
                self.count(Reached::Number(answer.refusal));
                self.count(Reached::TradeTime(trade_time));
                self.count_tests(list, trade_time, before);
                match answer.refusal {
                    0 => self.count_answer(list, trade_time, &answer),
                    28 => self.count_brought(Counted::new(list, trade_time), before),
                    _ => {}
                }
            }
            Agreed::Before {
                list,
                trade_time,
                answer,
            } => self.count_told(list, trade_time, answer),
        }
    }

    fn count_filled(&mut self, FillAnswer { number, case }: &FillAnswer) {
        let bytes = match case.len() {
            bytes @ (88 | 92) => bytes,
            _ => 0,
        };
        let number = *number;
        self.count(Reached::Filled { bytes, number });
        if (bytes, number) == (92, 0) {
            self.count(Reached::FilledWide(Fields::decode(case).is_wide()));
        }
    }

    /// Which tests fail, each by itself.
    fn count_tests(&mut self, list: &[u8], trade_time: u32, before: u64) {
        let (records, rest) = list.as_chunks::<28>();
        if rest.is_empty() {
            self.count(Reached::Quotes(records.len()));
        }
        let bad = records
            .iter()
            .position(|record| page::quotes_before(record, 0) == Err(Refusal::QuoteField));
        let back = records.windows(2).position(|pair| {
            QuoteFields::decode(&pair[1]).time < QuoteFields::decode(&pair[0]).time
        });
        let fails = |number| match number {
            20 => !rest.is_empty() || records.len() > 2_000,
            21 => bad.is_some(),
            22 => back.is_some(),
            23 => trade_time > 86_399,
            _ => before != Counted::new(list, trade_time).before,
        };
        for (first, second) in PAIRS {
            if fails(first) && fails(second) {
                self.count(Reached::Both(first, second));
            }
        }
        if let (Some(bad), Some(back)) = (bad, back) {
            self.count(Reached::First(FIRSTS[usize::from(back + 1 < bad)]));
        }
    }

    /// Which wrong numbers this one is.
    fn count_brought(&mut self, counted: Counted, before: u64) {
        for fault in NUMBER_FAULTS {
            if fault.apply(counted) == before {
                self.count(Reached::Brought(fault.name));
            }
        }
    }

    fn count_told(&mut self, list: &[u8], trade_time: u32, answer: u64) {
        let counted = Counted::new(list, trade_time);
        let told = match page::quotes_before(list, trade_time) {
            Err(_) if counted.before == 0 => return,
            Err(refusal) => Reached::NotTold(refusal.number()),
            Ok(_) if answer == 0 => Reached::Told(NONE_TOLD),
            Ok(_) if answer == counted.all => Reached::Told(ALL_TOLD),
            Ok(_) => Reached::Told(SOME_TOLD),
        };
        self.count(told);
    }

    fn count_answer(&mut self, list: &[u8], trade_time: u32, answer: &DeskBest) {
        let (records, _) = list.as_chunks();
        let quotes: Vec<QuoteFields> = records.iter().map(QuoteFields::decode).collect();
        let walk = Walk::new(&quotes, trade_time, answer.examined);
        for what in WALKS {
            if walk.shows(what) {
                self.count(Reached::Examined(what));
            }
        }
        self.count_if_any(walk.sixteenth().map(Reached::Sixteenth));
        self.count_if_any(walk.missing().map(Reached::Missing));
        for side in &SIDES {
            let view = View::new(side, &quotes, trade_time, answer);
            for what in WHATS {
                if view.shows(what) {
                    self.count(Reached::Best(side.name, what));
                }
            }
            if side.name == "offer" && view.price == 0 && view.shows(BESIDE_WORSE) {
                self.count(ZERO_BESIDE);
            }
            if let ("bid", [quote]) = (side.name, &view.at_best()[..]) {
                self.count(Reached::Exchange(quote.exchange));
            }
        }
    }

    fn count_if_any(&mut self, reached: Option<Reached>) {
        if let Some(reached) = reached {
            self.count(reached);
        }
    }

    fn count(&mut self, reached: Reached) {
        *self.0.entry(reached).or_default() += 1;
    }

    fn of(&self, reached: Reached) -> u64 {
        self.0.get(&reached).copied().unwrap_or_default()
    }

    /// What should have been reached and was not.
    pub fn missing(&self) -> Vec<String> {
        Reached::all()
            .into_iter()
            .filter(|&reached| self.of(reached) == 0)
            .map(|reached| reached.to_string())
            .collect()
    }
}

impl fmt::Display for QuoteCoverage {
    fn fmt(&self, out: &mut fmt::Formatter) -> fmt::Result {
        for reached in Reached::all() {
            writeln!(out, "{:>9}  {reached}", self.of(reached))?;
        }
        Ok(())
    }
}

/// A side of a quote and of an answer.
struct Side {
    name: &'static str,
    price: fn(&QuoteFields) -> u32,
    size: fn(&QuoteFields) -> u32,
    answer: fn(&DeskBest) -> (u64, u64),
    better: fn(u32, u32) -> bool,
}

const SIDES: [Side; 2] = [
    Side {
        name: "bid",
        price: |quote| quote.bid,
        size: |quote| quote.bid_size,
        answer: |best| (best.bid, best.bid_size),
        better: |one, other| one > other,
    },
    Side {
        name: "offer",
        price: |quote| quote.offer,
        size: |quote| quote.offer_size,
        answer: |best| (best.offer, best.offer_size),
        better: |one, other| one < other,
    },
];

/// One side of an answer, and the quotes around it.
struct View<'a> {
    side: &'a Side,
    price: u32,
    size: u64,
    /// None on both sides.
    nothing: bool,
    trade_time: u32,
    quotes: &'a [QuoteFields],
    /// The places of each exchange's last quote before the trade.
    last: Vec<usize>,
}

impl<'a> View<'a> {
    fn new(
        side: &'a Side,
        quotes: &'a [QuoteFields],
        trade_time: u32,
        answer: &DeskBest,
    ) -> View<'a> {
        let (price, size) = (side.answer)(answer);
        let last = (1..=16).filter_map(|exchange| {
            let of_it = |quote: &QuoteFields| quote.exchange == exchange && quote.time < trade_time;
            quotes.iter().rposition(of_it)
        });
        View {
            side,
            price: price as u32,
            size,
            nothing: answer.bid == answer.offer && price == u64::from(NONE),
            trade_time,
            quotes,
            last: last.collect(),
        }
    }

    fn shows(&self, what: &str) -> bool {
        let none = self.price == NONE;
        match what {
            NO_QUOTE => none && self.last.is_empty() && !self.quotes.is_empty(),
            ALL_NONE => none && !self.last.is_empty(),
            ONE_SIDE => none && !self.nothing,
            ZERO => (self.price, self.size) == (0, 0),
            ZERO_WITH_SIZE => self.price == 0 && self.size > 0,
            HIGHEST => self.price == 9_999_999,
            ALONE => self.at_best().len() == 1,
            BESIDE_WORSE => self
                .last_prices()
                .any(|price| price != NONE && price != self.price),
            SUM => self.at_best().len() > 1 && self.sum() < 1_000_000,
            SUM_AT_CAP => self.at_best().len() > 1 && self.sum() == 1_000_000,
            SUM_ABOVE_CAP => self.sum() > 1_000_000,
            SECOND_BEFORE => self
                .at_best()
                .iter()
                .any(|quote| quote.time + 1 == self.trade_time),
            IN_TRADES_SECOND => self
                .quotes
                .iter()
                .any(|quote| quote.time == self.trade_time && self.beaten_by(quote)),
            OLDER => self.beaten_by_older(|last, _| (self.side.price)(last) != NONE),
            SAME_SECOND => self.beaten_by_older(|last, older| {
                (self.side.price)(last) != NONE && last.time == older.time
            }),
            _ => self.beaten_by_older(|last, _| (self.side.price)(last) == NONE),
        }
    }

    fn last_prices(&self) -> impl Iterator<Item = u32> + '_ {
        self.last
            .iter()
            .map(|&at| (self.side.price)(&self.quotes[at]))
    }

    /// The last quotes at the best price.
    fn at_best(&self) -> Vec<&QuoteFields> {
        self.last
            .iter()
            .map(|&at| &self.quotes[at])
            .filter(|quote| self.price != NONE && (self.side.price)(quote) == self.price)
            .collect()
    }

    fn sum(&self) -> u64 {
        let sizes = self.at_best().into_iter().map(self.side.size);
        sizes.map(u64::from).sum()
    }

    /// Would the answer be another if this quote had a say?
    fn beaten_by(&self, quote: &QuoteFields) -> bool {
        let price = (self.side.price)(quote);
        price != NONE && (self.price == NONE || (self.side.better)(price, self.price))
    }

    /// Is there a better quote before the last one of its exchange, the two being so?
    fn beaten_by_older(&self, so: impl Fn(&QuoteFields, &QuoteFields) -> bool) -> bool {
        self.last.iter().any(|&at| {
            let last = &self.quotes[at];
            self.quotes[..at].iter().any(|older| {
                older.exchange == last.exchange && self.beaten_by(older) && so(last, older)
            })
        })
    }
}
