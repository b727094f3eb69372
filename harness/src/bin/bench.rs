//! The benchmark: three sheets of 600 cases of kind 1 and one of both kinds ruled, one of them printed,
//! and lookups in a list of 2,000 quotes, one and hundreds, through the proved desk, the plain one and
//! a bare copy of the same bytes. Lookups also go through the independent desk's own, which is written
//! to be read: the plain one is [`fast_quotes`].
//!
//!     bench                              medians of many rounds, in ns per case and per lookup
//!     bench --count WHO WHAT ROUNDS      only those rounds, for a counter of instructions around it

use std::env;
use std::hint::black_box;
use std::time::Instant;

use harness::accepted::accepted_of;
use harness::desk::{SHEET_BYTES, TEXT_BYTES};
use harness::desks::{Desk, Plain, Proved, QuoteDesk};
use harness::fast_quotes;
use harness::fields::{encode_list, QuoteFields, NONE};
use harness::mixture::Mixture;
use harness::random::Random;
use harness::settings;

const CASES: usize = 600;
/// Of kind 1 and of kind 2: together they are as long as 600 of kind 1.
const MIXED_CASES: (usize, usize) = (301, 286);
const QUOTES: usize = 2_000;
const WARM_UP: usize = 200;
const ROUNDS: usize = 2_001;
const SHEETS: [&str; 5] = ["accepted", "refused", "half", MIXED, PRINTED];
/// Accepted cases of both kinds in no order.
const MIXED: &str = "mixed";
/// The sheet with half of each, printed and not ruled.
const PRINTED: &str = "printed";
/// How many quotes of the list precede the trade; or many trades all over the list, as on a busy
/// morning; or for each of those trades the number of quotes before it.
const LOOKUPS: [&str; 4] = ["1000", "20", MORNING, NUMBER];
const MORNING: &str = "morning";
const NUMBER: &str = "number";
const TRADES: usize = 400;
const MORNINGS: usize = 201;
const WORKERS: [&str; 3] = ["proved", "plain", "copy"];
const QUOTE_WORKERS: [&str; 4] = ["proved", "plain", "page", "copy"];

fn main() {
    let args: Vec<String> = env::args().skip(1).collect();
    let args: Vec<&str> = args.iter().map(String::as_str).collect();
    match args[..] {
        [] => measure(),
        ["--count", who, what, rounds] if workers(what).contains(&who) => {
            count(who, what, rounds.parse().expect("a number of rounds"));
        }
        _ => panic!(
            "usage: bench [--count {WORKERS:?} {SHEETS:?} ROUNDS] or \
             [--count {QUOTE_WORKERS:?} {LOOKUPS:?} ROUNDS]"
        ),
    }
}

/// What the workers take turns at.
trait Bench {
    /// One round. The buffers are not cleared before it.
    fn round(&mut self, worker: &str);
}

/// A sheet, the answers to it, and the buffers that every worker writes to.
struct Ruling {
    sheet: Vec<u8>,
    answers: Vec<u8>,
    read: Vec<u8>,
    out: Vec<u8>,
}

impl Ruling {
    /// Both desks answer once, and alike.
    fn new(name: &str) -> Ruling {
        let sheet = sheet(name);
        let mut answers = vec![0; cases(name) * 96];
        let mut out = vec![0; cases(name) * 96];
        let proved = Proved.rule_sheet(&sheet, &mut answers);
        let plain = Plain.rule_sheet(&sheet, &mut out);
        assert_eq!((proved, &answers), (plain, &out), "the desks agree");
        let ruled = match name {
            "accepted" | MIXED => cases(name),
            "refused" => 0,
            _ => CASES / 2,
        };
        assert_eq!(proved.ruled, ruled as u64);
        answers.truncate(proved.written as usize);
        Ruling {
            read: vec![0; sheet.len()],
            sheet,
            answers,
            out,
        }
    }
}

impl Bench for Ruling {
    fn round(&mut self, worker: &str) {
        match worker {
            "proved" => {
                black_box(Proved.rule_sheet(black_box(&self.sheet), black_box(&mut self.out)));
            }
            "plain" => {
                black_box(Plain.rule_sheet(black_box(&self.sheet), black_box(&mut self.out)));
            }
            _ => {
                black_box(&mut self.read).copy_from_slice(black_box(&self.sheet));
                let out = &mut black_box(&mut self.out)[..self.answers.len()];
                out.copy_from_slice(black_box(&self.answers));
            }
        }
    }
}

/// A sheet, its text, and the buffers that every worker writes to.
struct Printing {
    sheet: Vec<u8>,
    text: Vec<u8>,
    read: Vec<u8>,
    out: Box<[u8; TEXT_BYTES]>,
}

impl Printing {
    /// Both desks print once, and alike.
    fn new() -> Printing {
        let sheet = sheet(PRINTED);
        let mut out = Box::new([0; TEXT_BYTES]);
        let mut text = [0; TEXT_BYTES];
        let proved = Proved.print_sheet(&sheet, &mut text) as usize;
        let plain = Plain.print_sheet(&sheet, &mut out) as usize;
        assert_eq!(text[..proved], out[..plain], "the desks agree");
        Printing {
            read: vec![0; sheet.len()],
            sheet,
            text: text[..proved].to_vec(),
            out,
        }
    }
}

impl Bench for Printing {
    fn round(&mut self, worker: &str) {
        match worker {
            "proved" => {
                black_box(Proved.print_sheet(black_box(&self.sheet), black_box(&mut self.out)));
            }
            "plain" => {
                black_box(Plain.print_sheet(black_box(&self.sheet), black_box(&mut self.out)));
            }
            _ => {
                black_box(&mut self.read).copy_from_slice(black_box(&self.sheet));
                let out = &mut black_box(&mut self.out)[..self.text.len()];
                out.copy_from_slice(black_box(&self.text));
            }
        }
    }
}

/// 600 cases of kind 1: all accepted, all refused, or half of each in no order; or accepted cases of
/// both kinds. The longest sheet in every case.
fn sheet(name: &str) -> Vec<u8> {
    let mut random = Random::new(settings::seed());
    let mixture = Mixture::default();
    let mut cases: Vec<Vec<u8>> = (0..cases(name))
        .map(|index| {
            let wide = name == MIXED && index >= MIXED_CASES.0;
            let fields = accepted_of(&mut random, wide);
            let refused = match name {
                "accepted" | MIXED => false,
                "refused" => true,
                _ => index >= CASES / 2,
            };
            if refused {
                mixture.refused(&mut random, fields).encode()
            } else {
                fields.encode()
            }
        })
        .collect();
    random.shuffle(&mut cases);
    let sheet = cases.concat();
    assert_eq!(sheet.len(), SHEET_BYTES);
    sheet
}

/// How many cases a sheet has.
fn cases(name: &str) -> usize {
    match name {
        MIXED => MIXED_CASES.0 + MIXED_CASES.1,
        _ => CASES,
    }
}

/// A list of quotes, the trades to be looked up in it, and the buffer for the copy.
struct Lookup {
    quotes: Vec<u8>,
    trades: Vec<Trade>,
    read: Vec<u8>,
}

#[derive(Clone, Copy)]
struct Trade {
    time: u32,
    /// The number of quotes before it, found before the first round.
    before: u64,
}

impl Lookup {
    /// All desks answer once, and alike; from 20 quotes on there is a best bid and offer to find.
    fn new(name: &str) -> Lookup {
        let quotes = quotes();
        let places: Vec<usize> = match name {
            MORNING => (1..=TRADES)
                .map(|trade| trade * QUOTES / TRADES - 1)
                .collect(),
            _ => vec![name.parse().expect("a number of quotes")],
        };
        let trades = places.iter().map(|&before| Trade {
            time: quotes[before].time,
            before: before as u64,
        });
        let lookup = Lookup {
            trades: trades.collect(),
            quotes: encode_list(&quotes),
            read: vec![0; QUOTES * 28],
        };
        for &Trade { time, before } in &lookup.trades {
            let proved = Proved.best_quotes(&lookup.quotes, time, before);
            let plain = fast_quotes::best_quotes(&lookup.quotes, time, before);
            let page = Plain.best_quotes(&lookup.quotes, time, before);
            assert_eq!([proved, plain], [page; 2], "the desks agree");
            assert_eq!(proved.refusal, 0);
            assert!(before < 20 || (proved.bid_size > 0 && proved.offer_size > 0));
        }
        lookup
    }
}

impl Bench for Lookup {
    fn round(&mut self, worker: &str) {
        for &Trade { time, before } in &self.trades {
            let quotes = black_box(&self.quotes[..]);
            let (time, before) = (black_box(time), black_box(before));
            match worker {
                "proved" => {
                    black_box(Proved.best_quotes(quotes, time, before));
                }
                "plain" => {
                    black_box(fast_quotes::best_quotes(quotes, time, before));
                }
                "page" => {
                    black_box(Plain.best_quotes(quotes, time, before));
                }
                _ => black_box(&mut self.read).copy_from_slice(quotes),
            }
        }
    }
}

/// The same trades, and the number of quotes before each to be told.
struct Number(Lookup);

impl Number {
    /// All desks answer once, and alike.
    fn new() -> Number {
        let lookup = Lookup::new(MORNING);
        for &Trade { time, before } in &lookup.trades {
            let proved = Proved.quotes_before(&lookup.quotes, time);
            let plain = fast_quotes::quotes_before(&lookup.quotes, time);
            let page = Plain.quotes_before(&lookup.quotes, time);
            assert_eq!([proved, plain, page], [before; 3], "the desks agree");
        }
        Number(lookup)
    }
}

impl Bench for Number {
    fn round(&mut self, worker: &str) {
        let Number(lookup) = self;
        for &Trade { time, .. } in &lookup.trades {
            let (quotes, time) = (black_box(&lookup.quotes[..]), black_box(time));
            match worker {
                "proved" => {
                    black_box(Proved.quotes_before(quotes, time));
                }
                "plain" => {
                    black_box(fast_quotes::quotes_before(quotes, time));
                }
                "page" => {
                    black_box(Plain.quotes_before(quotes, time));
                }
                _ => black_box(&mut lookup.read).copy_from_slice(quotes),
            }
        }
    }
}

/// 2,000 quotes of sixteen exchanges around one price, each later than the one before; one bid or
/// offer in ten is none.
fn quotes() -> Vec<QuoteFields> {
    let mut random = Random::new(settings::seed());
    (0..QUOTES as u32)
        .map(|index| {
            let mut quote = QuoteFields {
                exchange: random.within(1, 16),
                time: 34_200 + 10 * index + random.within(0, 9),
                bid: 2_000 - 10 * random.within(0, 5),
                offer: 2_050 + 10 * random.within(0, 5),
                bid_size: random.within(1, 500),
                offer_size: random.within(1, 500),
                ..QuoteFields::example()
            };
            if random.once_in(10) {
                (quote.bid, quote.bid_size) = (NONE, 0);
            }
            if random.once_in(10) {
                (quote.offer, quote.offer_size) = (NONE, 0);
            }
            quote
        })
        .collect()
}

fn measure() {
    println!(
        "seed {}, medians of {ROUNDS} rounds\n\
         {CASES} cases of kind 1 a sheet, ns per case; {MIXED}: {} of kind 1 and {} of kind 2",
        settings::seed(),
        MIXED_CASES.0,
        MIXED_CASES.1
    );
    head("sheet", &WORKERS);
    for name in SHEETS {
        line(name);
    }
    println!(
        "{QUOTES} quotes a list, so many before the trade, ns per lookup\n\
         {MORNING}: hundreds of lookups in one list, {TRADES} a round, each with its number\n\
         {NUMBER}: the number itself told for each, medians of {MORNINGS} rounds both"
    );
    head("before", &QUOTE_WORKERS);
    for name in LOOKUPS {
        line(name);
    }
}

fn workers(what: &str) -> &'static [&'static str] {
    if SHEETS.contains(&what) {
        &WORKERS
    } else {
        &QUOTE_WORKERS
    }
}

fn bench(what: &str) -> Box<dyn Bench> {
    match what {
        NUMBER => Box::new(Number::new()),
        PRINTED => Box::new(Printing::new()),
        _ if SHEETS.contains(&what) => Box::new(Ruling::new(what)),
        _ => Box::new(Lookup::new(what)),
    }
}

fn rounds(what: &str) -> usize {
    match what {
        MORNING | NUMBER => MORNINGS,
        _ => ROUNDS,
    }
}

/// How many cases or lookups a round has.
fn in_a_round(what: &str) -> usize {
    match what {
        MORNING | NUMBER => TRADES,
        _ if SHEETS.contains(&what) => cases(what),
        _ => 1,
    }
}

fn head(what: &str, workers: &[&str]) {
    print!("{what:<10}");
    for worker in workers {
        print!("{worker:>10}");
    }
    println!("{:>14}", "proved/plain");
}

/// The workers take turns; a line of medians, each divided by what a round has.
fn line(name: &str) {
    let mut bench = bench(name);
    let (workers, rounds) = (workers(name), rounds(name));
    let mut times = vec![Vec::with_capacity(rounds); workers.len()];
    for round in 0..WARM_UP + rounds {
        for (worker, times) in workers.iter().zip(&mut times) {
            let start = Instant::now();
            bench.round(worker);
            let time = start.elapsed();
            if round >= WARM_UP {
                times.push(time.as_nanos());
            }
        }
    }
    let medians: Vec<f64> = times
        .into_iter()
        .map(|times| median(times) / in_a_round(name) as f64)
        .collect();
    print!("{name:<10}");
    for median in &medians {
        print!("{median:>10.1}");
    }
    println!("{:>14.2}", medians[0] / medians[1]);
}

fn median(mut times: Vec<u128>) -> f64 {
    times.sort_unstable();
    times[times.len() / 2] as f64
}

fn count(worker: &str, what: &str, rounds: usize) {
    let mut bench = bench(what);
    for _ in 0..rounds {
        bench.round(worker);
    }
}
