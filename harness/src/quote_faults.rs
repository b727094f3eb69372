//! Faults of a quote: each makes a good quote's field bad, in every field and on every side that
//! the test has. And faults of the number of quotes before a trade, which the caller brings.

use crate::fields::{QuoteFields, NONE};

/// A change of a good quote, after which its list is refused 21.
pub struct QuoteFault {
    pub name: String,
    change: Box<dyn Fn(&mut QuoteFields)>,
}

impl QuoteFault {
    fn new(name: String, change: impl Fn(&mut QuoteFields) + 'static) -> QuoteFault {
        QuoteFault {
            name,
            change: Box::new(change),
        }
    }

    pub fn apply(&self, quote: &mut QuoteFields) {
        (self.change)(quote);
    }
}

/// What can be counted in a list at a trade, by the times that stand in the bytes, whether the list is
/// good or not.
#[derive(Clone, Copy)]
pub struct Counted {
    /// Strictly before the trade: the right number.
    pub before: u64,
    /// In the trade's second too.
    pub up_to: u64,
    pub all: u64,
}

impl Counted {
    pub fn new(list: &[u8], trade_time: u32) -> Counted {
        let (records, _) = list.as_chunks();
        let times = records
            .iter()
            .map(|record| QuoteFields::decode(record).time);
        Counted {
            before: times.clone().filter(|&time| time < trade_time).count() as u64,
            up_to: times.filter(|&time| time <= trade_time).count() as u64,
            all: records.len() as u64,
        }
    }
}

/// What a caller brings for the right number; where it is another, it is refused 28 if nothing else
/// is refused before.
pub struct NumberFault {
    pub name: &'static str,
    change: fn(Counted) -> u64,
}

impl NumberFault {
    pub fn apply(&self, counted: Counted) -> u64 {
        (self.change)(counted)
    }
}

macro_rules! number_faults {
    ($($name:literal: $change:expr,)*) => {
        /// Every fault of the number.
        pub const NUMBER_FAULTS: &[NumberFault] = &[
            $(NumberFault { name: $name, change: $change },)*
        ];
    };
}

number_faults! {
    "one less": |of| of.before.wrapping_sub(1),
    "one more": |of| of.before + 1,
    "0": |_| 0,
    "1": |_| 1,
    "16": |_| 16,
    "those up to the trade's second": |of| of.up_to,
    "those from the trade on": |of| of.all - of.before,
    "all quotes": |of| of.all,
    "one more than all": |of| of.all + 1,
    "their bytes": |of| of.before * 28,
    "2^8 more": |of| of.before + (1 << 8),
    "2^16 more": |of| of.before + (1 << 16),
    "2^32 more": |of| of.before + (1 << 32),
    "2^63 more": |of| of.before + (1 << 63),
    "2^32": |_| 1 << 32,
    "2^63": |_| 1 << 63,
    "2^64 - 1": |_| u64::MAX,
}

/// A way to one field, so that faults can be listed by field.
type Place<T> = (&'static str, fn(&mut QuoteFields) -> &mut T);

/// A way to a price, and one to its size.
type Side = (Place<u32>, Place<u32>);

const SIDES: [Side; 2] = [
    (("bid", |q| &mut q.bid), ("bid_size", |q| &mut q.bid_size)),
    (
        ("offer", |q| &mut q.offer),
        ("offer_size", |q| &mut q.offer_size),
    ),
];

/// Every single fault.
pub fn quote_faults() -> Vec<QuoteFault> {
    let mut all = Vec::new();
    let lengths = [0, 1, 27, 29, 32, 88, 28 + 256, 28 << 8, u16::MAX];
    set(&mut all, ("length", |q| &mut q.length), &lengths);
    let kinds = [0, 1, 16, 31, 33, 32 << 8, 32 + 256, u16::MAX];
    set(&mut all, ("kind", |q| &mut q.kind), &kinds);
    let exchanges = [0, 17, 18, 32, 1 << 8, 1 + 256, 1 << 16, 1 << 24, NONE];
    set(&mut all, ("exchange", |q| &mut q.exchange), &exchanges);
    let times = [86_400, 86_401, 1 << 31, NONE - 1, NONE];
    set(&mut all, ("time", |q| &mut q.time), &times);
    for (price, size) in SIDES {
        set(&mut all, price, &[10_000_000, 3_691_315_200, NONE - 1]);
        set(&mut all, size, &[1_000_001, NONE - 1, NONE]);
        for (mills, contracts) in [
            (NONE, 1),
            (NONE, 1_000_000),
            (1, 0),
            (9_999_999, 0),
            (0, 1_000_001),
        ] {
            pair(&mut all, (price, size), mills, contracts);
        }
    }
    all
}

/// Sets a field to each of the values.
fn set<T: Copy + std::fmt::Debug + 'static>(
    all: &mut Vec<QuoteFault>,
    (name, place): Place<T>,
    values: &[T],
) {
    for &value in values {
        let name = format!("{name} {value:?}");
        all.push(QuoteFault::new(name, move |quote| {
            *place(quote) = value;
        }));
    }
}

/// Sets a price and its size.
fn pair(all: &mut Vec<QuoteFault>, (price, size): Side, mills: u32, contracts: u32) {
    let name = format!("{} {mills} of size {contracts}", price.0);
    all.push(QuoteFault::new(name, move |quote| {
        *price.1(quote) = mills;
        *size.1(quote) = contracts;
    }));
}
