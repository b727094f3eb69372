//! The 88 or 92 bytes of a case record, the 28 of a quote and the 32 of a ruling, field by field and
//! unjudged: what the generators set, what a difference prints and what a test looks at.

use std::fmt;

pub const NONE: u32 = u32::MAX;

/// The pair of length and kind at the head of a case of kind 1, and of one of kind 2.
pub const KIND_1: (u16, u16) = (88, 1);
pub const KIND_2: (u16, u16) = (92, 2);

/// A field of the record as it stands in the bytes.
trait Field {
    fn put(&self, bytes: &mut [u8]);
    fn of_bytes(bytes: &[u8]) -> Self;
    /// The same number with its bytes in the other order.
    fn turned(&self) -> Self;
    fn shown(&self) -> String;
}

macro_rules! number_field {
    ($number:ty) => {
        impl Field for $number {
            fn put(&self, bytes: &mut [u8]) {
                bytes.copy_from_slice(&self.to_le_bytes());
            }

            fn of_bytes(bytes: &[u8]) -> Self {
                <$number>::from_le_bytes(bytes.try_into().expect("the field's bytes"))
            }

            fn turned(&self) -> Self {
                self.swap_bytes()
            }

            fn shown(&self) -> String {
                if u64::from(*self) == u64::from(NONE) {
                    String::from("none")
                } else {
                    self.to_string()
                }
            }
        }
    };
}

number_field!(u8);
number_field!(u16);
number_field!(u32);

/// A member code is no number: it has no order to turn.
impl Field for [u8; 4] {
    fn put(&self, bytes: &mut [u8]) {
        bytes.copy_from_slice(self);
    }

    fn of_bytes(bytes: &[u8]) -> Self {
        bytes.try_into().expect("the field's bytes")
    }

    fn turned(&self) -> Self {
        *self
    }

    fn shown(&self) -> String {
        self.escape_ascii().to_string()
    }
}

/// A record's fields, in their order and without a gap; and a number that may come behind them.
macro_rules! fields {
    ($fields:ident, $bytes:literal, $encode:ident, $decode:ident:
     $($name:ident: $kind:ty,)*
     $(; $behind:ident)?) => {
        #[derive(Clone, Debug, PartialEq, Eq)]
        pub struct $fields {
            $(pub $name: $kind,)*
            $(pub $behind: Option<u32>,)?
        }

        impl $fields {
            pub fn $encode(&self) -> [u8; $bytes] {
                let mut record = [0; $bytes];
                let mut rest = &mut record[..];
                $(
                    let (bytes, after) = rest.split_at_mut(size_of::<$kind>());
                    self.$name.put(bytes);
                    rest = after;
                )*
                assert!(rest.is_empty(), "the fields fill the record");
                record
            }

            pub fn $decode(record: &[u8; $bytes]) -> $fields {
                let mut rest = &record[..];
                let fields = $fields {
                    $($name: {
                        let (bytes, after) = rest.split_at(size_of::<$kind>());
                        rest = after;
                        Field::of_bytes(bytes)
                    },)*
                    $($behind: None,)?
                };
                assert!(rest.is_empty(), "the fields fill the record");
                fields
            }

            /// Every number with its bytes in the other order.
            pub fn turned(&self) -> $fields {
                $fields {
                    $($name: self.$name.turned(),)*
                    $($behind: self.$behind.map(|number| number.turned()),)?
                }
            }
        }

        impl fmt::Display for $fields {
            fn fmt(&self, out: &mut fmt::Formatter) -> fmt::Result {
                let mut at = 0;
                $(
                    writeln!(out, "  {at:>2} {:<14} {}", stringify!($name), self.$name.shown())?;
                    at += size_of::<$kind>();
                )*
                debug_assert_eq!(at, $bytes);
                $(
                    if let Some(number) = &self.$behind {
                        writeln!(out, "  {at:>2} {:<14} {}", stringify!($behind), number.shown())?;
                    }
                )?
                Ok(())
            }
        }
    };
}

fields! { Fields, 88, facts, of_facts:
    length: u16,
    kind: u16,
    trade: u32,
    execution: u32,
    contracts: u32,
    executed_at: u32,
    bid: u32,
    offer: u32,
    bid_size: u32,
    offer_size: u32,
    zero_36: u32,
    official: u32,
    side: u8,
    opening: u8,
    expiry: u8,
    panel: u8,
    buyer_code: [u8; 4],
    buyer_limit: u32,
    seller_code: [u8; 4],
    seller_limit: u32,
    buyer_kind: u8,
    seller_kind: u8,
    day: u8,
    agreement: u8,
    agreed: u32,
    filed_at: u32,
    agreed_after: u32,
    accepted_after: u32,
    zero_84: u32,
    ; differential
}

fields! { QuoteFields, 28, encode, decode:
    length: u16,
    kind: u16,
    exchange: u32,
    time: u32,
    bid: u32,
    offer: u32,
    bid_size: u32,
    offer_size: u32,
}

fields! { RulingFields, 32, encode, decode:
    length: u16,
    kind: u16,
    trade: u32,
    outcome: u8,
    reason: u8,
    origin: u8,
    zero_11: u8,
    tp: u32,
    new_price: u32,
    adjusted: u32,
    nullified: u32,
    standing: u32,
}

impl Fields {
    /// An accepted case that rules of the page can be tried on: two Market Makers, a buy of 10 at
    /// 2.000 against an offer of 1.000, filed on the trade date 120 s after the execution at
    /// 34,200. It is trade 1 of the page's own sheet.
    pub fn example() -> Fields {
        Fields {
            length: 88,
            kind: 1,
            trade: 1,
            execution: 2_000,
            contracts: 10,
            executed_at: 34_200,
            bid: NONE,
            offer: 1_000,
            bid_size: 0,
            offer_size: 10,
            zero_36: 0,
            official: NONE,
            side: 1,
            opening: 0,
            expiry: 0,
            panel: 0,
            buyer_code: *b"MM01",
            buyer_limit: NONE,
            seller_code: *b"MM02",
            seller_limit: NONE,
            buyer_kind: 2,
            seller_kind: 2,
            day: 0,
            agreement: 0,
            agreed: NONE,
            filed_at: 34_320,
            agreed_after: 0,
            accepted_after: NONE,
            zero_84: 0,
            differential: None,
        }
    }

    /// The same case as one of kind 2.
    pub fn wide(self, differential: u32) -> Fields {
        Fields {
            differential: Some(differential),
            ..self
        }
        .well_headed()
    }

    /// The same facts as a case of kind 1.
    pub fn narrow(self) -> Fields {
        Fields {
            differential: None,
            ..self
        }
        .well_headed()
    }

    /// With the pair of length and kind that belongs to its bytes.
    pub fn well_headed(self) -> Fields {
        let (length, kind) = match self.differential {
            None => KIND_1,
            Some(_) => KIND_2,
        };
        Fields {
            length,
            kind,
            ..self
        }
    }

    /// 88 bytes, and four more where there is a differential, whatever the head says.
    pub fn encode(&self) -> Vec<u8> {
        let mut record = self.facts().to_vec();
        record.extend(
            self.differential
                .iter()
                .flat_map(|mills| mills.to_le_bytes()),
        );
        record
    }

    /// Of 88 or 92 bytes, whatever the head says.
    pub fn decode(record: &[u8]) -> Fields {
        let (facts, behind) = record.split_first_chunk().expect("88 bytes");
        let differential =
            (!behind.is_empty()).then(|| u32::from_le_bytes(behind.try_into().expect("92 bytes")));
        Fields {
            differential,
            ..Fields::of_facts(facts)
        }
    }

    /// Both quotes are there, and the offer is at least twice the differential above the bid.
    pub fn is_wide(&self) -> bool {
        let twice = 2 * i64::from(self.differential.unwrap_or(NONE));
        self.bid != NONE && self.offer != NONE && self.spread() >= twice
    }

    /// How far the offer is above the bid; below zero in a crossed market.
    pub fn spread(&self) -> i64 {
        i64::from(self.offer) - i64::from(self.bid)
    }

    /// Price and size of the quote that comes first for TP: "best offer for a buy, best bid for a
    /// sell".
    pub fn own_quote(&self) -> (u32, u32) {
        if self.side == 1 {
            (self.offer, self.offer_size)
        } else {
            (self.bid, self.bid_size)
        }
    }

    /// Price and size of the quote that has no say.
    pub fn other_quote(&self) -> (u32, u32) {
        if self.side == 1 {
            (self.bid, self.bid_size)
        } else {
            (self.offer, self.offer_size)
        }
    }

    /// The quotes alone with their bytes in the other order.
    pub fn quotes_turned(&self) -> Fields {
        Fields {
            bid: self.bid.turned(),
            offer: self.offer.turned(),
            ..self.clone()
        }
    }
}

impl QuoteFields {
    /// A good quote of exchange 1: bid 1.000 for 10, offer 1.100 for 20, ten seconds before the
    /// execution of [`Fields::example`].
    pub fn example() -> QuoteFields {
        QuoteFields {
            length: 28,
            kind: 32,
            exchange: 1,
            time: 34_190,
            bid: 1_000,
            offer: 1_100,
            bid_size: 10,
            offer_size: 20,
        }
    }
}

impl RulingFields {
    /// The ruling comes first in the answer to a case, before the notices.
    pub fn of_answer(answer: &[u8; 96]) -> RulingFields {
        RulingFields::decode(answer.first_chunk().expect("96 bytes"))
    }
}

/// A list of quotes as bytes.
pub fn encode_list(quotes: &[QuoteFields]) -> Vec<u8> {
    quotes.iter().flat_map(QuoteFields::encode).collect()
}

/// "The printer reads a sheet ...": the page's own three cases.
pub fn page_sheet() -> Vec<u8> {
    let first = Fields::example();
    let second = Fields {
        trade: 2,
        execution: 1_000,
        contracts: 30,
        bid: 2_000,
        bid_size: 20,
        offer: NONE,
        offer_size: 0,
        side: 2,
        opening: 1,
        seller_code: *b"CUST",
        seller_kind: 1,
        filed_at: 34_200 + 1_800,
        ..Fields::example()
    };
    let third = Fields {
        trade: 3,
        contracts: 0,
        ..Fields::example()
    };
    [first.encode(), second.encode(), third.encode()].concat()
}
