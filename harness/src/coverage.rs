//! What a run has reached, counted: a comparison is worth as much as the rules that its cases
//! reach.
//!
//! Numbers, outcomes, reasons and origins are read from the answers on which both desks agree; way,
//! TP and band come from the independent desk, and which prices stand in a record from its fields.
//! What is request L4's own is counted in `wide_coverage` and `sheet_coverage`.

use std::collections::BTreeMap;
use std::fmt;

use crate::compare::CaseAnswer;
use crate::fields::{Fields, RulingFields, KIND_1, KIND_2, NONE};
use crate::mixture::PAIRS;
use crate::page::{self, Case, Mills, Side, Way};
use crate::sheet_coverage::Row;
use crate::stream::Seen;
use crate::wide_coverage::Wide;

/// Something that a case can reach.
#[derive(Clone, Copy, Debug, PartialEq, Eq, PartialOrd, Ord)]
enum Reached {
    /// The number given back to a case of so many bytes; 0 is ruled.
    Number {
        bytes: usize,
        number: u32,
    },
    /// The pair of length and kind in a case of so many bytes that is refused for it.
    Pair {
        bytes: usize,
        pair: (u16, u16),
    },
    Outcome(u8),
    Reason(u8),
    Way(&'static str),
    /// The origin of TP that is told with this reason to a case of this kind.
    Origin {
        kind: &'static str,
        reason: u8,
        origin: u8,
    },
    /// The origin that is told over these prices, where TP is asked for and where it is not, and no
    /// quotes are wide.
    Prices {
        kind: &'static str,
        asked: &'static str,
        side: &'static str,
        prices: Prices,
        origin: u8,
    },
    /// What gave a TP of zero.
    Zero(&'static str),
    /// How much of the trade an adjustment on the opening way covers.
    Cover(&'static str),
    /// Execution at the minimum of this band, or one mill short.
    Minimum {
        band_from: u32,
        column: &'static str,
        side: &'static str,
        place: &'static str,
    },
    /// What is kind 2's own.
    Wide(Wide),
    /// What is a sheet's own.
    Row(Row),
}

const KINDS: [&str; 2] = ["kind 1", "kind 2"];
const NUMBERS: [u32; 10] = [0, 2, 3, 4, 5, 6, 7, 8, 9, 11];
const WAYS: [&str; 4] = ["obvious", "opening", "catastrophic", "none open"];
const ASKED: [&str; 3] = ["TP asked for", "reason 2", "reason 3"];
const BESIDE: [&str; 3] = ["none", "at TP", "off TP"];
const ZEROS: [&str; 4] = [
    "a quote of size 0",
    "a quote with a size",
    "an official's price",
    "an official's price beside wide quotes",
];
const COVERS: [&str; 3] = ["every contract", "some", "no contract"];
const BANDS_FROM: [u32; 7] = [0, 2_000, 5_001, 10_001, 20_001, 50_001, 100_001];
const COLUMNS: [&str; 2] = ["obvious", "catastrophic"];
const SIDES: [&str; 2] = ["buy", "sell"];
const PLACES: [&str; 2] = ["at", "one short of"];

/// Reason 4 needs a Customer in error whose own limit TP violates. The execution keeps that limit
/// (test 8), and in an error it lies beyond TP towards that limit, so TP keeps it too: no accepted
/// case can be ruled with reason 4.
const OUT_OF_REACH: Reached = Reached::Reason(4);

/// The prices that stand in a record: the quote of the side in error, there or not; the official's
/// price and the other quote, each against the price that is TP, or would be if it were asked for.
#[derive(Clone, Copy, Debug, PartialEq, Eq, PartialOrd, Ord)]
struct Prices {
    quote: bool,
    official: &'static str,
    other: &'static str,
}

impl Prices {
    fn of(fields: &Fields) -> Prices {
        let (quote, _) = fields.own_quote();
        let (other, _) = fields.other_quote();
        let tp = if quote == NONE {
            fields.official
        } else {
            quote
        };
        let beside = |price: u32| match price {
            NONE => BESIDE[0],
            _ if price == tp => BESIDE[1],
            _ => BESIDE[2],
        };
        Prices {
            quote: quote != NONE,
            official: beside(fields.official),
            other: beside(other),
        }
    }

    fn all() -> Vec<Prices> {
        let mut all = Vec::new();
        for quote in [true, false] {
            for official in BESIDE {
                all.extend(BESIDE.map(|other| Prices {
                    quote,
                    official,
                    other,
                }));
            }
        }
        all.retain(|prices| prices.can_be());
        all
    }

    /// Without the quote the official's price is TP; without both there is no TP for the other quote
    /// to be at.
    fn can_be(&self) -> bool {
        let priced = self.quote || self.official != BESIDE[0];
        (self.quote || self.official != BESIDE[2]) && (priced || self.other != BESIDE[1])
    }

    /// "1 quote, 2 official, 0 none"; 0 wherever TP is not asked for.
    fn origin(&self, asked: &str) -> u8 {
        if asked != ASKED[0] {
            0
        } else if self.quote {
            1
        } else if self.official != BESIDE[0] {
            2
        } else {
            0
        }
    }
}

impl fmt::Display for Prices {
    fn fmt(&self, out: &mut fmt::Formatter) -> fmt::Result {
        let quote = if self.quote { "quote" } else { "no quote" };
        let Prices {
            official, other, ..
        } = self;
        write!(
            out,
            "{quote}, official's price {official}, other quote {other}"
        )
    }
}

impl Reached {
    /// All that a long run should reach, and what is out of reach; there is nothing else.
    fn all() -> Vec<Reached> {
        let mut all = Vec::new();
        for (bytes, right) in [(88, KIND_1), (92, KIND_2)] {
            all.extend(NUMBERS.map(|number| Reached::Number { bytes, number }));
            let wrong = PAIRS.into_iter().filter(|&pair| pair != right);
            all.extend(wrong.map(|pair| Reached::Pair { bytes, pair }));
        }
        all.extend((0..=3).map(Reached::Outcome));
        all.extend((1..=14).map(Reached::Reason));
        all.extend(WAYS.map(Reached::Way));
        for reason in (1..=14).filter(|&reason| Reached::Reason(reason) != OUT_OF_REACH) {
            let origins: &[u8] = match reason {
                2 | 3 | 14 => &[0],
                _ => &[1, 2],
            };
            for kind in KINDS {
                all.extend(origins.iter().map(|&origin| Reached::Origin {
                    kind,
                    reason,
                    origin,
                }));
            }
        }
        for kind in KINDS {
            for asked in ASKED {
                for side in SIDES {
                    all.extend(Prices::all().into_iter().map(|prices| Reached::Prices {
                        kind,
                        asked,
                        side,
                        prices,
                        origin: prices.origin(asked),
                    }));
                }
            }
        }
        all.extend(ZEROS.map(Reached::Zero));
        all.extend(COVERS.map(Reached::Cover));
        for band_from in BANDS_FROM {
            for column in COLUMNS {
                for side in SIDES {
                    all.extend(PLACES.map(|place| Reached::Minimum {
                        band_from,
                        column,
                        side,
                        place,
                    }));
                }
            }
        }
        all.extend(Wide::all(&WAYS, &SIDES).into_iter().map(Reached::Wide));
        all.extend(Row::all().into_iter().map(Reached::Row));
        all
    }
}

impl fmt::Display for Reached {
    fn fmt(&self, out: &mut fmt::Formatter) -> fmt::Result {
        match self {
            Reached::Number { bytes, number: 0 } => write!(out, "{bytes} bytes ruled"),
            Reached::Number { bytes, number } => write!(out, "{bytes} bytes refused {number}"),
            Reached::Pair { bytes, pair } => {
                write!(out, "{bytes} bytes refused 2: the pair {pair:?}")
            }
            Reached::Outcome(outcome) => write!(out, "outcome {outcome}"),
            Reached::Reason(reason) => write!(out, "reason {reason}"),
            Reached::Way(way) => write!(out, "way: {way}"),
            Reached::Origin {
                kind,
                reason,
                origin,
            } => write!(out, "{kind}: reason {reason} with origin {origin}"),
            Reached::Prices {
                kind,
                asked,
                side,
                prices,
                origin,
            } => write!(out, "{kind}, {asked}, {side}: {prices}: origin {origin}"),
            Reached::Zero(source) => write!(out, "TP of zero from {source}"),
            Reached::Cover(cover) => write!(out, "opening adjustment covers: {cover}"),
            Reached::Minimum {
                band_from,
                column,
                side,
                place,
            } => write!(
                out,
                "TP from {band_from} on: {side} {place} the {column} minimum"
            ),
            Reached::Wide(wide) => write!(out, "{wide}"),
            Reached::Row(row) => write!(out, "{row}"),
        }
    }
}

/// Cases and sheets counted by what they reach.
#[derive(Default)]
pub struct Coverage(BTreeMap<Reached, u64>);

impl Coverage {
    pub fn add(&mut self, seen: Seen) {
        match seen {
            Seen::Case { record, answer } => self.add_case(record, &answer),
            Seen::Sheet {
                sheet,
                out_len,
                refusal,
                answers,
            } => {
                for row in Row::of_sheet(sheet, out_len, refusal, answers) {
                    self.count(Reached::Row(row));
                }
            }
        }
    }

    fn add_case(&mut self, record: &[u8], answer: &CaseAnswer) {
        let fields = Fields::decode(record);
        let (bytes, number) = (record.len(), answer.number);
        self.count(Reached::Number { bytes, number });
        let pair = (fields.length, fields.kind);
        if number == 2 && PAIRS.contains(&pair) {
            self.count(Reached::Pair { bytes, pair });
        }
        if let Some(wide) = Wide::of_differential(&fields, number) {
            self.count(Reached::Wide(wide));
        }
        if let Some(answer) = answer.bytes {
            self.add_ruling(record, &fields, &RulingFields::of_answer(answer));
        }
    }

    fn add_ruling(&mut self, record: &[u8], fields: &Fields, ruling: &RulingFields) {
        self.count(Reached::Outcome(ruling.outcome));
        self.count(Reached::Reason(ruling.reason));
        self.count_origin(fields, ruling);
        let case = page::read_case(record).expect("a ruled case is accepted");
        let way = page::open_way(&case);
        let tp = page::theoretical_price(&case);
        self.count(Reached::Way(way_name(way)));
        if fields.differential.is_some() {
            let (way, side) = (way_name(way), side_name(fields));
            for wide in Wide::of_ruling(way, side, fields, &case, ruling) {
                self.count(Reached::Wide(wide));
            }
        }
        if way == Some(Way::Opening) && ruling.outcome == 1 {
            self.count(Reached::Cover(cover_name(ruling)));
        }
        if let (Some(way), Some(tp)) = (way, tp) {
            self.count_minimum(&case, way, tp.price());
        }
    }

    fn count_origin(&mut self, fields: &Fields, ruling: &RulingFields) {
        let &RulingFields { reason, origin, .. } = ruling;
        let kind = KINDS[usize::from(fields.differential.is_some())];
        self.count(Reached::Origin {
            kind,
            reason,
            origin,
        });
        if !fields.is_wide() {
            self.count(Reached::Prices {
                kind,
                asked: match reason {
                    2 => ASKED[1],
                    3 => ASKED[2],
                    _ => ASKED[0],
                },
                side: side_name(fields),
                prices: Prices::of(fields),
                origin,
            });
        }
        if ruling.tp == 0 {
            self.count(Reached::Zero(zero_name(fields)));
        }
    }

    fn count_minimum(&mut self, case: &Case, way: Way, tp: Mills) {
        let band = page::band(tp);
        let (column, minimum) = match way {
            Way::Obvious | Way::Opening => (COLUMNS[0], band.obvious_minimum),
            Way::Catastrophic => (COLUMNS[1], band.catastrophic),
        };
        let (side, distance) = match case.side_in_error {
            Side::Buy => (SIDES[0], case.execution.0.checked_sub(tp.0)),
            Side::Sell => (SIDES[1], tp.0.checked_sub(case.execution.0)),
        };
        let place = match distance {
            Some(mills) if mills == minimum.0 => PLACES[0],
            Some(mills) if mills + 1 == minimum.0 => PLACES[1],
            _ => return,
        };
        let above = BANDS_FROM.partition_point(|&from| from <= tp.0);
        self.count(Reached::Minimum {
            band_from: BANDS_FROM[above - 1],
            column,
            side,
            place,
        });
    }

    fn count(&mut self, reached: Reached) {
        *self.0.entry(reached).or_default() += 1;
    }

    fn of(&self, reached: Reached) -> u64 {
        self.0.get(&reached).copied().unwrap_or_default()
    }

    /// What should have been reached and was not, or the other way round.
    pub fn surprises(&self) -> Vec<String> {
        let all = Reached::all();
        let unexpected = self.0.keys().filter(|reached| !all.contains(reached));
        all.iter()
            .filter(|&&reached| (self.of(reached) > 0) == (reached == OUT_OF_REACH))
            .chain(unexpected)
            .map(|reached| reached.to_string())
            .collect()
    }
}

impl fmt::Display for Coverage {
    fn fmt(&self, out: &mut fmt::Formatter) -> fmt::Result {
        for reached in Reached::all() {
            writeln!(out, "{:>9}  {reached}", self.of(reached))?;
        }
        Ok(())
    }
}

fn way_name(way: Option<Way>) -> &'static str {
    match way {
        Some(Way::Obvious) => WAYS[0],
        Some(Way::Opening) => WAYS[1],
        Some(Way::Catastrophic) => WAYS[2],
        None => WAYS[3],
    }
}

fn side_name(fields: &Fields) -> &'static str {
    SIDES[usize::from(fields.side != 1)]
}

fn zero_name(fields: &Fields) -> &'static str {
    match fields.own_quote() {
        _ if fields.is_wide() => ZEROS[3],
        (NONE, _) => ZEROS[2],
        (_, 0) => ZEROS[0],
        _ => ZEROS[1],
    }
}

fn cover_name(ruling: &RulingFields) -> &'static str {
    match (ruling.adjusted, ruling.standing) {
        (_, 0) => COVERS[0],
        (0, _) => COVERS[2],
        _ => COVERS[1],
    }
}
