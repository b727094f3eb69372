//! What cases of kind 2 have reached (request L4): where bid and offer stood, what was ruled where they
//! were wide, and what would have been ruled by the side's quote alone.

use std::fmt;

use crate::fields::{Fields, RulingFields, NONE};
use crate::page::{self, Case, Form, Way};

/// Something that a case of kind 2 can reach.
#[derive(Clone, Copy, Debug, PartialEq, Eq, PartialOrd, Ord)]
pub enum Wide {
    /// Where the quotes stood, on each way and side, with an official's price and without.
    Spread {
        way: &'static str,
        side: &'static str,
        spread: &'static str,
        official: bool,
    },
    /// What was ruled over wide quotes.
    Ruled {
        side: &'static str,
        reason: u8,
        origin: u8,
    },
    /// The outcome that the side's quote would have given, and another one that was given.
    Instead { quote: u8, given: u8 },
    /// Where the official's price stood beside wide quotes.
    Official {
        side: &'static str,
        place: &'static str,
    },
    /// What an opening adjustment to an official's price covers.
    Cover(&'static str),
    /// The differential of a case that got this number.
    Differential { mills: u32, number: u32 },
}

const TWICE: &str = "twice the differential apart";
const MILL_MORE: &str = "a mill more than twice apart";
const MILL_LESS: &str = "a mill less than twice apart";
const FAR: &str = "further apart";
const ONCE: &str = "once the differential apart, or more";
const NEAR: &str = "less than the differential apart";
const LOCKED: &str = "locked";
const CROSSED: &str = "crossed";
const CROSSED_TWICE: &str = "crossed by twice the differential, or more";
const NO_BID: &str = "no bid";
const NO_OFFER: &str = "no offer";
const NO_QUOTE: &str = "neither bid nor offer";
const SPREADS: [&str; 12] = [
    TWICE,
    MILL_MORE,
    MILL_LESS,
    FAR,
    ONCE,
    NEAR,
    LOCKED,
    CROSSED,
    CROSSED_TWICE,
    NO_BID,
    NO_OFFER,
    NO_QUOTE,
];

const NOWHERE: &str = "none";
const AT_OWN: &str = "at the side's quote";
const AT_OTHER: &str = "at the other quote";
const BELOW: &str = "below the bid";
const BETWEEN: &str = "between them";
const ABOVE: &str = "above the offer";
const PLACES: [&str; 6] = [NOWHERE, AT_OWN, AT_OTHER, BELOW, BETWEEN, ABOVE];

const OWN_SMALLER: &str = "more than the side's quote";
const OWN_NOTHING: &str = "all, though the side's quote has no size";
const OTHER_SMALLER: &str = "more than the other quote";
const COVERS: [&str; 3] = [OWN_SMALLER, OWN_NOTHING, OTHER_SMALLER];

/// The first and the last differential, and the last of which twice is a distance that quotes can
/// have, each accepted; and what is none.
const ACCEPTED: [u32; 4] = [1, 4_999_999, 5_000_000, 9_999_999];
const REFUSED: [u32; 3] = [0, 10_000_000, NONE];

impl Wide {
    /// All that a long run should reach.
    pub fn all(ways: &[&'static str], sides: &[&'static str]) -> Vec<Wide> {
        let mut all = Vec::new();
        for &side in sides {
            for &way in ways {
                for spread in SPREADS {
                    all.extend([true, false].map(|official| Wide::Spread {
                        way,
                        side,
                        spread,
                        official,
                    }));
                }
            }
            all.extend((1..=14).filter(|&reason| reason != 4).map(|reason| {
                let origin = match reason {
                    2 | 3 | 14 => 0,
                    _ => 2,
                };
                Wide::Ruled {
                    side,
                    reason,
                    origin,
                }
            }));
            all.extend(PLACES.map(|place| Wide::Official { side, place }));
        }
        // A quote of the side is a price, so that no case would have waited by it.
        for quote in 0..=2 {
            let others = (0..=3).filter(|&given| given != quote);
            all.extend(others.map(|given| Wide::Instead { quote, given }));
        }
        all.extend(COVERS.map(Wide::Cover));
        all.extend(ACCEPTED.map(|mills| Wide::Differential { mills, number: 0 }));
        all.extend(REFUSED.map(|mills| Wide::Differential { mills, number: 5 }));
        all
    }

    /// What the differential of a case with that number reached.
    pub fn of_differential(fields: &Fields, number: u32) -> Option<Wide> {
        let mills = fields.differential?;
        let listed = match number {
            0 => ACCEPTED.contains(&mills),
            5 => REFUSED.contains(&mills),
            _ => false,
        };
        listed.then_some(Wide::Differential { mills, number })
    }

    /// What a ruled case of kind 2 reached, on that way and side.
    pub fn of_ruling(
        way: &'static str,
        side: &'static str,
        fields: &Fields,
        case: &Case,
        ruling: &RulingFields,
    ) -> Vec<Wide> {
        let spread = spread(fields);
        let mut reached = vec![Wide::Spread {
            way,
            side,
            spread,
            official: fields.official != NONE,
        }];
        if ![TWICE, MILL_MORE, FAR].contains(&spread) {
            return reached;
        }
        reached.push(Wide::Ruled {
            side,
            reason: ruling.reason,
            origin: ruling.origin,
        });
        reached.push(Wide::Official {
            side,
            place: place(fields),
        });
        let quote = by_the_sides_quote(case);
        if quote != ruling.outcome {
            reached.push(Wide::Instead {
                quote,
                given: ruling.outcome,
            });
        }
        if page::open_way(case) == Some(Way::Opening) && ruling.outcome == 1 {
            reached.extend(covers(fields, ruling).map(Wide::Cover));
        }
        reached
    }
}

fn spread(fields: &Fields) -> &'static str {
    match (fields.bid, fields.offer) {
        (NONE, NONE) => return NO_QUOTE,
        (NONE, _) => return NO_BID,
        (_, NONE) => return NO_OFFER,
        _ => {}
    }
    let once = i64::from(fields.differential.expect("a case of kind 2"));
    match fields.spread() - 2 * once {
        0 => TWICE,
        1 => MILL_MORE,
        -1 => MILL_LESS,
        2.. => FAR,
        _ => match fields.spread() {
            0 => LOCKED,
            apart if apart >= once => ONCE,
            apart if apart > 0 => NEAR,
            apart if apart <= -2 * once => CROSSED_TWICE,
            _ => CROSSED,
        },
    }
}

fn place(fields: &Fields) -> &'static str {
    let (own, _) = fields.own_quote();
    let (other, _) = fields.other_quote();
    match fields.official {
        NONE => NOWHERE,
        price if price == own => AT_OWN,
        price if price == other => AT_OTHER,
        price if price < fields.bid => BELOW,
        price if price > fields.offer => ABOVE,
        _ => BETWEEN,
    }
}

/// The outcome of the same facts in a case of kind 1.
fn by_the_sides_quote(case: &Case) -> u8 {
    let narrow = Case {
        form: Form::Kind1,
        ..*case
    };
    page::rule(&narrow).outcome as u8
}

fn covers(fields: &Fields, ruling: &RulingFields) -> impl Iterator<Item = &'static str> {
    let (_, own) = fields.own_quote();
    let (_, other) = fields.other_quote();
    let adjusted = ruling.adjusted;
    COVERS.into_iter().filter(move |&cover| match cover {
        OWN_SMALLER => (1..adjusted).contains(&own),
        OWN_NOTHING => own == 0 && adjusted > 0,
        _ => other < adjusted,
    })
}

impl fmt::Display for Wide {
    fn fmt(&self, out: &mut fmt::Formatter) -> fmt::Result {
        match self {
            Wide::Spread {
                way,
                side,
                spread,
                official,
            } => {
                let official = if *official { "with" } else { "without" };
                write!(
                    out,
                    "kind 2, {way}, {side}: {spread}, {official} an official's price"
                )
            }
            Wide::Ruled {
                side,
                reason,
                origin,
            } => write!(out, "wide, {side}: reason {reason} with origin {origin}"),
            Wide::Instead { quote, given } => {
                write!(out, "wide: outcome {given}, {quote} by the side's quote")
            }
            Wide::Official { side, place } => {
                write!(out, "wide, {side}: official's price {place}")
            }
            Wide::Cover(cover) => write!(out, "wide: opening adjustment covers {cover}"),
            Wide::Differential { mills, number: 0 } => write!(out, "ruled: differential {mills}"),
            Wide::Differential { mills, number } => {
                write!(out, "refused {number}: differential {mills}")
            }
        }
    }
}
