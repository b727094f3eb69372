//! "The steps of a ruling", joined.

use super::act::{act, agreed, covered, Act};
use super::bands::band;
use super::case::{Case, Quote, Side};
use super::units::{Contracts, Mills};
use super::way::{open_way, Way};
use super::width::is_wide;

/// The page's reasons, by their numbers.
#[derive(Clone, Copy, Debug, PartialEq, Eq)]
pub enum Reason {
    NoError = 1,
    Late = 2,
    PanelDecided = 3,
    CustomersLimit = 4,
    OthersLimit = 5,
    Obvious = 6,
    Opening = 7,
    Catastrophic = 8,
    CatastrophicAccepted = 9,
    AgreedPrice = 10,
    ObviousWithCustomer = 11,
    CatastrophicNotAccepted = 12,
    AgreedNullification = 13,
    NoPrice = 14,
}

/// The page's outcomes, by their numbers.
#[derive(Clone, Copy, Debug, PartialEq, Eq)]
pub enum Outcome {
    NoRelief = 0,
    Adjusted = 1,
    Nullified = 2,
    Waiting = 3,
}

#[derive(Clone, Copy, Debug, PartialEq, Eq)]
pub struct Ruling {
    pub outcome: Outcome,
    pub reason: Reason,
    pub tp: Option<TheoreticalPrice>,
    pub new_price: Option<Mills>,
    pub adjusted: Contracts,
    pub nullified: Contracts,
    pub standing: Contracts,
}

/// A theoretical price and what gave it: a quote, which also has a size, or an official.
#[derive(Clone, Copy, Debug, PartialEq, Eq)]
pub enum TheoreticalPrice {
    Quoted(Quote),
    Official(Mills),
}

/// Request L3 of document 02: the origin of TP, "1 quote, 2 official, 0 none".
#[derive(Clone, Copy, Debug, PartialEq, Eq)]
pub enum Origin {
    None = 0,
    Quote = 1,
    Official = 2,
}

impl TheoreticalPrice {
    pub fn price(self) -> Mills {
        match self {
            TheoreticalPrice::Quoted(quote) => quote.price,
            TheoreticalPrice::Official(price) => price,
        }
    }
}

impl Origin {
    /// Of a ruling's TP: where that is none there is no origin, whatever stands in the record.
    pub fn of(tp: Option<TheoreticalPrice>) -> Origin {
        match tp {
            None => Origin::None,
            Some(TheoreticalPrice::Quoted(_)) => Origin::Quote,
            Some(TheoreticalPrice::Official(_)) => Origin::Official,
        }
    }
}

impl Ruling {
    /// Every contract stands.
    fn stands(
        case: &Case,
        outcome: Outcome,
        reason: Reason,
        tp: Option<TheoreticalPrice>,
    ) -> Ruling {
        Ruling {
            outcome,
            reason,
            tp,
            new_price: None,
            adjusted: Contracts(0),
            nullified: Contracts(0),
            standing: case.contracts,
        }
    }
}

pub fn rule(case: &Case) -> Ruling {
    let Some(way) = open_way(case) else {
        return Ruling::stands(case, Outcome::NoRelief, Reason::Late, None);
    };
    if way == Way::Catastrophic && case.panel_decided {
        return Ruling::stands(case, Outcome::NoRelief, Reason::PanelDecided, None);
    }
    let Some(tp) = theoretical_price(case) else {
        return Ruling::stands(case, Outcome::Waiting, Reason::NoPrice, None);
    };
    match decide(case, way, tp.price()) {
        Act::Leave(reason) => Ruling::stands(case, Outcome::NoRelief, reason, Some(tp)),
        Act::Adjust(reason, price) => {
            let adjusted = covered(case, way, tp);
            Ruling {
                outcome: Outcome::Adjusted,
                reason,
                tp: Some(tp),
                new_price: Some(price),
                adjusted,
                nullified: Contracts(0),
                standing: case.contracts - adjusted,
            }
        }
        Act::Nullify(reason) => Ruling {
            outcome: Outcome::Nullified,
            reason,
            tp: Some(tp),
            new_price: None,
            adjusted: Contracts(0),
            nullified: case.contracts,
            standing: Contracts(0),
        },
    }
}

/// "Best offer for a buy, best bid for a sell; if that is none, the official's price." Request L3:
/// "The step that finds TP now answers its origin too." Request L4: where the quotes are wide, "TP is
/// the official's or the case waits".
pub fn theoretical_price(case: &Case) -> Option<TheoreticalPrice> {
    let quote = match case.side_in_error {
        Side::Buy => case.offer,
        Side::Sell => case.bid,
    };
    let quoted = quote.map(TheoreticalPrice::Quoted);
    let official = case.official.map(TheoreticalPrice::Official);
    if is_wide(case) {
        official
    } else {
        quoted.or(official)
    }
}

/// The error, then agreement, then the act.
fn decide(case: &Case, way: Way, tp: Mills) -> Act {
    if !in_error(case, way, tp) {
        return Act::Leave(Reason::NoError);
    }
    agreed(case, way).unwrap_or_else(|| act(case, way, tp))
}

/// "A buy is in error when execution is at least TP plus the minimum, a sell when execution plus
/// the minimum is at most TP."
fn in_error(case: &Case, way: Way, tp: Mills) -> bool {
    let minimum = minimum(way, tp);
    match case.side_in_error {
        Side::Buy => case.execution >= tp + minimum,
        Side::Sell => case.execution + minimum <= tp,
    }
}

/// "The opening way uses the obvious column."
fn minimum(way: Way, tp: Mills) -> Mills {
    match way {
        Way::Obvious | Way::Opening => band(tp).obvious_minimum,
        Way::Catastrophic => band(tp).catastrophic,
    }
}
