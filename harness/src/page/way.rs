//! "First the way. The first one open by time decides, and no other is tried."

use super::case::{Case, Day, Kind};
use super::units::Seconds;

#[derive(Clone, Copy, Debug, PartialEq, Eq)]
pub enum Way {
    Obvious,
    Opening,
    Catastrophic,
}

const MARKET_MAKERS_TIME: Seconds = Seconds(300);
const OTHERS_TIME: Seconds = Seconds(1_200);
/// 16:30:00.
const OPENING_CLOSES: Seconds = Seconds(59_400);
/// 17:00:00.
const EXPIRY_CLOSES: Seconds = Seconds(61_200);
/// 8:30:00.
const NEXT_DAY_CLOSES: Seconds = Seconds(30_600);

pub fn open_way(case: &Case) -> Option<Way> {
    if obvious_open(case) {
        Some(Way::Obvious)
    } else if opening_open(case) {
        Some(Way::Opening)
    } else if catastrophic_open(case) {
        Some(Way::Catastrophic)
    } else {
        None
    }
}

/// "Day 0, and at most 300 s since execution if the party in error is a Market Maker, at most 1,200
/// s otherwise."
fn obvious_open(case: &Case) -> bool {
    let time = match case.party_in_error().kind {
        Kind::MarketMaker => MARKET_MAKERS_TIME,
        Kind::Customer | Kind::Other => OTHERS_TIME,
    };
    since_execution(case).is_some_and(|since| since <= time)
}

/// "Day 0, opening trade, party in error a Customer, more than 1,200 s since execution, filed by
/// 16:30:00."
fn opening_open(case: &Case) -> bool {
    case.on_opening
        && case.party_in_error().is_customer()
        && since_execution(case).is_some_and(|since| since > OTHERS_TIME)
        && case.filed_at <= OPENING_CLOSES
}

/// "If byte 46 is 1, day 0 by 17:00:00; otherwise day 0, or day 1 by 8:30:00."
fn catastrophic_open(case: &Case) -> bool {
    match case.filing_day {
        Day::Trade => !case.expiry_deadline || case.filed_at <= EXPIRY_CLOSES,
        Day::Next => !case.expiry_deadline && case.filed_at <= NEXT_DAY_CLOSES,
        Day::Later => false,
    }
}

/// The seconds from execution to filing, on the trade date.
fn since_execution(case: &Case) -> Option<Seconds> {
    (case.filing_day == Day::Trade).then(|| case.filed_at - case.executed_at)
}
