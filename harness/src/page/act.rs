//! "Then agreement", "then the act" and "contracts": what happens to a trade that is in error.

use super::bands::band;
use super::case::{violates, Case, Kind, Side, Terms};
use super::ruling::{Reason, TheoreticalPrice};
use super::units::{Contracts, Mills, Seconds};
use super::way::Way;

/// What is done, and why.
#[derive(Clone, Copy)]
pub enum Act {
    Leave(Reason),
    Adjust(Reason, Mills),
    Nullify(Reason),
}

const TIME_TO_AGREE: Seconds = Seconds(600);
const TIME_TO_AGREE_WITH_CUSTOMER: Seconds = Seconds(1_800);
const TIME_TO_ACCEPT: Seconds = Seconds(1_800);

/// "Then agreement." None where there is no agreement or it is ignored.
pub fn agreed(case: &Case, way: Way) -> Option<Act> {
    let agreement = case.agreement?;
    if agreement.after > time_to_agree(case) {
        return None;
    }
    match agreement.terms {
        Terms::Price(price) => Some(Act::Adjust(Reason::AgreedPrice, price)),
        Terms::Nullify if !case.has_customer() || way == Way::Opening => {
            Some(Act::Nullify(Reason::AgreedNullification))
        }
        Terms::Nullify => None,
    }
}

/// "At most 600 s where no party is a Customer, at most 1,800 s otherwise."
fn time_to_agree(case: &Case) -> Seconds {
    if case.has_customer() {
        TIME_TO_AGREE_WITH_CUSTOMER
    } else {
        TIME_TO_AGREE
    }
}

/// "Then the act."
pub fn act(case: &Case, way: Way, tp: Mills) -> Act {
    match way {
        Way::Obvious => obvious(case, tp),
        Way::Opening => opening(case, tp),
        Way::Catastrophic => catastrophic(case, tp),
    }
}

/// "No Customer: adjusted, reason 6 ... With a Customer: nullified, reason 11."
fn obvious(case: &Case, tp: Mills) -> Act {
    if case.has_customer() {
        Act::Nullify(Reason::ObviousWithCustomer)
    } else {
        let price = against_the_party_in_error(case, tp, obvious_adjustment(tp));
        Act::Adjust(Reason::Obvious, price)
    }
}

/// ".15 if TP is below $3, .30 otherwise."
fn obvious_adjustment(tp: Mills) -> Mills {
    if tp < Mills(3_000) {
        Mills(150)
    } else {
        Mills(300)
    }
}

/// "Adjusted to TP, reason 7. But if the other party is a Market Maker and TP violates the
/// Customer's limit: no relief, reason 4. If the other is no Market Maker and TP violates the
/// other's limit: no relief, reason 5."
fn opening(case: &Case, tp: Mills) -> Act {
    let (tested, reason) = match case.other_party().kind {
        Kind::MarketMaker => (case.side_in_error, Reason::CustomersLimit),
        Kind::Customer | Kind::Other => (case.side_in_error.opposite(), Reason::OthersLimit),
    };
    if violates(tp, tested, case.party(tested).limit) {
        Act::Leave(reason)
    } else {
        Act::Adjust(Reason::Opening, tp)
    }
}

/// "The price is TP plus or minus the adjustment. If it violates the limit of no party who is a
/// Customer: adjusted, reason 8. If it does: adjusted, reason 9, when accepted within 1,800 s;
/// otherwise nullified, reason 12."
fn catastrophic(case: &Case, tp: Mills) -> Act {
    let price = against_the_party_in_error(case, tp, band(tp).catastrophic);
    if !violates_a_customer(case, price) {
        Act::Adjust(Reason::Catastrophic, price)
    } else if accepted(case) {
        Act::Adjust(Reason::CatastrophicAccepted, price)
    } else {
        Act::Nullify(Reason::CatastrophicNotAccepted)
    }
}

fn violates_a_customer(case: &Case, price: Mills) -> bool {
    [Side::Buy, Side::Sell].into_iter().any(|side| {
        let party = case.party(side);
        party.is_customer() && violates(price, side, party.limit)
    })
}

fn accepted(case: &Case) -> bool {
    case.accepted_after
        .is_some_and(|after| after <= TIME_TO_ACCEPT)
}

/// "TP plus (buy) or minus (sell)" the adjustment.
fn against_the_party_in_error(case: &Case, tp: Mills, adjustment: Mills) -> Mills {
    match case.side_in_error {
        Side::Buy => tp + adjustment,
        Side::Sell => tp - adjustment,
    }
}

/// "On the opening way an adjustment, agreed or not, covers at most the size of the quote that gave
/// TP; ... where an official gave TP there is no such limit. All other adjustments ... cover every
/// contract."
pub fn covered(case: &Case, way: Way, tp: TheoreticalPrice) -> Contracts {
    match (way, tp) {
        (Way::Opening, TheoreticalPrice::Quoted(quote)) => quote.size.min(case.contracts),
        _ => case.contracts,
    }
}
