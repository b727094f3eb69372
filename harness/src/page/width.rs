//! Request L4 of document 02: "A quote too wide to trust."

use super::case::{Case, Form};

/// "If both quotes are present and offer minus bid is at least twice" the differential; "a crossed
/// market is not wide". Kind 1 has no differential and "is still ruled the old way". The sum of three
/// prices has room in a price's word.
pub fn is_wide(case: &Case) -> bool {
    let Form::Kind2 { differential } = case.form else {
        return false;
    };
    match (case.bid, case.offer) {
        (Some(bid), Some(offer)) => offer.price >= bid.price + differential + differential,
        _ => false,
    }
}
