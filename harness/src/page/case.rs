//! What an accepted case record says.

use super::units::{Contracts, Mills, Seconds};

/// A side of the trade; "side in error: 1 buy, 2 sell", "recipient: 1 buyer, 2 seller".
#[derive(Clone, Copy, Debug, PartialEq, Eq)]
pub enum Side {
    Buy = 1,
    Sell = 2,
}

/// "1 Customer, 2 Market Maker, 3 other."
#[derive(Clone, Copy, Debug, PartialEq, Eq)]
pub enum Kind {
    Customer,
    MarketMaker,
    Other,
}

/// "Filing day: 0 trade date, 1 next trading day, 2 later."
#[derive(Clone, Copy, Debug, PartialEq, Eq)]
pub enum Day {
    Trade,
    Next,
    Later,
}

#[derive(Clone, Copy, Debug, PartialEq, Eq)]
pub struct Party {
    pub code: [u8; 4],
    pub limit: Option<Mills>,
    pub kind: Kind,
}

#[derive(Clone, Copy, Debug, PartialEq, Eq)]
pub struct Quote {
    pub price: Mills,
    pub size: Contracts,
}

/// What the parties agreed on.
#[derive(Clone, Copy, Debug, PartialEq, Eq)]
pub enum Terms {
    Price(Mills),
    Nullify,
}

/// An agreement, and how many seconds after notice it was made.
#[derive(Clone, Copy, Debug, PartialEq, Eq)]
pub struct Agreement {
    pub terms: Terms,
    pub after: Seconds,
}

/// What the record's kind says beside the facts that every kind has.
#[derive(Clone, Copy, Debug, PartialEq, Eq)]
pub enum Form {
    Kind1,
    /// Request L4 of document 02: "kind 1 with the permitted differential".
    Kind2 {
        differential: Mills,
    },
}

#[derive(Clone, Copy, Debug, PartialEq, Eq)]
pub struct Case {
    pub form: Form,
    pub trade: u32,
    pub execution: Mills,
    pub contracts: Contracts,
    pub executed_at: Seconds,
    pub bid: Option<Quote>,
    pub offer: Option<Quote>,
    pub official: Option<Mills>,
    pub side_in_error: Side,
    pub on_opening: bool,
    pub expiry_deadline: bool,
    pub panel_decided: bool,
    pub buyer: Party,
    pub seller: Party,
    pub filing_day: Day,
    pub filed_at: Seconds,
    pub agreement: Option<Agreement>,
    pub accepted_after: Option<Seconds>,
}

impl Side {
    pub fn opposite(self) -> Side {
        match self {
            Side::Buy => Side::Sell,
            Side::Sell => Side::Buy,
        }
    }
}

impl Party {
    pub fn is_customer(&self) -> bool {
        self.kind == Kind::Customer
    }
}

impl Case {
    pub fn party(&self, side: Side) -> &Party {
        match side {
            Side::Buy => &self.buyer,
            Side::Sell => &self.seller,
        }
    }

    pub fn party_in_error(&self) -> &Party {
        self.party(self.side_in_error)
    }

    pub fn other_party(&self) -> &Party {
        self.party(self.side_in_error.opposite())
    }

    pub fn has_customer(&self) -> bool {
        self.buyer.is_customer() || self.seller.is_customer()
    }
}

/// "A price violates a buyer's limit if above it, a seller's if below; none is never violated."
pub fn violates(price: Mills, role: Side, limit: Option<Mills>) -> bool {
    match (role, limit) {
        (_, None) => false,
        (Side::Buy, Some(limit)) => price > limit,
        (Side::Sell, Some(limit)) => price < limit,
    }
}
