//! "Numbers given back instead of a ruling", and those of requests L1 and L8 for a list of quotes.
//! Request L4 has no number of its own: it says what 1, 2, 5, 10 and 11 cover.

#[derive(Clone, Copy, Debug, PartialEq, Eq)]
pub enum Refusal {
    CaseLength = 1,
    LengthOrKind = 2,
    ZeroOrCodedByte = 3,
    MemberCode = 4,
    Price = 5,
    ContractsOrSize = 6,
    Time = 7,
    Limit = 8,
    Agreement = 9,
    SheetLength = 10,
    AnswerBuffer = 11,
    QuotesLength = 20,
    QuoteField = 21,
    QuoteOrder = 22,
    TradeTime = 23,
    QuotesBefore = 28,
}

impl Refusal {
    pub fn number(self) -> u16 {
        self as u16
    }
}
