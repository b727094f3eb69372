//! "The case record", and the tests 1 to 9 in their order.

use super::case::{violates, Agreement, Case, Day, Form, Kind, Party, Quote, Side, Terms};
use super::form::{Facts, Record};
use super::refusal::Refusal;
use super::units::{Contracts, Mills, Seconds};

pub const NONE: u32 = 4_294_967_295;
pub const HIGHEST_PRICE: u32 = 9_999_999;
pub const MOST_CONTRACTS: u32 = 1_000_000;
pub const LAST_SECOND: u32 = 86_399;
const LONGEST_WAIT: u32 = 86_400;

/// "Reading a case tests 1, then 2 to 9."
pub fn read_case(bytes: &[u8]) -> Result<Case, Refusal> {
    read_record(Record::of_length(bytes)?)
}

/// Tests 2 to 9.
pub fn read_record(record: Record) -> Result<Case, Refusal> {
    record.well_headed()?;
    read_facts(record)
}

/// Tests 3 to 9, all that can refuse a case of a walked sheet.
#[inline]
pub fn read_facts(record: Record) -> Result<Case, Refusal> {
    let facts = record.facts();
    let coded = Coded::read(facts).ok_or(Refusal::ZeroOrCodedByte)?;
    let buyer_code = member_code(facts, 48)?;
    let seller_code = member_code(facts, 56)?;
    let prices = Prices::read(record).ok_or(Refusal::Price)?;
    let sizes = Sizes::read(facts, &prices).ok_or(Refusal::ContractsOrSize)?;
    let times = Times::read(facts, coded.filing_day).ok_or(Refusal::Time)?;
    within_limits(&prices)?;
    let agreement = agreement(coded.agreement, prices.agreed, times.agreed_after)?;
    Ok(Case {
        form: prices.form,
        trade: u32_at(facts, 4),
        execution: prices.execution,
        contracts: sizes.contracts,
        executed_at: times.executed_at,
        bid: sizes.bid,
        offer: sizes.offer,
        official: prices.official,
        side_in_error: coded.side_in_error,
        on_opening: coded.on_opening,
        expiry_deadline: coded.expiry_deadline,
        panel_decided: coded.panel_decided,
        buyer: Party {
            code: buyer_code,
            limit: prices.buyer_limit,
            kind: coded.buyer_kind,
        },
        seller: Party {
            code: seller_code,
            limit: prices.seller_limit,
            kind: coded.seller_kind,
        },
        filing_day: coded.filing_day,
        filed_at: times.filed_at,
        agreement,
        accepted_after: times.accepted_after,
    })
}

/// Byte 67: "agreement: 0 none, 1 a price, 2 nullify".
#[derive(Clone, Copy)]
enum AgreementMark {
    None,
    Price,
    Nullify,
}

/// The coded bytes.
struct Coded {
    side_in_error: Side,
    on_opening: bool,
    expiry_deadline: bool,
    panel_decided: bool,
    buyer_kind: Kind,
    seller_kind: Kind,
    filing_day: Day,
    agreement: AgreementMark,
}

impl Coded {
    /// Test 3: "a zero byte isn't zero, or a coded byte is not in its list".
    fn read(facts: &Facts) -> Option<Coded> {
        if u32_at(facts, 36) != 0 || u32_at(facts, 84) != 0 {
            return None;
        }
        Some(Coded {
            side_in_error: side(facts[44])?,
            on_opening: flag(facts[45])?,
            expiry_deadline: flag(facts[46])?,
            panel_decided: flag(facts[47])?,
            buyer_kind: party_kind(facts[64])?,
            seller_kind: party_kind(facts[65])?,
            filing_day: day(facts[66])?,
            agreement: agreement_mark(facts[67])?,
        })
    }
}

fn side(byte: u8) -> Option<Side> {
    match byte {
        1 => Some(Side::Buy),
        2 => Some(Side::Sell),
        _ => None,
    }
}

fn flag(byte: u8) -> Option<bool> {
    match byte {
        0 => Some(false),
        1 => Some(true),
        _ => None,
    }
}

fn party_kind(byte: u8) -> Option<Kind> {
    match byte {
        1 => Some(Kind::Customer),
        2 => Some(Kind::MarketMaker),
        3 => Some(Kind::Other),
        _ => None,
    }
}

fn day(byte: u8) -> Option<Day> {
    match byte {
        0 => Some(Day::Trade),
        1 => Some(Day::Next),
        2 => Some(Day::Later),
        _ => None,
    }
}

fn agreement_mark(byte: u8) -> Option<AgreementMark> {
    match byte {
        0 => Some(AgreementMark::None),
        1 => Some(AgreementMark::Price),
        2 => Some(AgreementMark::Nullify),
        _ => None,
    }
}

/// Test 4: "Each byte of a member code is 'A' to 'Z' or '0' to '9'."
fn member_code(facts: &Facts, at: usize) -> Result<[u8; 4], Refusal> {
    let code = bytes_at(facts, at);
    if code
        .iter()
        .all(|byte| matches!(byte, b'A'..=b'Z' | b'0'..=b'9'))
    {
        Ok(code)
    } else {
        Err(Refusal::MemberCode)
    }
}

struct Prices {
    execution: Mills,
    bid: Option<Mills>,
    offer: Option<Mills>,
    official: Option<Mills>,
    buyer_limit: Option<Mills>,
    seller_limit: Option<Mills>,
    agreed: Option<Mills>,
    form: Form,
}

impl Prices {
    /// Test 5: "a price is above 9,999,999 and isn't a permitted none (at 68 none always passes)".
    /// Request L4: "5 covers the new field".
    fn read(record: Record) -> Option<Prices> {
        let facts = record.facts();
        Some(Prices {
            execution: price(u32_at(facts, 8))?,
            bid: price_or_none(u32_at(facts, 20))?,
            offer: price_or_none(u32_at(facts, 24))?,
            official: price_or_none(u32_at(facts, 40))?,
            buyer_limit: price_or_none(u32_at(facts, 52))?,
            seller_limit: price_or_none(u32_at(facts, 60))?,
            agreed: price_or_none(u32_at(facts, 68))?,
            form: form(record)?,
        })
    }
}

fn price(word: u32) -> Option<Mills> {
    (word <= HIGHEST_PRICE).then_some(Mills(word))
}

/// The outer `Option` is the test, the inner one the price or none.
fn price_or_none(word: u32) -> Option<Option<Mills>> {
    match word {
        NONE => Some(None),
        _ => price(word).map(Some),
    }
}

/// What comes after the facts.
fn form(record: Record) -> Option<Form> {
    match record {
        Record::Kind1(_) => Some(Form::Kind1),
        Record::Kind2(record) => {
            let differential = differential(u32_at(record, 88))?;
            Some(Form::Kind2 { differential })
        }
    }
}

/// "The permitted differential in mills at 88 (1 to 9,999,999)"; none is no differential.
fn differential(word: u32) -> Option<Mills> {
    matches!(word, 1..=HIGHEST_PRICE).then_some(Mills(word))
}

struct Sizes {
    contracts: Contracts,
    bid: Option<Quote>,
    offer: Option<Quote>,
}

impl Sizes {
    /// Test 6: "contracts or a size break their rule".
    fn read(facts: &Facts, prices: &Prices) -> Option<Sizes> {
        Some(Sizes {
            contracts: contracts(u32_at(facts, 12))?,
            bid: quote(prices.bid, u32_at(facts, 28))?,
            offer: quote(prices.offer, u32_at(facts, 32))?,
        })
    }
}

/// "Contracts, 1 to 1,000,000."
fn contracts(word: u32) -> Option<Contracts> {
    matches!(word, 1..=MOST_CONTRACTS).then_some(Contracts(word))
}

/// "A quote of none has size 0; a quote above zero has size at least 1; a quote of zero may have
/// either."
fn quote(price: Option<Mills>, size: u32) -> Option<Option<Quote>> {
    let Some(price) = price else {
        return (size == 0).then_some(None);
    };
    let least = if price > Mills(0) { 1 } else { 0 };
    (least..=MOST_CONTRACTS)
        .contains(&size)
        .then_some(Some(Quote {
            price,
            size: Contracts(size),
        }))
}

struct Times {
    executed_at: Seconds,
    filed_at: Seconds,
    agreed_after: Seconds,
    accepted_after: Option<Seconds>,
}

impl Times {
    /// Test 7: "a time or a count of seconds is out of range, or on day 0 the filing precedes the
    /// execution".
    fn read(facts: &Facts, filing_day: Day) -> Option<Times> {
        let times = Times {
            executed_at: time_of_day(u32_at(facts, 16))?,
            filed_at: time_of_day(u32_at(facts, 72))?,
            agreed_after: wait(u32_at(facts, 76))?,
            accepted_after: wait_or_none(u32_at(facts, 80))?,
        };
        let precedes = filing_day == Day::Trade && times.filed_at < times.executed_at;
        (!precedes).then_some(times)
    }
}

fn time_of_day(word: u32) -> Option<Seconds> {
    (word <= LAST_SECOND).then_some(Seconds(word))
}

/// Seconds after notice.
fn wait(word: u32) -> Option<Seconds> {
    (word <= LONGEST_WAIT).then_some(Seconds(word))
}

fn wait_or_none(word: u32) -> Option<Option<Seconds>> {
    match word {
        NONE => Some(None),
        _ => wait(word).map(Some),
    }
}

/// Test 8: "the execution price is above the buyer's limit or below the seller's".
fn within_limits(prices: &Prices) -> Result<(), Refusal> {
    if violates(prices.execution, Side::Buy, prices.buyer_limit)
        || violates(prices.execution, Side::Sell, prices.seller_limit)
    {
        Err(Refusal::Limit)
    } else {
        Ok(())
    }
}

/// Test 9: "the agreement fields contradict byte 67". The agreed price is "present exactly when
/// byte 67 is 1", the seconds are "0 if none was made".
fn agreement(
    mark: AgreementMark,
    agreed: Option<Mills>,
    after: Seconds,
) -> Result<Option<Agreement>, Refusal> {
    let terms = match (mark, agreed) {
        (AgreementMark::None, None) if after == Seconds(0) => return Ok(None),
        (AgreementMark::Price, Some(price)) => Terms::Price(price),
        (AgreementMark::Nullify, None) => Terms::Nullify,
        _ => return Err(Refusal::Agreement),
    };
    Ok(Some(Agreement { terms, after }))
}

fn bytes_at<const LEN: usize, const N: usize>(record: &[u8; LEN], at: usize) -> [u8; N] {
    *record[at..].first_chunk().expect("a field of the record")
}

pub fn u16_at<const LEN: usize>(record: &[u8; LEN], at: usize) -> u16 {
    u16::from_le_bytes(bytes_at(record, at))
}

pub fn u32_at<const LEN: usize>(record: &[u8; LEN], at: usize) -> u32 {
    u32::from_le_bytes(bytes_at(record, at))
}
