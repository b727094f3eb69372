//! Writing a case record of either form. The library lends no such function, so that this is held to
//! the page by the tests of the harness alone.

use super::case::{Agreement, Case, Day, Form, Kind, Party, Quote, Terms};
use super::form::{Record, CASE_BYTES, WIDE_CASE_BYTES};
use super::reading::{read_facts, NONE};
use super::refusal::Refusal;
use super::units::{Mills, Seconds};

/// "Writing a case tests 11, then 3 to 9 on the facts that it is given"; 11 "asks room for the kind's
/// length". Gives the bytes that were written.
pub fn write_case(case: &Case, out: &mut [u8]) -> Result<usize, Refusal> {
    let written = match case.form {
        Form::Kind1 => {
            let place = out.first_chunk_mut().ok_or(Refusal::AnswerBuffer)?;
            let record = encoded::<CASE_BYTES>(case, 1);
            read_facts(Record::Kind1(&record))?;
            *place = record;
            CASE_BYTES
        }
        Form::Kind2 { differential } => {
            let place = out.first_chunk_mut().ok_or(Refusal::AnswerBuffer)?;
            let mut record = encoded::<WIDE_CASE_BYTES>(case, 2);
            put(&mut record, 88, differential.0.to_le_bytes());
            read_facts(Record::Kind2(&record))?;
            *place = record;
            WIDE_CASE_BYTES
        }
    };
    Ok(written)
}

/// The head and the facts; the zeros, and what comes after the facts, are left at zero.
fn encoded<const LEN: usize>(case: &Case, kind: u16) -> [u8; LEN] {
    let mut record = [0; LEN];
    let out = &mut record;
    put(out, 0, (LEN as u16).to_le_bytes());
    put(out, 2, kind.to_le_bytes());
    put(out, 4, case.trade.to_le_bytes());
    put(out, 8, case.execution.0.to_le_bytes());
    put(out, 12, case.contracts.0.to_le_bytes());
    put(out, 16, case.executed_at.0.to_le_bytes());
    put(out, 20, price_of(case.bid));
    put(out, 24, price_of(case.offer));
    put(out, 28, size_of(case.bid));
    put(out, 32, size_of(case.offer));
    put(out, 40, or_none(case.official.map(|price| price.0)));
    put(
        out,
        44,
        [
            case.side_in_error as u8,
            u8::from(case.on_opening),
            u8::from(case.expiry_deadline),
            u8::from(case.panel_decided),
        ],
    );
    put_party(out, 48, &case.buyer);
    put_party(out, 56, &case.seller);
    let (agreement, agreed, after) = agreement_fields(case.agreement);
    put(
        out,
        64,
        [
            kind_of(&case.buyer),
            kind_of(&case.seller),
            day(case.filing_day),
            agreement,
        ],
    );
    put(out, 68, or_none(agreed.map(|price| price.0)));
    put(out, 72, case.filed_at.0.to_le_bytes());
    put(out, 76, after.0.to_le_bytes());
    put(out, 80, or_none(case.accepted_after.map(|after| after.0)));
    record
}

fn put_party(out: &mut [u8], at: usize, party: &Party) {
    put(out, at, party.code);
    put(out, at + 4, or_none(party.limit.map(|price| price.0)));
}

fn kind_of(party: &Party) -> u8 {
    match party.kind {
        Kind::Customer => 1,
        Kind::MarketMaker => 2,
        Kind::Other => 3,
    }
}

fn day(day: Day) -> u8 {
    match day {
        Day::Trade => 0,
        Day::Next => 1,
        Day::Later => 2,
    }
}

/// Byte 67, the agreed price, and the seconds after notice.
fn agreement_fields(agreement: Option<Agreement>) -> (u8, Option<Mills>, Seconds) {
    match agreement {
        None => (0, None, Seconds(0)),
        Some(Agreement { terms, after }) => match terms {
            Terms::Price(price) => (1, Some(price), after),
            Terms::Nullify => (2, None, after),
        },
    }
}

fn price_of(quote: Option<Quote>) -> [u8; 4] {
    or_none(quote.map(|quote| quote.price.0))
}

fn size_of(quote: Option<Quote>) -> [u8; 4] {
    quote.map_or(0, |quote| quote.size.0).to_le_bytes()
}

/// A number that is there is never written as none, whatever it is: the mark itself is out of every
/// range, and so is the number below it.
fn or_none(number: Option<u32>) -> [u8; 4] {
    number
        .map_or(NONE, |number| number.min(NONE - 1))
        .to_le_bytes()
}

fn put<const N: usize>(out: &mut [u8], at: usize, bytes: [u8; N]) {
    out[at..at + N].copy_from_slice(&bytes);
}
