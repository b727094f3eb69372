//! "What goes out": the records of a ruled case and of a sheet, written straight into the answer
//! buffer.

use super::case::{Case, Party, Side};
use super::form::Record;
use super::reading::{read_facts, read_record};
use super::refusal::Refusal;
use super::ruling::{rule, Origin, Outcome, Ruling, TheoreticalPrice};
use super::sheet::Sheet;
use super::units::Mills;

const PART_BYTES: usize = 32;
const ANSWER_BYTES: usize = 3 * PART_BYTES;
const REFUSED_BYTES: usize = 12;

const RULING_KIND: u16 = 16;
const NOTICE_KIND: u16 = 17;
const REFUSED_KIND: u16 = 18;

const NONE: u32 = 4_294_967_295;

/// What a sheet "returns: bytes written, ruled, refused".
#[derive(Clone, Copy, Debug, Default, PartialEq, Eq)]
pub struct Counts {
    pub written: usize,
    pub ruled: usize,
    pub refused: usize,
}

/// Tests 1, 11, then 2 to 9: the table's order.
pub fn rule_case(case: &[u8], out: &mut [u8]) -> Result<(), Refusal> {
    let record = Record::of_length(case)?;
    let answer = out.first_chunk_mut().ok_or(Refusal::AnswerBuffer)?;
    let case = read_record(record)?;
    write_answer(&case, answer);
    Ok(())
}

/// A sheet tests 10, then 11, then each case 3 to 9: "refusal records in a sheet carry 3 to 9 only". It
/// "writes 96 bytes per ruled case, 12 per refused one".
pub fn rule_sheet(sheet: &[u8], out: &mut [u8]) -> Result<Counts, Refusal> {
    let sheet = Sheet::walked(sheet)?;
    if out.len() < sheet.cases * ANSWER_BYTES {
        return Err(Refusal::AnswerBuffer);
    }
    let mut counts = Counts::default();
    for (index, record) in sheet.records().enumerate() {
        let room = &mut out[counts.written..];
        match read_facts(record) {
            Ok(case) => {
                write_answer(&case, place(room));
                counts.written += ANSWER_BYTES;
                counts.ruled += 1;
            }
            Err(refusal) => {
                write_refused(index, refusal, place(room));
                counts.written += REFUSED_BYTES;
                counts.refused += 1;
            }
        }
    }
    Ok(counts)
}

/// Where the next record goes.
fn place<const N: usize>(room: &mut [u8]) -> &mut [u8; N] {
    room.first_chunk_mut()
        .expect("test 11 asked for the room of every answer")
}

/// The ruling, "then the buyer's and the seller's notice".
fn write_answer(case: &Case, out: &mut [u8; ANSWER_BYTES]) {
    let ruling = rule(case);
    let (parts, _) = out.as_chunks_mut();
    write_ruling(case, &ruling, &mut parts[0]);
    write_notice(case, &ruling, Side::Buy, &mut parts[1]);
    write_notice(case, &ruling, Side::Sell, &mut parts[2]);
}

/// Request L3 of document 02: "Byte 10 of the ruling carries" the origin; 11 stays zero.
fn write_ruling(case: &Case, ruling: &Ruling, out: &mut [u8; PART_BYTES]) {
    write_head(RULING_KIND, case, ruling, out);
    put(out, 10, [Origin::of(ruling.tp) as u8, 0]);
    put(
        out,
        12,
        price_or_none(ruling.tp.map(TheoreticalPrice::price)),
    );
    put(out, 16, price_or_none(ruling.new_price));
    put(out, 20, ruling.adjusted.0.to_le_bytes());
    put(out, 24, ruling.nullified.0.to_le_bytes());
    put(out, 28, ruling.standing.0.to_le_bytes());
}

/// Request L3: "Notices ... stay", so that 10 is the recipient and the origin is not told.
fn write_notice(case: &Case, ruling: &Ruling, recipient: Side, out: &mut [u8; PART_BYTES]) {
    write_head(NOTICE_KIND, case, ruling, out);
    put(out, 10, [recipient as u8, 0]);
    put(out, 12, price_or_none(ruling.new_price));
    put(out, 16, ruling.adjusted.0.to_le_bytes());
    put(out, 20, ruling.nullified.0.to_le_bytes());
    put(
        out,
        24,
        shown_code(ruling, case.party(recipient.opposite())),
    );
    put(out, 28, case.party(recipient).code);
}

/// What the ruling and the notices begin with: "length, kind, trade number; at 8 outcome; 9
/// reason".
fn write_head(kind: u16, case: &Case, ruling: &Ruling, out: &mut [u8; PART_BYTES]) {
    put(out, 0, (PART_BYTES as u16).to_le_bytes());
    put(out, 2, kind.to_le_bytes());
    put(out, 4, case.trade.to_le_bytes());
    put(out, 8, [ruling.outcome as u8, ruling.reason as u8]);
}

/// "The other party's code if outcome is 1 or 2, else zeros."
fn shown_code(ruling: &Ruling, other: &Party) -> [u8; 4] {
    match ruling.outcome {
        Outcome::Adjusted | Outcome::Nullified => other.code,
        Outcome::NoRelief | Outcome::Waiting => [0; 4],
    }
}

/// "Length 12, kind 18, index from 0 (4 bytes), number (2), two zeros."
fn write_refused(index: usize, refusal: Refusal, out: &mut [u8; REFUSED_BYTES]) {
    put(out, 0, (REFUSED_BYTES as u16).to_le_bytes());
    put(out, 2, REFUSED_KIND.to_le_bytes());
    put(out, 4, (index as u32).to_le_bytes());
    put(out, 8, refusal.number().to_le_bytes());
    put(out, 10, [0, 0]);
}

fn price_or_none(price: Option<Mills>) -> [u8; 4] {
    price.map_or(NONE, |mills| mills.0).to_le_bytes()
}

fn put<const N: usize>(out: &mut [u8], at: usize, bytes: [u8; N]) {
    out[at..at + N].copy_from_slice(&bytes);
}
