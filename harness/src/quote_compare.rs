//! One call with a list of quotes on two desks: the same answer in every field, and the same bytes
//! in the case and around it; and the documents' own word on what an answer can be and on what a
//! call leaves untouched.

use std::fmt::Write;
use std::ops::Range;

use crate::compare::{hex, same, same_bytes, Difference};
use crate::desk::DeskBest;
use crate::desks::QuoteDesk;
use crate::fields::{Fields, QuoteFields, NONE};

/// The bytes that filling writes.
pub const FILLED: Range<usize> = 20..36;

/// Bytes before and after the lent case that no desk may touch.
const AROUND: usize = 40;

/// The two desks.
pub struct QuoteComparison<'a> {
    left: &'a dyn QuoteDesk,
    right: &'a dyn QuoteDesk,
}

/// What filling a case gave, on both desks.
pub struct FillAnswer {
    pub number: u32,
    /// The case after the call.
    pub case: Vec<u8>,
}

impl<'a> QuoteComparison<'a> {
    pub fn new(left: &'a dyn QuoteDesk, right: &'a dyn QuoteDesk) -> QuoteComparison<'a> {
        QuoteComparison { left, right }
    }

    /// Looking up the best bid and offer, with that number of quotes before the trade.
    pub fn best_quotes(
        &self,
        quotes: &[u8],
        trade_time: u32,
        before: u64,
    ) -> Result<DeskBest, Difference> {
        let left = self.left.best_quotes(quotes, trade_time, before);
        let right = self.right.best_quotes(quotes, trade_time, before);
        same("answers", left, right)
            .and_then(|best| possible(best, before))
            .map_err(|what| {
                let list = shown_list(quotes);
                let input = format!("trade time {trade_time}, {before} before it\n{list}");
                self.report("best_quotes", &what, &input)
            })
    }

    /// Telling the number of quotes before a trade.
    pub fn quotes_before(&self, quotes: &[u8], trade_time: u32) -> Result<u64, Difference> {
        let left = self.left.quotes_before(quotes, trade_time);
        let right = self.right.quotes_before(quotes, trade_time);
        same("numbers", left, right).map_err(|what| {
            let input = format!("trade time {trade_time}\n{}", shown_list(quotes));
            self.report("quotes_before", &what, &input)
        })
    }

    /// Filling a case.
    pub fn fill_case(&self, quotes: &[u8], case: &[u8]) -> Result<FillAnswer, Difference> {
        let (left_number, left) = fill(self.left, quotes, case);
        let (right_number, right) = fill(self.right, quotes, case);
        same("numbers", left_number, right_number)
            .and_then(|_| same_bytes("the cases", &left, &right))
            .and_then(|()| kept(left_number, case, &left))
            .map_err(|what| {
                let input = format!("{}{}", shown_case(case), shown_list(quotes));
                self.report("fill_case", &what, &input)
            })?;
        Ok(FillAnswer {
            number: left_number,
            case: left[AROUND..AROUND + case.len()].to_vec(),
        })
    }

    fn report(&self, call: &str, what: &str, input: &str) -> Difference {
        Difference(format!(
            "{} and {} differ in {call}: {what}\n{input}",
            self.left.name(),
            self.right.name()
        ))
    }
}

/// Prices are prices or none; none has size 0, and a price above zero a size; all quotes before the
/// trade are examined, or enough of them for sixteen exchanges; a refusal gives none and counts none.
fn possible(best: DeskBest, before: u64) -> Result<DeskBest, String> {
    let sides = [(best.bid, best.bid_size), (best.offer, best.offer_size)];
    let possible = sides.iter().all(|&(price, size)| {
        let none = price == u64::from(NONE) && size == 0;
        let quoted = price <= 9_999_999 && size <= 1_000_000 && (size > 0 || price == 0);
        none || (quoted && best.refusal == 0)
    });
    let counted = match best.refusal {
        0 => best.examined == before || (16..before).contains(&best.examined),
        _ => best.examined == 0,
    };
    if possible && counted {
        Ok(best)
    } else {
        Err(format!("no desk may answer {best:?}"))
    }
}

/// The number, and the case after the call among the bytes around it.
fn fill(desk: &dyn QuoteDesk, quotes: &[u8], case: &[u8]) -> (u32, Vec<u8>) {
    let mut lent = surrounded(case);
    let number = desk.fill_case(quotes, &mut lent[AROUND..AROUND + case.len()]);
    (number, lent)
}

fn surrounded(case: &[u8]) -> Vec<u8> {
    [&[0xa5; AROUND], case, &[0x5a; AROUND]].concat()
}

/// As before: all of it where the call was refused, else all but the bytes that are filled.
fn kept(number: u32, case: &[u8], after: &[u8]) -> Result<(), String> {
    let mut expected = surrounded(case);
    if number == 0 {
        let filled = FILLED.start + AROUND..FILLED.end + AROUND;
        expected[filled.clone()].copy_from_slice(&after[filled]);
    }
    same_bytes("what must stay and the case", &expected, after)
}

/// A difference shows this many quotes of a list; the seed gives the rest.
const QUOTES_SHOWN: usize = 40;

fn shown_list(quotes: &[u8]) -> String {
    let mut text = format!("list of {} bytes\n", quotes.len());
    let (records, rest) = quotes.as_chunks();
    for (index, record) in records.iter().take(QUOTES_SHOWN).enumerate() {
        let quote = QuoteFields::decode(record);
        let _ = writeln!(text, "quote {index}: {}\n  {quote:?}", hex(record));
    }
    if records.len() > QUOTES_SHOWN {
        let _ = writeln!(text, "and {} quotes more", records.len() - QUOTES_SHOWN);
    }
    if !rest.is_empty() {
        let _ = writeln!(text, "rest: {}", hex(rest));
    }
    text
}

fn shown_case(case: &[u8]) -> String {
    let mut text = format!("case of {} bytes: {}\n", case.len(), hex(case));
    if let 88 | 92 = case.len() {
        let _ = write!(text, "{}", Fields::decode(case));
    }
    text
}
