//! R17.12 and R17.13: prices that read high byte first would be nearer to the execution.

use super::form::Record;
use super::reading::HIGHEST_PRICE;
use super::sheet::Sheet;
use super::shown::{dollars, Shown};

/// R17.12: the fields that are looked at, "in that order".
const FIELDS: [(&str, usize); 5] = [
    ("the bid", 20),
    ("the offer", 24),
    ("the official's price", 40),
    ("the buyer's limit", 52),
    ("the seller's limit", 60),
];

/// R17.12: the lines at the end of a case, none for most.
pub fn careful_lines(shown: Shown) -> String {
    let mut text = String::new();
    for (name, at) in FIELDS {
        if let Some(turned) = nearer_when_turned(shown.word(at), shown.word(8)) {
            text += &format!(
                "  careful    {name} {} read high byte first is {}, nearer the execution {}\n",
                shown.price(at),
                dollars(turned),
                shown.price(8),
            );
        }
    }
    text
}

/// R17.12: the price read high byte first, where that is "also a price (both at most 9,999,999, and the
/// execution price too) and one nearer to the execution price than the price as it stands".
fn nearer_when_turned(price: u32, execution: u32) -> Option<u32> {
    let turned = price.swap_bytes();
    let prices = [price, turned, execution]
        .iter()
        .all(|&p| p <= HIGHEST_PRICE);
    let nearer = turned.abs_diff(execution) < price.abs_diff(execution);
    (prices && nearer).then_some(turned)
}

/// R17.13: "for each case that has one `#` joined to its index, a space, `trade 12`, and under it those
/// lines". A sheet that is refused whole has no case.
pub fn careful_sheet(sheet: &[u8]) -> Vec<u8> {
    let Ok(sheet) = Sheet::walked(sheet) else {
        return Vec::new();
    };
    let cases = sheet.records().enumerate().map(careful_case);
    cases.collect::<String>().into_bytes()
}

fn careful_case((index, record): (usize, Record)) -> String {
    let shown = Shown::new(record);
    let lines = careful_lines(shown);
    if lines.is_empty() {
        return lines;
    }
    format!("#{index} trade {}\n{lines}", shown.trade())
}
