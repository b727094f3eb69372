//! "The printer": a sheet's rulings as lines of text.

use std::fmt::Write;

use super::case::Case;
use super::reading::read_facts;
use super::ruling::{rule, Origin, Outcome, Ruling, TheoreticalPrice};
use super::sheet::Sheet;
use super::units::Mills;

const HEADER: &str = "TRADE OUTCOME REASON TP NEW ADJ NUL OLD FROM\n";

pub fn print_sheet(sheet: &[u8]) -> String {
    match Sheet::walked(sheet) {
        // "A sheet refused whole prints only `SHEET REFUSED n`."
        Err(refusal) => format!("SHEET REFUSED {}\n", refusal.number()),
        Ok(sheet) => {
            let mut text = String::from(HEADER);
            let mut ruled = 0;
            let mut refused = 0;
            for (index, record) in sheet.records().enumerate() {
                match read_facts(record) {
                    Ok(case) => {
                        print_ruling(&case, &rule(&case), &mut text);
                        ruled += 1;
                    }
                    Err(refusal) => {
                        // "Refused: `#` joined to the index, the word REFUSED, the number."
                        line(
                            &mut text,
                            format_args!("#{index} REFUSED {}", refusal.number()),
                        );
                        refused += 1;
                    }
                }
            }
            // "END gives cases ruled and refused."
            line(&mut text, format_args!("END {ruled} {refused}"));
            text
        }
    }
}

/// "Trade, one of the words NONE, ADJUST, NULLIFY, WAIT, reason, TP, new price, contracts adjusted,
/// nullified, standing." Request L3 of document 02: "the printer adds" the origin "as a last field
/// headed FROM".
fn print_ruling(case: &Case, ruling: &Ruling, text: &mut String) {
    line(
        text,
        format_args!(
            "{} {} {} {} {} {} {} {} {}",
            case.trade,
            word(ruling.outcome),
            ruling.reason as u8,
            mills_or_dash(ruling.tp.map(TheoreticalPrice::price)),
            mills_or_dash(ruling.new_price),
            ruling.adjusted.0,
            ruling.nullified.0,
            ruling.standing.0,
            Origin::of(ruling.tp) as u8,
        ),
    );
}

fn word(outcome: Outcome) -> &'static str {
    match outcome {
        Outcome::NoRelief => "NONE",
        Outcome::Adjusted => "ADJUST",
        Outcome::Nullified => "NULLIFY",
        Outcome::Waiting => "WAIT",
    }
}

/// "Prices in mills, `-` for none."
fn mills_or_dash(price: Option<Mills>) -> String {
    price.map_or(String::from("-"), |mills| mills.0.to_string())
}

/// "A line feed after each line."
fn line(text: &mut String, fields: std::fmt::Arguments) {
    writeln!(text, "{fields}").expect("a String takes any text");
}
