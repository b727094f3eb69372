//! The rulings of a sheet explained by the independent desk (R17): the sheet comes on standard input.
//!
//!     explain                every case
//!     explain TRADE          the cases with that trade number
//!     explain --careful      only what to be careful of

use std::env;
use std::io::{self, Read, Write};

use harness::page::{careful_sheet, explain_sheet};

fn main() -> io::Result<()> {
    let args: Vec<String> = env::args().skip(1).collect();
    let args: Vec<&str> = args.iter().map(String::as_str).collect();
    let mut sheet = Vec::new();
    io::stdin().lock().read_to_end(&mut sheet)?;
    let text = match args[..] {
        [] => explain_sheet(&sheet, None),
        ["--careful"] => careful_sheet(&sheet),
        [trade] => explain_sheet(&sheet, Some(trade.parse().expect("a trade number"))),
        _ => panic!("usage: explain [TRADE | --careful]"),
    };
    io::stdout().lock().write_all(&text)
}
