//! The independent desk: document 01, and requests L1, L3, L4 and L8 of document 02, once more in plain
//! Rust.
//!
//! It is written from these and what was decided where they are silent, and shares nothing with
//! the proved desk, so that the two can be compared; it is also the benchmark's baseline for sheets.
//! Every part uses only this folder (`super::`), so that the test of mutants can compile broken copies
//! of it; the public parts are those that a broken copy of the quotes' part uses as they are.
//!
//! `explain`, `refused`, `careful` and `shown` are "A ruling explained", R17 of `docs/RULE.md`.

mod act;
mod answer;
mod bands;
mod careful;
pub mod case;
mod explain;
mod filling;
mod form;
mod printer;
mod quotes;
pub mod reading;
pub mod refusal;
mod refused;
mod ruling;
mod sheet;
mod shown;
mod told;
pub mod units;
mod way;
mod width;
mod writing;

pub use answer::{rule_case, rule_sheet, Counts};
pub use bands::{band, Band};
pub use careful::careful_sheet;
pub use case::{Agreement, Case, Day, Form, Kind, Party, Quote, Side, Terms};
pub use explain::{explain_case, explain_sheet};
pub use filling::fill_case;
pub use form::{CASE_BYTES, WIDE_CASE_BYTES};
pub use printer::print_sheet;
pub use quotes::{best_quotes, quotes_before, Best};
pub use reading::read_case;
pub use refusal::Refusal;
pub use ruling::{rule, theoretical_price, Origin, Outcome, Reason, Ruling, TheoreticalPrice};
pub use told::{best_told, number_told};
pub use units::{Contracts, Mills, Seconds};
pub use way::{open_way, Way};
pub use width::is_wide;
pub use writing::write_case;
