//! The harness: an independent desk beside the proved one, and what is needed to compare the two.
//!
//! - [`page`]: the independent desk, written from document 01, requests L1, L3, L4 and L8 of document
//!   02 and what was decided where they are silent;
//! - [`desk`]: the proved desk, the static library behind a safe interface;
//! - [`desks`]: what the two have in common;
//! - [`fields`], [`accepted`], [`faults`], [`mixture`]: case records of both kinds, good and bad;
//! - [`sheets`], [`rows`]: sheets, whole, cut and with a bad head;
//! - [`lists`], [`quote_faults`]: lists of quotes, good and bad;
//! - [`compare`], [`stream`]: the same call on two desks, once and a million times;
//! - [`quote_compare`], [`quote_stream`]: the same of quotes;
//! - [`coverage`] with `wide_coverage` and `sheet_coverage`, [`quote_coverage`] with `walk_coverage`:
//!   what a run has reached;
//! - [`fast_quotes`]: the lookup once more, for the benchmark;
//! - [`settings`], [`random`]: seeds and numbers.

#![deny(unsafe_code)]

pub mod accepted;
pub mod compare;
pub mod coverage;
#[allow(unsafe_code)]
pub mod desk;
pub mod desks;
pub mod fast_quotes;
pub mod faults;
pub mod fields;
pub mod lists;
pub mod mixture;
pub mod page;
pub mod quote_compare;
pub mod quote_coverage;
pub mod quote_faults;
pub mod quote_stream;
pub mod random;
pub mod rows;
pub mod settings;
mod sheet_coverage;
pub mod sheets;
#[allow(unsafe_code)]
pub mod stack;
pub mod stream;
mod walk_coverage;
mod wide_coverage;
