//! What the proved and the plain desk have in common, so that they can be compared call by call.

use crate::desk::{self, DeskBest, DeskSheet, TEXT_BYTES};
use crate::page;

/// A desk: numbers are those of the page, 0 where nothing is refused.
pub trait Desk {
    fn name(&self) -> &str;
    fn check_case(&self, case: &[u8]) -> u32;
    fn rule_case(&self, case: &[u8], out: &mut [u8]) -> u32;
    fn rule_sheet(&self, sheet: &[u8], out: &mut [u8]) -> DeskSheet;
    fn print_sheet(&self, sheet: &[u8], out: &mut [u8; TEXT_BYTES]) -> u64;
}

/// What a desk makes of a list of quotes; apart from [`Desk`], so that a mutant is compiled for the
/// calls it is compared in and no others.
pub trait QuoteDesk {
    fn name(&self) -> &str;
    fn best_quotes(&self, quotes: &[u8], trade_time: u32, before: u64) -> DeskBest;
    fn quotes_before(&self, quotes: &[u8], trade_time: u32) -> u64;
    fn fill_case(&self, quotes: &[u8], case: &mut [u8]) -> u32;
}

/// The static library.
pub struct Proved;

impl Desk for Proved {
    fn name(&self) -> &str {
        "proved"
    }

    fn check_case(&self, case: &[u8]) -> u32 {
        desk::check_case(case)
    }

    fn rule_case(&self, case: &[u8], out: &mut [u8]) -> u32 {
        desk::rule_case(case, out)
    }

    fn rule_sheet(&self, sheet: &[u8], out: &mut [u8]) -> DeskSheet {
        desk::rule_sheet(sheet, out)
    }

    fn print_sheet(&self, sheet: &[u8], out: &mut [u8; TEXT_BYTES]) -> u64 {
        desk::print_sheet(sheet, out)
    }
}

impl QuoteDesk for Proved {
    fn name(&self) -> &str {
        "proved"
    }

    fn best_quotes(&self, quotes: &[u8], trade_time: u32, before: u64) -> DeskBest {
        desk::best_quotes(quotes, trade_time, before)
    }

    fn quotes_before(&self, quotes: &[u8], trade_time: u32) -> u64 {
        desk::quotes_before(quotes, trade_time)
    }

    fn fill_case(&self, quotes: &[u8], case: &mut [u8]) -> u32 {
        desk::fill_case(quotes, case)
    }
}

/// The static library, called with NULL wherever a length is 0.
pub struct ProvedOnNull;

impl Desk for ProvedOnNull {
    fn name(&self) -> &str {
        "proved, on NULL"
    }

    fn check_case(&self, case: &[u8]) -> u32 {
        desk::null::check_case(case)
    }

    fn rule_case(&self, case: &[u8], out: &mut [u8]) -> u32 {
        desk::null::rule_case(case, out)
    }

    fn rule_sheet(&self, sheet: &[u8], out: &mut [u8]) -> DeskSheet {
        desk::null::rule_sheet(sheet, out)
    }

    fn print_sheet(&self, sheet: &[u8], out: &mut [u8; TEXT_BYTES]) -> u64 {
        desk::null::print_sheet(sheet, out)
    }
}

impl QuoteDesk for ProvedOnNull {
    fn name(&self) -> &str {
        "proved, on NULL"
    }

    fn best_quotes(&self, quotes: &[u8], trade_time: u32, before: u64) -> DeskBest {
        desk::null::best_quotes(quotes, trade_time, before)
    }

    fn quotes_before(&self, quotes: &[u8], trade_time: u32) -> u64 {
        desk::null::quotes_before(quotes, trade_time)
    }

    fn fill_case(&self, quotes: &[u8], case: &mut [u8]) -> u32 {
        desk::null::fill_case(quotes, case)
    }
}

/// Makes `$desk` the desk of the module `$page`: the independent one here, a broken copy of it in
/// the test of mutants.
#[macro_export]
macro_rules! desk_of_page {
    ($desk:ident, $page:ident, $name:expr) => {
        pub struct $desk;

        impl $crate::desks::Desk for $desk {
            fn name(&self) -> &str {
                $name
            }

            fn check_case(&self, case: &[u8]) -> u32 {
                $page::read_case(case).map_or_else(|refusal| u32::from(refusal.number()), |_| 0)
            }

            fn rule_case(&self, case: &[u8], out: &mut [u8]) -> u32 {
                $page::rule_case(case, out)
                    .map_or_else(|refusal| u32::from(refusal.number()), |()| 0)
            }

            fn rule_sheet(&self, sheet: &[u8], out: &mut [u8]) -> $crate::desk::DeskSheet {
                match $page::rule_sheet(sheet, out) {
                    Ok(counts) => $crate::desk::DeskSheet {
                        refusal: 0,
                        written: counts.written as u64,
                        ruled: counts.ruled as u64,
                        refused: counts.refused as u64,
                    },
                    Err(refusal) => $crate::desk::DeskSheet {
                        refusal: u64::from(refusal.number()),
                        written: 0,
                        ruled: 0,
                        refused: 0,
                    },
                }
            }

            fn print_sheet(&self, sheet: &[u8], out: &mut [u8; $crate::desk::TEXT_BYTES]) -> u64 {
                let text = $page::print_sheet(sheet);
                out[..text.len()].copy_from_slice(text.as_bytes());
                text.len() as u64
            }
        }
    };
}

/// Makes `$desk`, a type, the desk of the module `$page` for quotes.
#[macro_export]
macro_rules! quote_desk_of_page {
    ($desk:ident, $page:ident, $name:expr) => {
        impl $crate::desks::QuoteDesk for $desk {
            fn name(&self) -> &str {
                $name
            }

            fn best_quotes(
                &self,
                quotes: &[u8],
                trade_time: u32,
                before: u64,
            ) -> $crate::desk::DeskBest {
                let [refusal, bid, offer, bid_size, offer_size, examined] =
                    $page::best_told(quotes, trade_time, before);
                $crate::desk::DeskBest {
                    refusal,
                    bid,
                    offer,
                    bid_size,
                    offer_size,
                    examined,
                }
            }

            fn quotes_before(&self, quotes: &[u8], trade_time: u32) -> u64 {
                $page::number_told(quotes, trade_time)
            }

            fn fill_case(&self, quotes: &[u8], case: &mut [u8]) -> u32 {
                $page::fill_case(quotes, case)
                    .map_or_else(|refusal| u32::from(refusal.number()), |()| 0)
            }
        }
    };
}

desk_of_page!(Plain, page, "plain");
quote_desk_of_page!(Plain, page, "plain");
