//! The proved desk: the seven C functions of `target/staticlib/libdesk.a` and the one of
//! `libcounter.a` (`include/desk.h`) behind a safe interface. All `unsafe` of the harness is here.

use std::ptr;

/// A case record of kind 1.
pub const CASE_BYTES: usize = 88;

/// A case record of kind 2, which ends with the permitted differential.
pub const WIDE_CASE_BYTES: usize = 92;

/// A ruling and two notices.
pub const ANSWER_BYTES: usize = 96;

/// The longest sheet: 600 cases of kind 1, or 573 of kind 2, or fewer than 600 of both.
pub const SHEET_BYTES: usize = 52_800;

/// The bytes of text that [`print_sheet`] has room for.
pub const TEXT_BYTES: usize = 65_536;

/// The bytes of text that [`explain_case`] has room for.
pub const EXPLANATION_BYTES: usize = 20_480;

/// A quote record.
pub const QUOTE_BYTES: usize = 28;

/// The longest list of quotes: 2,000 of them.
pub const QUOTES_BYTES: usize = 56_000;

/// The mark "none" of a price.
pub const NONE: u32 = 4_294_967_295;

/// What ruling a sheet gives back: the number of its refusal or 0, the bytes written, the cases
/// ruled and refused.
#[repr(C)]
#[derive(Clone, Copy, Debug, PartialEq, Eq)]
pub struct DeskSheet {
    pub refusal: u64,
    pub written: u64,
    pub ruled: u64,
    pub refused: u64,
}

/// The best bid and offer, [`NONE`] of size 0 where there is none, and the quotes examined; or the
/// number of a refusal, none of both and a count of 0.
#[repr(C)]
#[derive(Clone, Copy, Debug, PartialEq, Eq)]
pub struct DeskBest {
    pub refusal: u64,
    pub bid: u64,
    pub offer: u64,
    pub bid_size: u64,
    pub offer_size: u64,
    pub examined: u64,
}

unsafe extern "C" {
    pub(crate) fn desk_check_case(case: *const u8, len: usize) -> u32;
    pub(crate) fn desk_rule_case(case: *const u8, len: usize, out: *mut u8, out_len: usize) -> u32;
    pub(crate) fn desk_rule_sheet(
        sheet: *const u8,
        len: usize,
        out: *mut u8,
        out_len: usize,
    ) -> DeskSheet;
    pub(crate) fn desk_print_sheet(sheet: *const u8, len: usize, out: *mut [u8; TEXT_BYTES])
        -> u64;
    pub(crate) fn desk_explain_case(
        case: *const u8,
        len: usize,
        out: *mut [u8; EXPLANATION_BYTES],
    ) -> u64;
    fn desk_best_quotes(quotes: *const u8, len: usize, trade_time: u32, before: u64) -> DeskBest;
    fn desk_quotes_before(quotes: *const u8, len: usize, trade_time: u32) -> u64;
    fn desk_fill_case(quotes: *const u8, len: usize, record: *mut u8, record_len: usize) -> u32;
}

/// The number that reading the case gives, 0 if it is accepted.
pub fn check_case(case: &[u8]) -> u32 {
    // SAFETY: the pointer and the length are those of one live slice, which is only read.
    unsafe { desk_check_case(case.as_ptr(), case.len()) }
}

/// Rules the case into `out`; the number of its refusal, 0 if it is ruled.
pub fn rule_case(case: &[u8], out: &mut [u8]) -> u32 {
    // SAFETY: each pointer and length are those of one live slice; `out` is lent exclusively, so
    // the two do not overlap.
    unsafe { desk_rule_case(case.as_ptr(), case.len(), out.as_mut_ptr(), out.len()) }
}

/// Rules the sheet into `out`.
pub fn rule_sheet(sheet: &[u8], out: &mut [u8]) -> DeskSheet {
    // SAFETY: each pointer and length are those of one live slice; `out` is lent exclusively, so
    // the two do not overlap.
    unsafe { desk_rule_sheet(sheet.as_ptr(), sheet.len(), out.as_mut_ptr(), out.len()) }
}

/// Prints the sheet's rulings into `out`; the bytes of text.
pub fn print_sheet(sheet: &[u8], out: &mut [u8; TEXT_BYTES]) -> u64 {
    // SAFETY: the pointer and the length are those of one live slice; `out` is a live array of the
    // declared size, lent exclusively, so the two do not overlap.
    unsafe { desk_print_sheet(sheet.as_ptr(), sheet.len(), out) }
}

/// Explains the ruling or the refusal of the case into `out`; the bytes of text.
pub fn explain_case(case: &[u8], out: &mut [u8; EXPLANATION_BYTES]) -> u64 {
    // SAFETY: the pointer and the length are those of one live slice; `out` is a live array of the
    // declared size, lent exclusively, so the two do not overlap.
    unsafe { desk_explain_case(case.as_ptr(), case.len(), out) }
}

/// The best bid and offer among each exchange's last quote before the trade; `before` is the number
/// that [`quotes_before`] tells, and another is refused (28).
pub fn best_quotes(quotes: &[u8], trade_time: u32, before: u64) -> DeskBest {
    // SAFETY: the pointer and the length are those of one live slice, which is only read.
    unsafe { desk_best_quotes(quotes.as_ptr(), quotes.len(), trade_time, before) }
}

/// The number of quotes strictly before the trade; 0 where the quotes or the time are refused.
pub fn quotes_before(quotes: &[u8], trade_time: u32) -> u64 {
    // SAFETY: the pointer and the length are those of one live slice, which is only read.
    unsafe { desk_quotes_before(quotes.as_ptr(), quotes.len(), trade_time) }
}

/// Fills the best bid and offer at the case's execution into the case; the number of its or the
/// quotes' refusal, 0 if it is filled.
pub fn fill_case(quotes: &[u8], case: &mut [u8]) -> u32 {
    // SAFETY: each pointer and length are those of one live slice; `case` is lent exclusively, so
    // the two do not overlap.
    unsafe { desk_fill_case(quotes.as_ptr(), quotes.len(), case.as_mut_ptr(), case.len()) }
}

/// The same calls with NULL beside a length of 0, as a C program may make them: Rust's own empty
/// slices point somewhere.
pub mod null {
    use super::*;

    fn pointer(bytes: &[u8]) -> *const u8 {
        if bytes.is_empty() {
            ptr::null()
        } else {
            bytes.as_ptr()
        }
    }

    fn pointer_mut(bytes: &mut [u8]) -> *mut u8 {
        if bytes.is_empty() {
            ptr::null_mut()
        } else {
            bytes.as_mut_ptr()
        }
    }

    // SAFETY, of all eight: a pointer and a length are those of one live slice, or NULL and 0, which
    // `include/desk.h` permits; what is written to is lent exclusively.

    pub fn check_case(case: &[u8]) -> u32 {
        unsafe { desk_check_case(pointer(case), case.len()) }
    }

    pub fn rule_case(case: &[u8], out: &mut [u8]) -> u32 {
        unsafe { desk_rule_case(pointer(case), case.len(), pointer_mut(out), out.len()) }
    }

    pub fn rule_sheet(sheet: &[u8], out: &mut [u8]) -> DeskSheet {
        unsafe { desk_rule_sheet(pointer(sheet), sheet.len(), pointer_mut(out), out.len()) }
    }

    pub fn print_sheet(sheet: &[u8], out: &mut [u8; TEXT_BYTES]) -> u64 {
        unsafe { desk_print_sheet(pointer(sheet), sheet.len(), out) }
    }

    pub fn explain_case(case: &[u8], out: &mut [u8; EXPLANATION_BYTES]) -> u64 {
        unsafe { desk_explain_case(pointer(case), case.len(), out) }
    }

    pub fn best_quotes(quotes: &[u8], trade_time: u32, before: u64) -> DeskBest {
        unsafe { desk_best_quotes(pointer(quotes), quotes.len(), trade_time, before) }
    }

    pub fn quotes_before(quotes: &[u8], trade_time: u32) -> u64 {
        unsafe { desk_quotes_before(pointer(quotes), quotes.len(), trade_time) }
    }

    pub fn fill_case(quotes: &[u8], case: &mut [u8]) -> u32 {
        unsafe { desk_fill_case(pointer(quotes), quotes.len(), pointer_mut(case), case.len()) }
    }
}
