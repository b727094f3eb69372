//! A sheet cut into its cases, written once more for the generators, the tests and what a difference
//! prints: they must not lean on either desk.

use crate::fields::{KIND_1, KIND_2};

/// The length of the case that begins with these bytes; none where no case does.
fn length(rest: &[u8]) -> Option<usize> {
    let &[low, high, kind, kind_high, ..] = rest else {
        return None;
    };
    let pair = (
        u16::from_le_bytes([low, high]),
        u16::from_le_bytes([kind, kind_high]),
    );
    [KIND_1, KIND_2]
        .contains(&pair)
        .then_some(usize::from(pair.0))
}

/// The cases that a sheet begins with, and what comes after the last whole one: nothing if the sheet
/// is a row of cases.
pub fn cut(sheet: &[u8]) -> (Vec<&[u8]>, &[u8]) {
    let mut cases = Vec::new();
    let mut rest = sheet;
    while let Some((case, after)) = length(rest).and_then(|len| rest.split_at_checked(len)) {
        cases.push(case);
        rest = after;
    }
    (cases, rest)
}

/// How many cases a sheet has, if no test 10 refuses it.
pub fn cases_of(sheet: &[u8]) -> Option<usize> {
    let (cases, rest) = cut(sheet);
    (rest.is_empty() && sheet.len() <= 52_800).then_some(cases.len())
}
