//! What sheets have reached: the kinds of their cases, the room for their answers, and every cause for
//! which a sheet is refused whole (request L4).

use std::fmt;

use crate::fields::{KIND_1, KIND_2};
use crate::mixture::PAIRS;
use crate::sheets::cut;

/// Something that a sheet can reach.
#[derive(Clone, Copy, Debug, PartialEq, Eq, PartialOrd, Ord)]
pub enum Row {
    /// What a ruled sheet held.
    Ruled(&'static str),
    /// The number of a refused case of a sheet, by the bytes of the case.
    Refused { bytes: usize, number: u16 },
    /// Why a sheet was refused 10.
    Whole(&'static str),
    /// The pair of length and kind for which it was, and where.
    Pair {
        pair: (u16, u16),
        place: &'static str,
    },
    /// How the answer buffer was.
    Room(&'static str),
}

const NOTHING: &str = "no case";
const NARROW: &str = "kind 1 alone";
const WIDE: &str = "kind 2 alone";
const NARROW_FIRST: &str = "both kinds, kind 1 first";
const WIDE_FIRST: &str = "both kinds, kind 2 first";
const REFUSED_AFTER_WIDE: &str = "a refused case after one of kind 2";
const MORE_BY_BYTES: &str = "fewer cases than its bytes have 88";
const MOST_CASES: &str = "600 cases";
const MOST_WIDE: &str = "573 cases of kind 2";
const LONGEST_MIXED: &str = "52,800 bytes of both kinds";
const HELD: [&str; 10] = [
    NOTHING,
    NARROW,
    WIDE,
    NARROW_FIRST,
    WIDE_FIRST,
    REFUSED_AFTER_WIDE,
    MORE_BY_BYTES,
    MOST_CASES,
    MOST_WIDE,
    LONGEST_MIXED,
];

const REST_1: &str = "a rest of 1 byte";
const REST_2: &str = "a rest of 2 bytes";
const REST_3: &str = "a rest of 3 bytes";
const CUT_NARROW: &str = "cut in a case of kind 1";
const CUT_WIDE: &str = "cut in a case of kind 2";
const CUT_AT_88: &str = "cut behind the 88th byte of a case of kind 2";
const CUT_TO_HEAD: &str = "cut behind the head of a case";
const MULTIPLE_OF_88: &str = "cut, and a multiple of 88 bytes long";
const TOO_LONG_NARROW: &str = "too long, kind 1 alone";
const TOO_LONG_WIDE: &str = "too long, kind 2 alone";
const TOO_LONG_MIXED: &str = "too long by four bytes, both kinds";
const TOO_LONG_AND_CUT: &str = "too long, and cut";
const NO_ROOM_EITHER: &str = "a row of no cases, and no room either";
const TOO_LONG_NO_ROOM: &str = "too long, and no room either";
const CAUSES: [&str; 14] = [
    REST_1,
    REST_2,
    REST_3,
    CUT_NARROW,
    CUT_WIDE,
    CUT_AT_88,
    CUT_TO_HEAD,
    MULTIPLE_OF_88,
    TOO_LONG_NARROW,
    TOO_LONG_WIDE,
    TOO_LONG_MIXED,
    TOO_LONG_AND_CUT,
    NO_ROOM_EITHER,
    TOO_LONG_NO_ROOM,
];

const FIRST: &str = "first";
const MIDDLE: &str = "in the middle";
const LAST: &str = "last";

const JUST_ENOUGH: &str = "just enough for both kinds";
const BYTE_SHORT: &str = "refused 11: a byte too few for both kinds";
const LESS_THAN_BY_88: &str = "enough, but not for one case in 88 bytes";
const ENOUGH_BY_92: &str = "refused 11: enough for one case in 92 bytes";
const ROOMS: [&str; 4] = [JUST_ENOUGH, BYTE_SHORT, LESS_THAN_BY_88, ENOUGH_BY_92];

impl Row {
    /// All that a long run should reach.
    pub fn all() -> Vec<Row> {
        let mut all: Vec<Row> = HELD.map(Row::Ruled).into();
        for bytes in [88, 92] {
            all.extend((3..=9).map(|number| Row::Refused { bytes, number }));
        }
        all.extend(CAUSES.map(Row::Whole));
        for pair in PAIRS.into_iter().filter(is_wrong) {
            all.extend([FIRST, MIDDLE, LAST].map(|place| Row::Pair { pair, place }));
        }
        all.extend(ROOMS.map(Row::Room));
        all
    }

    pub fn of_sheet(sheet: &[u8], out_len: usize, refusal: u64, answers: &[u8]) -> Vec<Row> {
        let (cases, rest) = cut(sheet);
        let mut reached = match refusal {
            0 => of_ruled(sheet, &cases, answers),
            10 => of_refused(sheet, &cases, rest, out_len),
            _ => Vec::new(),
        };
        if rest.is_empty() && kinds(&cases) == (true, true) {
            reached.extend(of_room(sheet, cases.len() * 96, out_len, refusal));
        }
        reached
    }
}

/// Are there cases of kind 1, and of kind 2?
fn kinds(cases: &[&[u8]]) -> (bool, bool) {
    let any = |bytes| cases.iter().any(|case| case.len() == bytes);
    (any(88), any(92))
}

fn of_ruled(sheet: &[u8], cases: &[&[u8]], answers: &[u8]) -> Vec<Row> {
    let held = match (kinds(cases), cases.first()) {
        ((false, false), _) => NOTHING,
        ((true, false), _) => NARROW,
        ((false, true), _) => WIDE,
        (_, Some(first)) if first.len() == 88 => NARROW_FIRST,
        _ => WIDE_FIRST,
    };
    let mut reached = vec![Row::Ruled(held)];
    for (index, number) in refused(answers) {
        let bytes = cases[index].len();
        reached.push(Row::Refused { bytes, number });
        if kinds(&cases[..index]).1 {
            reached.push(Row::Ruled(REFUSED_AFTER_WIDE));
        }
    }
    let more = [
        (MORE_BY_BYTES, cases.len() < sheet.len() / 88),
        (MOST_CASES, cases.len() == 600),
        (MOST_WIDE, (held, cases.len()) == (WIDE, 573)),
        (
            LONGEST_MIXED,
            sheet.len() == 52_800 && kinds(cases) == (true, true),
        ),
    ];
    reached.extend(
        more.iter()
            .filter(|(_, so)| *so)
            .map(|(what, _)| Row::Ruled(what)),
    );
    reached
}

/// Index and number of each refused case among the answers.
fn refused(answers: &[u8]) -> Vec<(usize, u16)> {
    let mut rest = answers;
    let mut refused = Vec::new();
    while let Some(&length) = rest.first() {
        let (answer, after) = rest.split_at(if length == 12 { 12 } else { 96 });
        if let [12, 0, 18, 0, index, high, 0, 0, number, more, 0, 0] = *answer {
            let index = u16::from_le_bytes([index, high]);
            refused.push((usize::from(index), u16::from_le_bytes([number, more])));
        }
        rest = after;
    }
    refused
}

fn of_refused(sheet: &[u8], cases: &[&[u8]], rest: &[u8], out_len: usize) -> Vec<Row> {
    let mut reached: Vec<Row> = CAUSES
        .into_iter()
        .filter(|cause| shows(cause, sheet, cases, rest, out_len))
        .map(Row::Whole)
        .collect();
    if let &[length, length_high, kind, kind_high, ..] = rest {
        let pair = (
            u16::from_le_bytes([length, length_high]),
            u16::from_le_bytes([kind, kind_high]),
        );
        if PAIRS.contains(&pair) && is_wrong(&pair) {
            let place = match (cases.len(), rest.len()) {
                (_, ..=92) => LAST,
                (0, _) => FIRST,
                _ => MIDDLE,
            };
            reached.push(Row::Pair { pair, place });
        }
    }
    reached
}

fn shows(cause: &str, sheet: &[u8], cases: &[&[u8]], rest: &[u8], out_len: usize) -> bool {
    let too_long = sheet.len() > 52_800;
    let cut_of = |head: [u8; 4]| !too_long && rest.starts_with(&head);
    let (narrow, wide) = (cut_of([88, 0, 1, 0]), cut_of([92, 0, 2, 0]));
    let row = rest.is_empty();
    match cause {
        REST_1 => rest.len() == 1,
        REST_2 => rest.len() == 2,
        REST_3 => rest.len() == 3,
        CUT_NARROW => narrow,
        CUT_WIDE => wide,
        CUT_AT_88 => wide && rest.len() == 88,
        CUT_TO_HEAD => (narrow || wide) && rest.len() == 4,
        MULTIPLE_OF_88 => (narrow || wide) && sheet.len().is_multiple_of(88),
        TOO_LONG_NARROW => too_long && row && kinds(cases) == (true, false),
        TOO_LONG_WIDE => too_long && row && kinds(cases) == (false, true),
        TOO_LONG_MIXED => sheet.len() == 52_804 && row && kinds(cases) == (true, true),
        TOO_LONG_AND_CUT => too_long && !row,
        NO_ROOM_EITHER => !too_long && out_len < 96 * cases.len(),
        _ => too_long && row && out_len < 96 * cases.len(),
    }
}

fn of_room(sheet: &[u8], enough: usize, out_len: usize, refusal: u64) -> Vec<Row> {
    let rooms = [
        (JUST_ENOUGH, refusal == 0 && out_len == enough),
        (BYTE_SHORT, refusal == 11 && out_len + 1 == enough),
        (
            LESS_THAN_BY_88,
            refusal == 0 && out_len < sheet.len() / 88 * 96,
        ),
        (
            ENOUGH_BY_92,
            refusal == 11 && out_len >= sheet.len() / 92 * 96,
        ),
    ];
    rooms
        .into_iter()
        .filter_map(|(what, so)| so.then_some(Row::Room(what)))
        .collect()
}

fn is_wrong(pair: &(u16, u16)) -> bool {
    ![KIND_1, KIND_2].contains(pair)
}

impl fmt::Display for Row {
    fn fmt(&self, out: &mut fmt::Formatter) -> fmt::Result {
        match self {
            Row::Ruled(what) => write!(out, "sheet ruled: {what}"),
            Row::Refused { bytes, number } => {
                write!(out, "sheet ruled: a case of {bytes} bytes refused {number}")
            }
            Row::Whole(cause) => write!(out, "sheet refused 10: {cause}"),
            Row::Pair { pair, place } => {
                write!(out, "sheet refused 10: the pair {pair:?}, {place}")
            }
            Row::Room(what) => write!(out, "sheet's answer buffer: {what}"),
        }
    }
}
