//! Rows of records as the long comparison brings them to a sheet: most of them whole, with cases of
//! both kinds in no order, the others cut, with a bad head or too long.

use crate::mixture::{well_headed, Mixture, PAIRS};
use crate::random::Random;

/// So many cases of kind 1 make up the longest sheet.
const MOST_CASES: u32 = 600;

/// 23 cases of kind 1 are as long as 22 of kind 2, and no fewer of the one as some of the other.
const NARROW: u32 = 23;
const WIDE: u32 = 22;

/// The records of a round: a few, now and then none, sometimes so many of kind 2 that their bytes
/// would make more cases of kind 1, and seldom about as many as a sheet may hold.
pub fn records(mixture: &Mixture, random: &mut Random) -> Vec<Vec<u8>> {
    let (narrow, wide) = match random.within(0, 1_299) {
        0 => longest(random),
        1..=20 => (random.within(0, 30), random.within(WIDE, 50)),
        _ => {
            let cases = random.within(0, 12);
            let wide = match random.within(0, 3) {
                0 => 0,
                1 => cases,
                _ => random.within(0, cases),
            };
            (cases - wide, wide)
        }
    };
    let mut records: Vec<Vec<u8>> = (0..narrow + wide)
        .map(|index| mixture.record_of(random, index >= narrow))
        .collect();
    random.shuffle(&mut records);
    records
}

/// How many of each kind make up a sheet of 52,800 bytes, or of one case more or less.
fn longest(random: &mut Random) -> (u32, u32) {
    let turns = random.within(0, MOST_CASES / NARROW);
    let mixed = (MOST_CASES - NARROW * turns, WIDE * turns);
    match random.within(0, 9) {
        0 => (MOST_CASES - 1, 0),
        1 => (MOST_CASES, 0),
        2 => (MOST_CASES + 1, 0),
        3 => (0, 573),
        4 => (0, 574),
        // Four bytes too long, and not by a case.
        5 | 6 => (mixed.0 - 1, mixed.1 + 1),
        _ => mixed,
    }
}

/// The records as one sheet. One of any 88 or 92 bytes has the right head there, unless the sheet is
/// to be refused for it.
pub fn sheet(random: &mut Random, records: &[Vec<u8>]) -> Vec<u8> {
    if random.once_in(10) {
        return records.concat();
    }
    let mut row: Vec<Vec<u8>> = records.iter().map(|record| well_headed(record)).collect();
    match random.within(0, 19) {
        0 | 1 => spoil_head(random, &mut row),
        2 | 3 => cut_last(random, &mut row),
        4 => leave_rest(random, &mut row),
        _ => {}
    }
    row.concat()
}

/// A wrong pair of length and kind in the first, the last or any other case.
fn spoil_head(random: &mut Random, row: &mut [Vec<u8>]) {
    if let Some(last) = row.len().checked_sub(1) {
        let any = random.within(0, last as u32) as usize;
        let at = random.pick(&[0, any, last]);
        let (length, kind) = random.pick(&PAIRS);
        row[at][..2].copy_from_slice(&length.to_le_bytes());
        row[at][2..4].copy_from_slice(&kind.to_le_bytes());
    }
}

/// The last case cut short, mostly by a few bytes or with few left.
fn cut_last(random: &mut Random, row: &mut [Vec<u8>]) {
    if let Some(last) = row.last_mut() {
        let len = last.len();
        let any = random.within(1, len as u32 - 1) as usize;
        last.truncate(random.pick(&[1, 2, 3, 4, 5, 87, len - 4, len - 1, any]));
    }
}

/// Some bytes after the last case, zeros or the first of another one.
fn leave_rest(random: &mut Random, row: &mut Vec<Vec<u8>>) {
    let head = random.pick(&[[0; 4], [88, 0, 1, 0], [92, 0, 2, 0]]);
    let mut rest = head.to_vec();
    let any = random.within(1, 91) as usize;
    rest.resize(random.pick(&[1, 2, 3, 4, any]), 0);
    row.push(rest);
}
