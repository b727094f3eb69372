//! A sheet: a row of cases of either form, "stepping by the length of each".

use super::form::Record;
use super::refusal::Refusal;

const LONGEST_SHEET: usize = 52_800;

/// A sheet that passed test 10, and how many cases it holds.
pub struct Sheet<'a> {
    row: &'a [u8],
    pub cases: usize,
}

impl<'a> Sheet<'a> {
    /// Test 10: "a sheet above 52,800 bytes, with an unknown pair of length and kind, or cut in a
    /// case, is refused 10 whole". It is walked to its end before anything is ruled.
    pub fn walked(row: &'a [u8]) -> Result<Sheet<'a>, Refusal> {
        if row.len() > LONGEST_SHEET {
            return Err(Refusal::SheetLength);
        }
        let mut cases = 0;
        let mut rest = row;
        while !rest.is_empty() {
            let (_, after) = Record::first_of(rest).ok_or(Refusal::SheetLength)?;
            rest = after;
            cases += 1;
        }
        Ok(Sheet { row, cases })
    }

    /// The cases in their order.
    pub fn records(&self) -> Records<'a> {
        Records(self.row)
    }
}

/// What is left of a walked sheet.
pub struct Records<'a>(&'a [u8]);

impl<'a> Iterator for Records<'a> {
    type Item = Record<'a>;

    fn next(&mut self) -> Option<Record<'a>> {
        let (record, after) = Record::first_of(self.0)?;
        self.0 = after;
        Some(record)
    }
}
