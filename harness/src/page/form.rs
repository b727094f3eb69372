//! The forms of a case record: kind 1 of 88 bytes, and since request L4 of document 02 kind 2, "92
//! bytes, as kind 1 with the permitted differential in mills at 88".

use super::reading::u16_at;
use super::refusal::Refusal;

pub const CASE_BYTES: usize = 88;
pub const WIDE_CASE_BYTES: usize = 92;

/// The pair of length and kind that a record of each form begins with.
const KIND_1: (u16, u16) = (88, 1);
const KIND_2: (u16, u16) = (92, 2);

/// What every form begins with: the whole of kind 1.
pub type Facts = [u8; CASE_BYTES];

/// A record that is as long as its form.
#[derive(Clone, Copy)]
pub enum Record<'a> {
    Kind1(&'a Facts),
    Kind2(&'a [u8; WIDE_CASE_BYTES]),
}

impl<'a> Record<'a> {
    /// Test 1, which "allows either length" and looks at nothing else.
    pub fn of_length(bytes: &'a [u8]) -> Result<Record<'a>, Refusal> {
        let kind_1 = bytes.try_into().map(Record::Kind1);
        let kind_2 = bytes.try_into().map(Record::Kind2);
        kind_1.or(kind_2).map_err(|_| Refusal::CaseLength)
    }

    /// Test 2, which "covers a pair not of that length": each length has its own.
    pub fn well_headed(self) -> Result<(), Refusal> {
        let pair = match self {
            Record::Kind1(_) => KIND_1,
            Record::Kind2(_) => KIND_2,
        };
        if pair_of(self.facts()) == pair {
            Ok(())
        } else {
            Err(Refusal::LengthOrKind)
        }
    }

    /// The first case of a row and what comes after it. None where fewer than four bytes are left, the
    /// pair is of no form, or the case is cut.
    pub fn first_of(row: &'a [u8]) -> Option<(Record<'a>, &'a [u8])> {
        match pair_of(row.first_chunk::<4>()?) {
            KIND_1 => {
                let (record, rest) = row.split_first_chunk()?;
                Some((Record::Kind1(record), rest))
            }
            KIND_2 => {
                let (record, rest) = row.split_first_chunk()?;
                Some((Record::Kind2(record), rest))
            }
            _ => None,
        }
    }

    pub fn facts(self) -> &'a Facts {
        match self {
            Record::Kind1(facts) => facts,
            Record::Kind2(record) => record.first_chunk().expect("88 of 92 bytes"),
        }
    }
}

fn pair_of<const LEN: usize>(record: &[u8; LEN]) -> (u16, u16) {
    (u16_at(record, 0), u16_at(record, 2))
}
