//! The mixture that the long comparison draws from: accepted cases, single and combined faults,
//! damaged, turned and random bytes.

use crate::accepted::accepted_of;
use crate::faults::{faults, wide_faults, Fault};
use crate::fields::Fields;
use crate::random::Random;

/// The faults of either kind.
pub struct Mixture {
    narrow: Vec<Fault>,
    wide: Vec<Fault>,
}

impl Default for Mixture {
    fn default() -> Mixture {
        Mixture {
            narrow: faults(),
            wide: wide_faults(),
        }
    }
}

impl Mixture {
    /// Any 88 or 92 bytes.
    pub fn record(&self, random: &mut Random) -> Vec<u8> {
        let wide = random.once_in(2);
        self.record_of(random, wide)
    }

    /// Any 92 bytes if it is to be a case of kind 2, else any 88.
    pub fn record_of(&self, random: &mut Random, wide: bool) -> Vec<u8> {
        let case = random.within(0, 39);
        if let 4 | 5 = case {
            return noise(random, wide);
        }
        let fields = accepted_of(random, wide);
        match case {
            0 | 1 => damaged(random, fields),
            2 | 3 => turned(random, fields),
            6..=13 => self.faulty(random, fields).encode(),
            14 | 15 => wrongly_headed(random, fields),
            _ => fields.encode(),
        }
    }

    /// The case made refused by one to three faults.
    fn faulty(&self, random: &mut Random, mut fields: Fields) -> Fields {
        for _ in 0..random.pick(&[1, 1, 1, 2, 3]) {
            self.fault(random, &fields).apply(&mut fields);
        }
        fields
    }

    /// The case made refused by one to three faults, none of them of its head: as a sheet may hold it.
    pub fn refused(&self, random: &mut Random, mut fields: Fields) -> Fields {
        let mut faults = random.pick(&[1, 1, 1, 2, 3]);
        while faults > 0 {
            let fault = self.fault(random, &fields);
            if fault.number > 2 {
                fault.apply(&mut fields);
                faults -= 1;
            }
        }
        fields
    }

    fn fault(&self, random: &mut Random, fields: &Fields) -> &Fault {
        let faults = match fields.differential {
            None => &self.narrow,
            Some(_) => &self.wide,
        };
        &faults[random.within(0, faults.len() as u32 - 1) as usize]
    }

    /// So many records of both kinds, each with its right head: test 10 refuses none of them.
    pub fn row(&self, random: &mut Random, cases: usize) -> Vec<Vec<u8>> {
        (0..cases)
            .map(|_| well_headed(&self.record(random)))
            .collect()
    }
}

/// The record with the pair of length and kind that belongs to its bytes.
pub fn well_headed(record: &[u8]) -> Vec<u8> {
    Fields::decode(record).well_headed().encode()
}

/// Pairs of length and kind that are taken for one of the two easily, those of the other kind among
/// them, and what request L11 will bring.
pub const PAIRS: [(u16, u16); 8] = [
    (88, 1),
    (92, 2),
    (88, 2),
    (92, 1),
    (88, 3),
    (92, 3),
    (94, 3),
    (94, 2),
];

/// An accepted case but for its head, which is one of [`PAIRS`]; now and then it is the right one.
fn wrongly_headed(random: &mut Random, fields: Fields) -> Vec<u8> {
    let (length, kind) = random.pick(&PAIRS);
    Fields {
        length,
        kind,
        ..fields
    }
    .encode()
}

/// An accepted case with one to three bytes changed, or single bits of them.
fn damaged(random: &mut Random, fields: Fields) -> Vec<u8> {
    let mut record = fields.encode();
    for _ in 0..random.within(1, 3) {
        let at = random.within(0, record.len() as u32 - 1) as usize;
        if random.once_in(2) {
            record[at] ^= 1 << random.within(0, 7);
        } else {
            record[at] = random.word() as u8;
        }
    }
    record
}

/// An accepted case with its numbers turned, or only its quotes.
fn turned(random: &mut Random, fields: Fields) -> Vec<u8> {
    let turned = match random.within(0, 2) {
        0 => fields.turned(),
        1 => fields.quotes_turned(),
        // The frame as it should be, so that the later tests see turned numbers.
        _ => Fields {
            length: fields.length,
            kind: fields.kind,
            ..fields.turned()
        },
    };
    turned.encode()
}

fn noise(random: &mut Random, wide: bool) -> Vec<u8> {
    let mut record = vec![0; if wide { 92 } else { 88 }];
    random.fill(&mut record);
    if random.once_in(2) {
        well_headed(&record)
    } else {
        record
    }
}
