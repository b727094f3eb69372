//! The long comparison: rounds of a few cases, each ruled by itself and then all as one sheet,
//! until enough are compared.

use std::fmt;

use crate::compare::{CaseAnswer, Comparison, Difference};
use crate::desks::Desk;
use crate::mixture::Mixture;
use crate::random::Random;
use crate::rows;
use crate::sheets::cases_of;

/// A difference, and how many cases or lists were compared before it.
pub struct Found {
    pub seed: u64,
    pub compared: u64,
    pub of: &'static str,
    pub difference: Difference,
}

impl fmt::Debug for Found {
    fn fmt(&self, out: &mut fmt::Formatter) -> fmt::Result {
        let Found {
            seed,
            compared,
            of,
            difference,
        } = self;
        write!(out, "seed {seed}, after {compared} {of}: {difference:?}")
    }
}

/// A call on which both desks agreed.
pub enum Seen<'a> {
    /// A record of 88 or 92 bytes.
    Case {
        record: &'a [u8],
        answer: CaseAnswer<'a>,
    },
    Sheet {
        sheet: &'a [u8],
        out_len: usize,
        refusal: u64,
        answers: &'a [u8],
    },
}

/// Compares at least that many cases and says how many; `saw` is shown each case and each sheet with
/// the answer that both desks gave.
pub fn stream(
    left: &dyn Desk,
    right: &dyn Desk,
    seed: u64,
    cases: u64,
    saw: impl FnMut(Seen),
) -> Result<u64, Found> {
    let mut stream = Stream {
        comparison: Comparison::new(left, right),
        mixture: Mixture::default(),
        random: Random::new(seed),
        compared: 0,
        saw,
    };
    while stream.compared < cases {
        stream.round().map_err(|difference| Found {
            seed,
            compared: stream.compared,
            of: "cases",
            difference,
        })?;
    }
    Ok(stream.compared)
}

struct Stream<'a, S> {
    comparison: Comparison<'a>,
    mixture: Mixture,
    random: Random,
    compared: u64,
    saw: S,
}

impl<S: FnMut(Seen)> Stream<'_, S> {
    fn round(&mut self) -> Result<(), Difference> {
        let records = rows::records(&self.mixture, &mut self.random);
        for record in &records {
            self.case(record)?;
            self.compared += 1;
        }
        let sheet = rows::sheet(&mut self.random, &records);
        self.sheet(&sheet)
    }

    fn case(&mut self, record: &[u8]) -> Result<(), Difference> {
        if self.random.once_in(25) {
            let mut other_length = record.to_vec();
            make_ragged(&mut self.random, &mut other_length);
            case_of_any_length(&mut self.comparison, &other_length, &mut self.random)?;
        }
        let answer = case_of_any_length(&mut self.comparison, record, &mut self.random)?;
        (self.saw)(Seen::Case { record, answer });
        Ok(())
    }

    fn sheet(&mut self, sheet: &[u8]) -> Result<(), Difference> {
        for out_len in rooms(&mut self.random, sheet) {
            let (refusal, answers) =
                self.comparison
                    .rule_sheet(sheet, out_len, &mut self.random)?;
            (self.saw)(Seen::Sheet {
                sheet,
                out_len,
                refusal,
                answers,
            });
        }
        if self.random.once_in(4) {
            self.comparison.print_sheet(sheet, &mut self.random)?;
        }
        Ok(())
    }
}

/// How much room there is for a sheet's answers: one length, mostly just enough; of the longest sheets,
/// which are seldom, each.
fn rooms(random: &mut Random, sheet: &[u8]) -> Vec<usize> {
    let enough = 96 * cases_of(sheet).unwrap_or(sheet.len() / 88);
    // As a desk would ask that reckons by the bytes of one kind.
    let by_bytes = [88, 92].map(|bytes| sheet.len() / bytes * 96);
    let too_few = random.within(0, enough as u32) as usize;
    let more = enough + random.within(1, 200) as usize;
    let lengths = [
        enough,
        enough.saturating_sub(1),
        too_few,
        more,
        by_bytes[0],
        by_bytes[1],
    ];
    if sheet.len() > 52_000 {
        lengths.to_vec()
    } else if random.once_in(2) {
        vec![enough]
    } else {
        vec![random.pick(&lengths)]
    }
}

/// Read, and ruled into a buffer of some length.
fn case_of_any_length<'a>(
    comparison: &'a mut Comparison,
    case: &[u8],
    random: &mut Random,
) -> Result<CaseAnswer<'a>, Difference> {
    comparison.check_case(case)?;
    let out_len = match random.within(0, 31) {
        0 => random.within(0, 95),
        1 => 95,
        2 => 96,
        _ => random.within(96, 128),
    };
    comparison.rule_case(case, out_len as usize, random)
}

/// Another length: some bytes more or fewer, often as many as between the two kinds.
fn make_ragged(random: &mut Random, bytes: &mut Vec<u8>) {
    let any = random.within(1, 90);
    let change = random.pick(&[1, 2, 3, 4, 4, any, any]) as usize;
    if random.once_in(2) {
        bytes.resize(bytes.len() + change, 0);
    } else {
        bytes.truncate(bytes.len().saturating_sub(change));
    }
}
