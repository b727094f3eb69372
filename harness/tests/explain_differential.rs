//! The proved desk's explanation of a case (R17) against the independent one's, byte by byte: the cases
//! of the long comparison, cases whose prices may be read high byte first, the samples, and bytes of every
//! length that is short. What stands behind the text in the lent buffer stays.

use std::fs;
use std::path::Path;

use harness::accepted::accepted_of;
use harness::desk::{self, EXPLANATION_BYTES};
use harness::fields::{Fields, NONE};
use harness::mixture::Mixture;
use harness::page;
use harness::random::Random;
use harness::rows;
use harness::settings;
use harness::sheets::cut;

/// One for each ten cases of the long comparison, and never fewer than this.
const FEWEST_CASES: u64 = 100_000;

/// The buffer that is lent, and what it held before the call.
struct Explaining {
    out: Box<[u8; EXPLANATION_BYTES]>,
    before: Box<[u8; EXPLANATION_BYTES]>,
    reached: Reached,
}

impl Explaining {
    fn new(random: &mut Random) -> Explaining {
        let mut before = Box::new([0; EXPLANATION_BYTES]);
        random.fill(&mut before[..]);
        Explaining {
            out: before.clone(),
            before,
            reached: Reached::default(),
        }
    }

    /// Both desks explain the case alike, and the proved one writes no byte more.
    fn compare(&mut self, case: &[u8]) {
        let written = desk::explain_case(case, &mut self.out);
        self.judge(case, written);
        if case.is_empty() {
            let written = desk::null::explain_case(case, &mut self.out);
            self.judge(case, written);
        }
    }

    fn judge(&mut self, case: &[u8], written: u64) {
        let expected = page::explain_case(case);
        let len = usize::try_from(written).expect("a length");
        assert!(len <= EXPLANATION_BYTES, "{}", told(case));
        let text = &self.out[..len];
        assert!(
            text == expected.as_bytes(),
            "{}\nproved:\n{}\nplain:\n{expected}",
            told(case),
            String::from_utf8_lossy(text)
        );
        assert!(
            self.out[len..] == self.before[len..],
            "what stands behind the text has changed\n{}",
            told(case)
        );
        self.out[..len].copy_from_slice(&self.before[..len]);
        self.reached.add(&expected);
    }
}

/// The case of a difference: its bytes, and its fields if it has as many as a record.
fn told(case: &[u8]) -> String {
    let hex: String = case.iter().map(|byte| format!("{byte:02x}")).collect();
    let fields = match case.len() {
        88 | 92 => Fields::decode(case).to_string(),
        _ => String::new(),
    };
    format!(
        "seed {}, {} bytes: {hex}\n{fields}",
        settings::seed(),
        case.len()
    )
}

/// What a line of the page's must have for the run to have seen every one that can arise.
const LINES: &[&str] = &[
    ": NONE, reason 1\n",
    ": NONE, reason 2\n",
    ": NONE, reason 3\n",
    ": NONE, reason 5\n",
    ": ADJUST, reason 6\n",
    ": ADJUST, reason 7\n",
    ": ADJUST, reason 8\n",
    ": ADJUST, reason 9\n",
    ": ADJUST, reason 10\n",
    ": NULLIFY, reason 11\n",
    ": NULLIFY, reason 12\n",
    ": NULLIFY, reason 13\n",
    ": WAIT, reason 14\n",
    "  way        obvious: filed at ",
    "  way        opening: filed at ",
    "  way        catastrophic: filed at ",
    "  way        none is open: filed at ",
    " on the trade date (byte 66), ",
    " on the next day (byte 66), executed at ",
    " on a later day (byte 66), executed at ",
    " s after the execution at ",
    "not obvious: filed on the next day (byte 66) [R4.1]",
    "not obvious: filed on a later day (byte 66) [R4.1]",
    "not obvious: open to a Customer (byte 64) for 1,200 s [R4.1]",
    "not obvious: open to a Customer (byte 65) for 1,200 s [R4.1]",
    "not obvious: open to a Market Maker (byte 64) for 300 s [R4.1]",
    "not obvious: open to a Market Maker (byte 65) for 300 s [R4.1]",
    "not obvious: open to another kind of party (byte 64) for 1,200 s [R4.1]",
    "not obvious: open to another kind of party (byte 65) for 1,200 s [R4.1]",
    "not opening: filed on the next day (byte 66) [R4.2]",
    "not opening: filed on a later day (byte 66) [R4.2]",
    "not opening: an opening trade: no (byte 45) [R4.2]",
    "not opening: in error is a Market Maker (byte 64) [R4.2]",
    "not opening: in error is a Market Maker (byte 65) [R4.2]",
    "not opening: in error is another kind of party (byte 64) [R4.2]",
    "not opening: in error is another kind of party (byte 65) [R4.2]",
    "not opening: open up to 16:30:00 [R4.2]",
    "not catastrophic: expiry deadline: yes (byte 46), filed on the next day (byte 66) [R4.3]",
    "not catastrophic: expiry deadline: yes (byte 46), filed on a later day (byte 66) [R4.3]",
    "not catastrophic: expiry deadline: yes (byte 46), open up to 17:00:00 [R4.3]",
    "not catastrophic: filed on a later day (byte 66) [R4.3]",
    "not catastrophic: next day, open up to 08:30:00 [R4.3]",
    "  panel      already decided: yes (byte 47) [R4.5]",
    ": wide [R5.6]",
    ": not wide [R5.6]",
    ", the best offer [R5.1]",
    ", the best bid [R5.1]",
    ", an official's price; the best offer is none (bytes 24 to 27) [R5.2]",
    ", an official's price; the best bid is none (bytes 20 to 23) [R5.2]",
    " (bytes 24 to 27), too wide [R5.8]",
    " (bytes 20 to 23), too wide [R5.8]",
    "the best offer is none (bytes 24 to 27) [R5.3]",
    "the best bid is none (bytes 20 to 23) [R5.3]",
    " (bytes 24 to 27), too wide [R5.9]",
    " (bytes 20 to 23), too wide [R5.9]",
    " is the obvious minimum for a TP of 0.000 to 1.999 [",
    " is the obvious minimum for a TP of 2.000 to 5.000 [",
    " is the obvious minimum for a TP of 5.001 to 10.000 [",
    " is the obvious minimum for a TP of 10.001 to 20.000 [",
    " is the obvious minimum for a TP of 20.001 to 50.000 [",
    " is the obvious minimum for a TP of 50.001 to 100.000 [",
    " is the obvious minimum for a TP of 100.001 to 9999.999 [",
    " is the catastrophic minimum for a TP of 0.000 to 1.999 [",
    " is the catastrophic minimum for a TP of 2.000 to 5.000 [",
    " is the catastrophic minimum for a TP of 5.001 to 10.000 [",
    " is the catastrophic minimum for a TP of 10.001 to 20.000 [",
    " is the catastrophic minimum for a TP of 20.001 to 50.000 [",
    " is the catastrophic minimum for a TP of 50.001 to 100.000 [",
    " is the catastrophic minimum for a TP of 100.001 to 9999.999 [",
    ", by 0.000; ",
    ", by 0.001; ",
    "  agreement  none (byte 67) [R7.4]",
    "with a Customer allowed: 1,800 s: it counts [R7.2]",
    "without a Customer allowed: 600 s: it counts [R7.2]",
    "with a Customer allowed: 1,800 s: it counts [R7.3]",
    "without a Customer allowed: 600 s: it counts [R7.3]",
    "with a Customer allowed: 1,800 s: too late [R7.1, R7.4]",
    "without a Customer allowed: 600 s: too late [R7.1, R7.4]",
    ": not with a Customer on this way [R7.3, R7.4]",
    " + 0.150 = ",
    " - 0.150 = ",
    " + 0.300 = ",
    " - 0.300 = ",
    ": with a Customer undone [R8.2.2]",
    "  act        TP itself, ",
    " [R8.4.1]",
    " does not violate it [R8.3.2]",
    " does not violate it [R8.3.3]",
    " is above it [R8.3.3]",
    " is below it [R8.3.3]",
    " does not violate it [R8.4.2]",
    " is above it [R8.4.2]",
    " is below it [R8.4.2]",
    " s (bytes 80 to 83); allowed: 1,800 s: in time [R8.4.3]",
    " s (bytes 80 to 83); allowed: 1,800 s: not in time [R8.4.4]",
    "none (bytes 80 to 83); allowed: 1,800 s: not in time [R8.4.4]",
    // A sell against a bid of zero is never in error, so that no bid of size 0 stands there.
    " (bytes 28 to 31) [R9.1, R9.5]",
    " (bytes 32 to 35) [R9.1, R9.5]",
    "; the quote's size is 0 (bytes 32 to 35) [R9.1, R9.5]",
    " stand [R9.3]",
    " 0 stand [R9.4]",
    " nullified [R9.4]",
    " stand [R9.5]",
    "REFUSED 1\n  length of the case ",
    "REFUSED 2\n  length at the head ",
    "; allowed: 88, as long as the case is [R3.2]",
    "; allowed: 92, as long as the case is [R3.2]",
    " (bytes 2 to 3); allowed: 1 [R3.2]",
    " (bytes 2 to 3); allowed: 2 [R3.2]",
    "REFUSED 3\n  zero bytes ",
    " (bytes 36 to 39); allowed: 0 [R3.3]",
    " (bytes 84 to 87); allowed: 0 [R3.3]",
    "REFUSED 3\n  side in error ",
    "REFUSED 3\n  on the opening ",
    "REFUSED 3\n  expiry deadline ",
    "REFUSED 3\n  panel already decided ",
    "REFUSED 3\n  buyer's kind ",
    "REFUSED 3\n  seller's kind ",
    "REFUSED 3\n  filing day ",
    "REFUSED 3\n  agreement ",
    " (byte 48); allowed: 0 to 9 or A to Z [R3.4]",
    " (byte 49); allowed: 0 to 9 or A to Z [R3.4]",
    " (byte 50); allowed: 0 to 9 or A to Z [R3.4]",
    " (byte 51); allowed: 0 to 9 or A to Z [R3.4]",
    " (byte 56); allowed: 0 to 9 or A to Z [R3.4]",
    " (byte 57); allowed: 0 to 9 or A to Z [R3.4]",
    " (byte 58); allowed: 0 to 9 or A to Z [R3.4]",
    " (byte 59); allowed: 0 to 9 or A to Z [R3.4]",
    "REFUSED 5\n  execution price none ",
    "REFUSED 5\n  execution price ",
    "REFUSED 5\n  best bid ",
    "REFUSED 5\n  best offer ",
    "REFUSED 5\n  official's price ",
    "REFUSED 5\n  buyer's limit ",
    "REFUSED 5\n  seller's limit ",
    "REFUSED 5\n  agreed price ",
    "REFUSED 5\n  permitted differential ",
    "REFUSED 5\n  permitted differential none ",
    "REFUSED 6\n  contracts 0 ",
    "REFUSED 6\n  contracts ",
    "allowed: 0; the best bid is none (bytes 20 to 23) [R3.6]",
    "allowed: 0 to 1,000,000; the best bid is 0.000 (bytes 20 to 23) [R3.6]",
    "allowed: 1 to 1,000,000; the best bid is ",
    "allowed: 0; the best offer is none (bytes 24 to 27) [R3.6]",
    "allowed: 0 to 1,000,000; the best offer is 0.000 (bytes 24 to 27) [R3.6]",
    "allowed: 1 to 1,000,000; the best offer is ",
    "REFUSED 7\n  execution time ",
    "REFUSED 7\n  filing time ",
    " to 23:59:59; executed at ",
    " (bytes 72 to 75); allowed: 00:00:00 to 23:59:59 [R3.7]",
    "allowed: 23:59:59; executed at 23:59:59 (bytes 16 to 19) [R3.7]",
    "REFUSED 7\n  agreement made ",
    "REFUSED 7\n  agreement made none ",
    "REFUSED 7\n  acceptance ",
    "REFUSED 8\n  buyer's limit ",
    "REFUSED 8\n  seller's limit ",
    "allowed: 0.000 or none; the execution price is 0.000 (bytes 8 to 11) [R3.8]",
    "allowed: 0.000 or more; the agreement is on a price (byte 67) [R3.9]",
    "allowed: none; the agreement is none (byte 67) [R3.9]",
    "allowed: none; the agreement is to nullify (byte 67) [R3.9]",
    "allowed: 0 s; the agreement is none (byte 67) [R3.9]",
    "  careful    the bid ",
    "  careful    the offer ",
    "  careful    the official's price ",
    "  careful    the buyer's limit ",
    "  careful    the seller's limit ",
];

/// Which of [`LINES`] were seen, and how long the longest text was.
#[derive(Default)]
struct Reached {
    seen: Vec<bool>,
    longest: usize,
    cases: u64,
}

impl Reached {
    fn add(&mut self, text: &str) {
        self.seen.resize(LINES.len(), false);
        self.longest = self.longest.max(text.len());
        self.cases += 1;
        for (seen, part) in self.seen.iter_mut().zip(LINES) {
            *seen = *seen || text.contains(part);
        }
    }

    fn missed(&self) -> Vec<&str> {
        let missed = self.seen.iter().zip(LINES).filter(|(seen, _)| !**seen);
        missed.map(|(_, part)| *part).collect()
    }
}

/// The record with one of the five prices that R17.12 looks at so that it is a price read high byte
/// first too, and the execution beside one of the two or between them.
fn readable_both_ways(random: &mut Random, mut fields: Fields) -> Fields {
    let most = random.pick(&[2, 40, 0x98]);
    let bytes = [
        0,
        random.within(0, most) as u8,
        random.within(0, most) as u8,
        0,
    ];
    let (price, turned) = (u32::from_le_bytes(bytes), u32::from_be_bytes(bytes));
    let middle = price.midpoint(turned);
    let beside = random.within(0, 300_000);
    let no_price = random.pick(&[10_000_000, NONE]);
    let execution = random.pick(&[
        fields.execution,
        price,
        turned,
        middle,
        middle + 1,
        middle.saturating_sub(1),
        beside,
        no_price,
    ]);
    match random.within(0, 4) {
        0 => fields.bid = price,
        1 => fields.offer = price,
        2 => fields.official = price,
        3 => fields.buyer_limit = price,
        _ => fields.seller_limit = price,
    }
    if !random.once_in(4) {
        fields.execution = execution;
    }
    fields
}

/// The record filed on the trade date of an execution in the day's last second, a second before it.
fn filed_in_the_last_second(fields: Fields) -> Fields {
    Fields {
        day: 0,
        executed_at: 86_399,
        filed_at: 86_398,
        ..fields
    }
}

/// One to three bytes more, fewer, or changed.
fn damaged(random: &mut Random, record: &[u8]) -> Vec<u8> {
    let mut bytes = record.to_vec();
    match random.within(0, 2) {
        0 => bytes.resize(bytes.len() + random.within(1, 8) as usize, 0),
        1 => bytes.truncate(bytes.len() - random.within(1, 8) as usize),
        _ => {
            for _ in 0..random.within(1, 3) {
                let at = random.within(0, bytes.len() as u32 - 1) as usize;
                bytes[at] = random.word() as u8;
            }
        }
    }
    bytes
}

#[test]
fn the_desks_explain_cases_alike() {
    let mut random = Random::new(settings::seed());
    let mut explaining = Explaining::new(&mut random);
    let mixture = Mixture::default();
    let cases = (settings::cases() / 10).max(FEWEST_CASES);
    while explaining.reached.cases < cases {
        for record in rows::records(&mixture, &mut random) {
            explaining.compare(&record);
            if random.once_in(8) {
                explaining.compare(&damaged(&mut random, &record));
            }
        }
        let wide = random.once_in(2);
        let fields = accepted_of(&mut random, wide);
        let fields = readable_both_ways(&mut random, fields);
        explaining.compare(&fields.encode());
        if random.once_in(50) {
            explaining.compare(&filed_in_the_last_second(fields).encode());
        }
    }
    let Reached { longest, cases, .. } = explaining.reached;
    println!(
        "seed {}: {cases} cases agree, the longest text has {longest} bytes",
        settings::seed()
    );
    let missed = explaining.reached.missed();
    assert!(missed.is_empty(), "not reached: {missed:#?}");
}

#[test]
fn the_desks_explain_the_samples_alike() {
    let mut random = Random::new(settings::seed());
    let mut explaining = Explaining::new(&mut random);
    let samples = Path::new(env!("CARGO_MANIFEST_DIR")).join("../samples");
    for entry in fs::read_dir(samples).expect("the folder samples") {
        let path = entry.expect("an entry of samples").path();
        if path.extension().is_none_or(|kind| kind != "sheet") {
            continue;
        }
        let sheet = fs::read(&path).expect("a sheet");
        let (cases, rest) = cut(&sheet);
        cases.iter().for_each(|case| explaining.compare(case));
        // What is no case, and the whole sheet as if it were one.
        explaining.compare(rest);
        explaining.compare(&sheet);
    }
    assert!(explaining.reached.cases > 140);
}

/// Zeros, chance bytes, and the beginning of a case of either kind, of every length.
#[test]
fn the_desks_explain_short_bytes_alike() {
    let mut random = Random::new(settings::seed());
    let mut explaining = Explaining::new(&mut random);
    let narrow = [Fields::example().encode(), vec![0; 12]].concat();
    let wide = [Fields::example().wide(250).encode(), vec![0; 8]].concat();
    for len in 0..=100 {
        explaining.compare(&vec![0; len]);
        explaining.compare(&vec![255; len]);
        explaining.compare(&narrow[..len]);
        explaining.compare(&wide[..len]);
        for _ in 0..20 {
            let mut bytes = vec![0; len];
            random.fill(&mut bytes);
            explaining.compare(&bytes);
        }
    }
}

/// Every byte of a case of either kind, with every value.
#[test]
fn the_desks_explain_a_changed_byte_alike() {
    let mut random = Random::new(settings::seed());
    let mut explaining = Explaining::new(&mut random);
    for record in [
        Fields::example().encode(),
        Fields::example().wide(250).encode(),
    ] {
        for at in 0..record.len() {
            for byte in 0..=255 {
                let mut changed = record.clone();
                changed[at] = byte;
                explaining.compare(&changed);
            }
        }
    }
}
