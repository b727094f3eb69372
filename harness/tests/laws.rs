//! "Laws the counter relies on", tried on the answers of the proved desk over cases of both kinds;
//! those of TP's origin (request L3); and the round trip of a record's fields. Those of wide quotes are
//! in `wide_laws`.

use harness::accepted::accepted;
use harness::desk::TEXT_BYTES;
use harness::desks::{Desk, Proved};
use harness::fields::{Fields, RulingFields, NONE};
use harness::mixture::Mixture;
use harness::page::{band, Mills};
use harness::random::Random;
use harness::settings;

const TRIES: usize = 100_000;

fn u32_at(bytes: &[u8], at: usize) -> u32 {
    u32::from_le_bytes(*bytes[at..].first_chunk().expect("four bytes"))
}

/// The independent desk's table over every TP.
#[test]
fn every_catastrophic_error_is_an_obvious_one() {
    for tp in 0..=9_999_999 {
        let band = band(Mills(tp));
        assert!(band.obvious_minimum <= band.catastrophic, "TP {tp}");
    }
}

#[test]
fn a_new_price_lies_between_tp_and_execution() {
    let mut random = Random::new(settings::seed());
    let mut answer = [0; 96];
    let mut seen = 0;
    for _ in 0..TRIES {
        let fields = accepted(&mut random);
        assert_eq!(Proved.rule_case(&fields.encode(), &mut answer), 0);
        if (6..=9).contains(&answer[9]) {
            let (tp, price) = (u32_at(&answer, 12), u32_at(&answer, 16));
            let (low, high) = (tp.min(fields.execution), tp.max(fields.execution));
            assert!((low..=high).contains(&price), "\n{fields}");
            seen += 1;
        }
    }
    assert!(seen > TRIES / 100);
}

#[test]
fn contracts_sum_to_those_traded() {
    let mut random = Random::new(settings::seed());
    let mut answer = [0; 96];
    for _ in 0..TRIES {
        let fields = accepted(&mut random);
        assert_eq!(Proved.rule_case(&fields.encode(), &mut answer), 0);
        let sum: u32 = [20, 24, 28].map(|at| u32_at(&answer, at)).iter().sum();
        assert_eq!(sum, fields.contracts, "\n{fields}");
    }
}

/// The origin is 0 exactly where TP is none, 1 exactly where TP is the quote of the side in error, 2
/// exactly where that quote is none, or the quotes are wide, and TP is the official's price.
#[test]
fn the_origin_says_what_gave_tp() {
    let mut random = Random::new(settings::seed());
    let mut answer = [0; 96];
    let mut seen = [0; 3];
    for _ in 0..TRIES {
        let fields = accepted(&mut random);
        assert_eq!(Proved.rule_case(&fields.encode(), &mut answer), 0);
        let ruling = RulingFields::of_answer(&answer);
        let quote = match fields.own_quote() {
            _ if fields.is_wide() => NONE,
            (quote, _) => quote,
        };
        let (tp, origin) = (ruling.tp, ruling.origin);
        assert_eq!(origin == 0, tp == NONE, "\n{fields}{ruling}");
        assert_eq!(
            origin == 1,
            quote != NONE && tp == quote,
            "\n{fields}{ruling}"
        );
        assert_eq!(
            origin == 2,
            quote == NONE && tp != NONE && tp == fields.official,
            "\n{fields}{ruling}"
        );
        assert_eq!(
            origin == 0,
            [2, 3, 14].contains(&ruling.reason),
            "\n{fields}{ruling}"
        );
        assert_eq!(ruling.zero_11, 0, "\n{fields}{ruling}");
        seen[usize::from(origin)] += 1;
    }
    assert!(seen.iter().all(|&cases| cases > TRIES / 100), "{seen:?}");
}

/// The case with another quote of the side in error, of that price and size.
fn with_own_quote(price: u32, size: u32, fields: &Fields) -> Fields {
    let mut fields = fields.clone();
    if fields.side == 1 {
        (fields.offer, fields.offer_size) = (price, size);
    } else {
        (fields.bid, fields.bid_size) = (price, size);
    }
    fields
}

/// Where the same price is once a quote for every contract and once an official's, the answers are
/// alike but for byte 10 of the ruling: no notice tells the origin.
#[test]
fn the_origin_is_told_in_byte_10_of_the_ruling_alone() {
    let mut random = Random::new(settings::seed());
    let (mut quoted, mut official) = ([0; 96], [0; 96]);
    let mut told = 0;
    for _ in 0..TRIES {
        let fields = accepted(&mut random);
        let price = match fields.own_quote() {
            (NONE, _) => fields.official,
            (price, _) => price,
        };
        if price == NONE {
            continue;
        }
        let by_quote = with_own_quote(price, fields.contracts, &fields);
        if by_quote.is_wide() {
            continue;
        }
        let by_official = Fields {
            official: price,
            ..with_own_quote(NONE, 0, &fields)
        };
        assert_eq!(Proved.rule_case(&by_quote.encode(), &mut quoted), 0);
        assert_eq!(Proved.rule_case(&by_official.encode(), &mut official), 0);
        let origins = if [2, 3].contains(&quoted[9]) {
            (0, 0)
        } else {
            told += 1;
            (1, 2)
        };
        assert_eq!((quoted[10], official[10]), origins, "\n{fields}");
        assert_eq!(quoted[..10], official[..10], "\n{fields}");
        assert_eq!(quoted[11..], official[11..], "\n{fields}");
    }
    assert!(told > TRIES / 3);
}

/// The answers of a sheet, one by one, without the index of refused ones.
fn answers(sheet: &[u8]) -> Vec<Vec<u8>> {
    let mut out = vec![0; sheet.len() / 88 * 96];
    let counts = Proved.rule_sheet(sheet, &mut out);
    assert_eq!(counts.refusal, 0);
    let written = counts.written as usize;
    let mut rest = &out[..written];
    let mut answers = Vec::new();
    while let [length, ..] = rest {
        let len = if *length == 12 { 12 } else { 96 };
        let (answer, after) = rest.split_at(len);
        if len == 12 {
            assert_eq!(u32_at(answer, 4) as usize, answers.len(), "index");
            assert!((3..=9).contains(&answer[8]), "refusal {}", answer[8]);
            answers.push([&answer[..4], &answer[8..]].concat());
        } else {
            answers.push(answer.to_vec());
        }
        rest = after;
    }
    answers
}

#[test]
fn reordering_a_sheet_reorders_the_answers() {
    let mut random = Random::new(settings::seed());
    let mixture = Mixture::default();
    for _ in 0..200 {
        let count = random.within(0, 60) as usize;
        let cases = mixture.row(&mut random, count);
        let mut order: Vec<usize> = (0..cases.len()).collect();
        random.shuffle(&mut order);
        let reordered: Vec<Vec<u8>> = order.iter().map(|&at| cases[at].clone()).collect();
        let before = answers(&cases.concat());
        let after = answers(&reordered.concat());
        let expected: Vec<Vec<u8>> = order.iter().map(|&at| before[at].clone()).collect();
        assert_eq!(after, expected);
    }
}

/// The last of a ruled case's nine fields is its ruling's byte 10; no other line has a field more.
#[test]
fn the_origin_is_printed_as_the_ruling_has_it() {
    let mut random = Random::new(settings::seed());
    let mixture = Mixture::default();
    let mut text = [0; TEXT_BYTES];
    for _ in 0..200 {
        let count = random.within(0, 60) as usize;
        let sheet = mixture.row(&mut random, count).concat();
        let len = Proved.print_sheet(&sheet, &mut text) as usize;
        let report = str::from_utf8(&text[..len]).expect("text");
        let lines: Vec<Vec<&str>> = report
            .lines()
            .map(|line| line.split(' ').collect())
            .collect();
        let [header, lines @ .., end] = &lines[..] else {
            panic!("no header or no END:\n{report}");
        };
        assert_eq!((header.len(), header.last()), (9, Some(&"FROM")));
        assert_eq!((end.len(), end[0]), (3, "END"));
        let answers = answers(&sheet);
        assert_eq!(lines.len(), answers.len());
        for (line, answer) in lines.iter().zip(&answers) {
            if answer.len() == 96 {
                let origin = answer[10].to_string();
                assert_eq!((line.len(), line.last()), (9, Some(&&*origin)));
            } else {
                assert_eq!((line.len(), line[1]), (3, "REFUSED"));
            }
        }
    }
}

#[test]
fn fields_are_read_back_as_they_were_written() {
    let mut random = Random::new(settings::seed());
    let mixture = Mixture::default();
    for _ in 0..TRIES {
        let record = mixture.record(&mut random);
        let fields = Fields::decode(&record);
        assert_eq!(fields.encode(), record);
        assert_eq!(fields.turned().turned(), fields);
    }
}
