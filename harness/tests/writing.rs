//! Writing a case of either kind. The library lends no such function: the independent desk is held to
//! the page here, so that what it says of writing has been run.

use harness::accepted::accepted;
use harness::fields::Fields;
use harness::page::{read_case, write_case, Case, Contracts, Form, Mills, Quote, Refusal, Seconds};
use harness::random::Random;
use harness::settings;

/// Read and written, a case comes back byte by byte; written and read, fact by fact. What comes after
/// it is kept.
#[test]
fn a_case_comes_back() {
    let mut random = Random::new(settings::seed());
    for _ in 0..20_000 {
        let record = accepted(&mut random).encode();
        let case = read_case(&record).expect("accepted");
        let mut out = [0xa5; 100];
        assert_eq!(write_case(&case, &mut out), Ok(record.len()));
        assert_eq!(out[..record.len()], record);
        assert!(out[record.len()..].iter().all(|&byte| byte == 0xa5));
        assert_eq!(read_case(&out[..record.len()]), Ok(case));
    }
}

/// "11 in writing asks room for the kind's length", before the facts are looked at.
#[test]
fn room_for_the_kinds_own_length() {
    let narrow = read_case(&Fields::example().encode()).expect("accepted");
    let wide = read_case(&Fields::example().wide(50).encode()).expect("accepted");
    for (case, needed) in [(narrow, 88), (wide, 92)] {
        let bad = Case {
            contracts: Contracts(0),
            ..case
        };
        for len in 0..=120 {
            let mut out = vec![0xa5; len];
            let (expected, expected_bad) = if len < needed {
                (Err(Refusal::AnswerBuffer), Err(Refusal::AnswerBuffer))
            } else {
                (Ok(needed), Err(Refusal::ContractsOrSize))
            };
            assert_eq!(write_case(&bad, &mut out), expected_bad, "{len}");
            assert!(out.iter().all(|&byte| byte == 0xa5), "nothing is written");
            assert_eq!(write_case(&case, &mut out), expected, "{len}");
        }
    }
}

/// "Then 3 to 9 on the facts that it is given": the mark of none in a price's place is no none.
#[test]
fn facts_that_are_refused() {
    let case = read_case(&Fields::example().wide(50).encode()).expect("accepted");
    let price = |mills| Quote {
        price: Mills(mills),
        size: Contracts(1),
    };
    let form = |mills| Form::Kind2 {
        differential: Mills(mills),
    };
    let mut buyer = case.buyer;
    buyer.code = *b"mm01";
    let mut limited = case.buyer;
    limited.limit = Some(Mills(1_999));
    for (number, bad) in [
        (4, Case { buyer, ..case }),
        (
            4,
            Case {
                buyer,
                form: form(0),
                ..case
            },
        ),
        (
            5,
            Case {
                form: form(0),
                ..case
            },
        ),
        (
            5,
            Case {
                form: form(10_000_000),
                ..case
            },
        ),
        (
            5,
            Case {
                form: form(u32::MAX),
                ..case
            },
        ),
        (
            5,
            Case {
                form: form(0),
                contracts: Contracts(0),
                ..case
            },
        ),
        (
            5,
            Case {
                execution: Mills(u32::MAX),
                ..case
            },
        ),
        (
            5,
            Case {
                bid: Some(price(u32::MAX)),
                ..case
            },
        ),
        (
            5,
            Case {
                official: Some(Mills(10_000_000)),
                ..case
            },
        ),
        (
            6,
            Case {
                contracts: Contracts(1_000_001),
                ..case
            },
        ),
        (
            6,
            Case {
                offer: Some(Quote {
                    size: Contracts(0),
                    ..price(1)
                }),
                ..case
            },
        ),
        (
            7,
            Case {
                accepted_after: Some(Seconds(u32::MAX)),
                ..case
            },
        ),
        (
            7,
            Case {
                filed_at: Seconds(0),
                ..case
            },
        ),
        (
            8,
            Case {
                buyer: limited,
                ..case
            },
        ),
    ] {
        let mut out = [0xa5; 92];
        let refusal = write_case(&bad, &mut out).expect_err("refused");
        assert_eq!(refusal.number(), number, "{bad:?}");
        assert_eq!(out, [0xa5; 92]);
    }
}
