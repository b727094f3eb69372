//! Every length of a list of quotes and of a case to be filled, every fault of a quote in every
//! place, and NULL beside a length of 0.

use harness::desks::{Plain, Proved, ProvedOnNull};
use harness::fields::{encode_list, Fields, QuoteFields, NONE};
use harness::lists::{list_of, trade_time, Lists};
use harness::quote_compare::QuoteComparison;
use harness::quote_faults::{quote_faults, Counted, NUMBER_FAULTS};
use harness::random::Random;
use harness::settings;

/// What a lookup with the right number and filling a good case give; the two must be alike. A wrong
/// number is refused 28, but where something else is; of what is refused no number is told.
fn refusal(comparison: &QuoteComparison, list: &[u8]) -> u64 {
    let counted = Counted::new(list, 34_200);
    let looked_up = |before| {
        let best = comparison.best_quotes(list, 34_200, before);
        best.expect("the desks agree").refusal
    };
    let refusal = looked_up(counted.before);
    let filled = comparison.fill_case(list, &Fields::example().encode());
    assert_eq!(
        refusal,
        u64::from(filled.expect("the desks agree").number),
        "list of {} bytes",
        list.len()
    );
    let wrong = if refusal == 0 { 28 } else { refusal };
    assert_eq!(looked_up(counted.before + 1), wrong);
    assert_eq!(looked_up(counted.before.wrapping_sub(1)), wrong);
    let told = comparison.quotes_before(list, 34_200);
    let number = if refusal == 0 { counted.before } else { 0 };
    assert_eq!(told.expect("the desks agree"), number);
    refusal
}

#[test]
fn lists_of_every_small_length() {
    let comparison = QuoteComparison::new(&Proved, &Plain);
    let mut random = Random::new(settings::seed());
    let good = encode_list(&list_of(&mut random, 8));
    let mut noise = good.clone();
    random.fill(&mut noise);
    for len in 0..=good.len() {
        let whole = len % 28 == 0;
        assert_eq!(
            refusal(&comparison, &good[..len]),
            if whole { 0 } else { 20 }
        );
        let expected = match (len, whole) {
            (0, _) => 0,
            (_, true) => 21,
            (_, false) => 20,
        };
        assert_eq!(refusal(&comparison, &noise[..len]), expected);
    }
}

#[test]
fn lists_of_2_000_and_2_001_quotes() {
    let comparison = QuoteComparison::new(&Proved, &Plain);
    let mut random = Random::new(settings::seed());
    for _ in 0..10 {
        let list = encode_list(&list_of(&mut random, 2_002));
        for (len, expected) in [
            (28 * 1_999, 0),
            (28 * 2_000 - 1, 20),
            (28 * 2_000, 0),
            (28 * 2_000 + 1, 20),
            (28 * 2_001, 20),
            (28 * 2_002, 20),
        ] {
            assert_eq!(refusal(&comparison, &list[..len]), expected, "{len} bytes");
        }
        for _ in 0..40 {
            let time = trade_time(&mut random, &list);
            let list = &list[..56_000];
            let counted = Counted::new(list, time);
            let wrong = NUMBER_FAULTS.iter().map(|fault| fault.apply(counted));
            for before in wrong.chain([counted.before]) {
                comparison
                    .best_quotes(list, time, before)
                    .expect("the desks agree");
            }
            comparison
                .quotes_before(list, time)
                .expect("the desks agree");
        }
    }
}

/// In the first, the last and a middle quote, of lists of 1, 2, 16 and 2,000.
#[test]
fn each_fault_is_refused_21_in_every_place() {
    let comparison = QuoteComparison::new(&Proved, &Plain);
    let mut random = Random::new(settings::seed());
    for count in [1, 2, 16, 2_000] {
        let good = list_of(&mut random, count);
        assert_eq!(refusal(&comparison, &encode_list(&good)), 0);
        for fault in quote_faults() {
            for at in [0, count / 2, count - 1] {
                let mut quotes = good.clone();
                fault.apply(&mut quotes[at]);
                let list = encode_list(&quotes);
                assert_eq!(
                    refusal(&comparison, &list),
                    21,
                    "{}, quote {at} of {count}",
                    fault.name
                );
                let late = comparison.best_quotes(&list, NONE, 0);
                assert_eq!(late.expect("the desks agree").refusal, 21);
            }
        }
    }
}

/// Every pair of neighbours, and a time of the first quote after the last one's.
#[test]
fn times_going_back_anywhere_are_refused_22() {
    let comparison = QuoteComparison::new(&Proved, &Plain);
    for count in [2, 3, 16, 300] {
        let good: Vec<QuoteFields> = (0..count)
            .map(|index| QuoteFields {
                time: 100 + index / 2,
                exchange: 1 + index % 16,
                ..QuoteFields::example()
            })
            .collect();
        assert_eq!(refusal(&comparison, &encode_list(&good)), 0);
        for at in 1..good.len() {
            let mut quotes = good.clone();
            quotes[at].time = quotes[at - 1].time - 1;
            assert_eq!(
                refusal(&comparison, &encode_list(&quotes)),
                22,
                "quote {at}"
            );
        }
        let mut quotes = good;
        quotes[0].time = 86_399;
        assert_eq!(refusal(&comparison, &encode_list(&quotes)), 22);
    }
}

/// Good records cut or repeated, and noise, beside good and bad lists.
#[test]
fn cases_of_every_length() {
    let comparison = QuoteComparison::new(&Proved, &Plain);
    let mut random = Random::new(settings::seed());
    let good = encode_list(&list_of(&mut random, 5));
    let mut bad = good.clone();
    bad[4] = 0;
    let lists = [(&[][..], 0), (&good, 0), (&good[1..], 20), (&bad, 21)];
    let kinds = [Fields::example(), Fields::example().wide(1)].map(|case| case.encode());
    for len in 0..=200 {
        let mut noise = vec![0; len];
        random.fill(&mut noise);
        for (list, number) in lists {
            for record in &kinds {
                let repeated: Vec<u8> = record.iter().copied().cycle().take(len).collect();
                let filled = comparison
                    .fill_case(list, &repeated)
                    .expect("the desks agree");
                let expected = match len {
                    _ if len == record.len() => number,
                    88 | 92 => 2,
                    _ => 1,
                };
                assert_eq!(filled.number, expected, "{len} bytes");
            }
            let refused = comparison.fill_case(list, &noise).expect("the desks agree");
            assert_eq!(refused.number, if let 88 | 92 = len { 2 } else { 1 });
        }
    }
}

/// Every byte of the record changed, so that each test of reading is failed in some place.
#[test]
fn cases_damaged_in_every_byte() {
    let comparison = QuoteComparison::new(&Proved, &Plain);
    let mut random = Random::new(settings::seed());
    let source = Lists::default();
    for good in [Fields::example(), Fields::example().wide(50)].map(|case| case.encode()) {
        for at in 0..good.len() {
            for byte in 0..=255 {
                let mut case = good.clone();
                case[at] = byte;
                let list = source.list(&mut random);
                comparison.fill_case(&list, &case).expect("the desks agree");
            }
        }
    }
}

/// Lists of every length up to 40 by sixteen exchanges in turn, each looked up at every second with
/// every number: the last sixteen before the trade are examined, or all if they are fewer.
#[test]
fn every_number_at_every_trade() {
    let comparison = QuoteComparison::new(&Proved, &Plain);
    let quotes: Vec<QuoteFields> = (0..40)
        .map(|index| QuoteFields {
            time: 100 + index,
            exchange: 1 + index * 5 % 16,
            ..QuoteFields::example()
        })
        .collect();
    for all in 0..=40 {
        let list = encode_list(&quotes[..all as usize]);
        for trade_time in 99..=141 {
            let right = u64::from((trade_time - 100.min(trade_time)).min(all));
            let told = comparison.quotes_before(&list, trade_time);
            assert_eq!(told.expect("the desks agree"), right);
            for before in 0..=u64::from(all) + 1 {
                let best = comparison
                    .best_quotes(&list, trade_time, before)
                    .expect("the desks agree");
                let expected = if before == right {
                    (0, right.min(16))
                } else {
                    (28, 0)
                };
                assert_eq!((best.refusal, best.examined), expected);
            }
        }
    }
}

#[test]
fn null_beside_a_length_of_0() {
    let comparison = QuoteComparison::new(&ProvedOnNull, &Plain);
    let record = Fields::example().encode();
    let wide = Fields::example().wide(50).encode();
    let list = QuoteFields::example().encode();
    for (quotes, case, number) in [
        (&[][..], &[][..], 1),
        (&list, &[], 1),
        (&[], &record, 0),
        (&list, &record, 0),
        (&[], &wide, 0),
        (&list, &wide, 0),
    ] {
        let filled = comparison.fill_case(quotes, case).expect("the desks agree");
        assert_eq!(filled.number, number);
        let before = quotes.len() as u64 / 28;
        let told = comparison.quotes_before(quotes, 34_200);
        assert_eq!(told.expect("the desks agree"), before);
        let best = comparison.best_quotes(quotes, 34_200, before);
        let best = best.expect("the desks agree");
        assert_eq!((best.refusal, best.examined), (0, before));
        let wrong = comparison.best_quotes(quotes, 34_200, before + 1);
        assert_eq!(wrong.expect("the desks agree").refusal, 28);
    }
    for before in [0, 1] {
        let late = comparison.best_quotes(&[], 86_400, before);
        assert_eq!(late.expect("the desks agree").refusal, 23);
    }
    let told = comparison.quotes_before(&[], 86_400);
    assert_eq!(told.expect("the desks agree"), 0);
}
