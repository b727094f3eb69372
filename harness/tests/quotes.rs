//! The long comparison of the proved and the independent desk on lists of quotes, that it reaches
//! every rule of requests L1 and L8, and what holds of every filled case and of every count.

use std::collections::BTreeSet;

use harness::desk::{self, DeskBest};
use harness::desks::{Plain, Proved, QuoteDesk};
use harness::fast_quotes;
use harness::fields::{encode_list, QuoteFields, NONE};
use harness::lists::{good_list, trade_time, Lists};
use harness::quote_compare::{QuoteComparison, FILLED};
use harness::quote_coverage::QuoteCoverage;
use harness::quote_faults::{Counted, NUMBER_FAULTS};
use harness::quote_stream::quote_stream;
use harness::random::Random;
use harness::settings;

#[test]
fn the_desks_agree_on_a_hundred_thousand_lists() {
    let seed = settings::seed();
    let lists = settings::lists();
    let mut coverage = QuoteCoverage::default();
    quote_stream(&Proved, &Plain, seed, lists, |call| coverage.add(call)).expect("the desks agree");
    println!("seed {seed}: {lists} lists agree\n{coverage}");
    let missing = coverage.missing();
    assert!(missing.is_empty(), "not reached: {missing:?}");
}

/// The bid, the offer and their sizes as they stand in a case.
fn quotes_of(case: &[u8]) -> [u64; 4] {
    let (words, _) = case[FILLED].as_chunks();
    std::array::from_fn(|at| u64::from(u32::from_le_bytes(words[at])))
}

/// A filled case holds what the lookup gives at its execution, is accepted, and is the same when it
/// is filled once more.
#[test]
fn a_filled_case_holds_the_best_quotes_and_is_accepted() {
    let mut random = Random::new(settings::seed());
    let comparison = QuoteComparison::new(&Proved, &Plain);
    let source = Lists::default();
    let mut filled = 0;
    let mut changed = 0;
    for _ in 0..settings::lists() / 5 {
        let list = source.list(&mut random);
        let case = source.case(&mut random, &list);
        let answer = comparison.fill_case(&list, &case).expect("the desks agree");
        let read = desk::check_case(&case);
        if answer.number != 0 {
            // The case is tested before the quotes.
            let best = desk::best_quotes(&list, 0, 0);
            let expected = if read == 0 {
                best.refusal
            } else {
                u64::from(read)
            };
            assert_eq!(u64::from(answer.number), expected);
            continue;
        }
        assert_eq!(read, 0);
        let executed_at = u32::from_le_bytes(*case[16..].first_chunk().expect("88 bytes"));
        let before = desk::quotes_before(&list, executed_at);
        let best = desk::best_quotes(&list, executed_at, before);
        assert_eq!(best.refusal, 0);
        let held = quotes_of(&answer.case);
        assert_eq!(held, [best.bid, best.offer, best.bid_size, best.offer_size]);
        assert_eq!(desk::check_case(&answer.case), 0, "accepted when filled");
        let again = comparison
            .fill_case(&list, &answer.case)
            .expect("the desks agree");
        assert_eq!((again.number, &again.case), (0, &answer.case));
        filled += 1;
        changed += u64::from(answer.case != case);
    }
    assert!(filled > settings::lists() / 10, "{filled} filled");
    assert!(changed > filled / 2, "{changed} of {filled} changed");
}

fn time_of(quote: &[u8; 28]) -> u32 {
    u32::from_le_bytes(*quote[8..].first_chunk().expect("28 bytes"))
}

#[test]
fn quotes_from_the_trades_second_on_have_no_say() {
    let mut random = Random::new(settings::seed());
    let source = Lists::default();
    let mut cut = 0;
    for _ in 0..settings::lists() / 5 {
        let list = source.list(&mut random);
        let trade_time = trade_time(&mut random, &list);
        let (quotes, _) = list.as_chunks();
        let before = quotes.partition_point(|quote| time_of(quote) < trade_time);
        let best = desk::best_quotes(&list, trade_time, before as u64);
        if best.refusal == 0 {
            let earlier = &list[..28 * before];
            assert_eq!(
                desk::best_quotes(earlier, trade_time, before as u64),
                best,
                "{before} of {} quotes",
                quotes.len()
            );
            cut += u64::from(before < quotes.len() && best.bid != u64::from(NONE));
        }
    }
    assert!(cut > settings::lists() / 50, "{cut} lists cut");
}

/// "The one by which all sixteen exchanges are known": those examined are the fewest that have a quote
/// of each exchange, or all before the trade; and the older ones have no say.
#[test]
fn the_fewest_quotes_are_examined_and_no_other_has_a_say() {
    let mut random = Random::new(settings::seed());
    let mut stopped = 0;
    for _ in 0..settings::lists() / 5 {
        let list = encode_list(&good_list(&mut random));
        let trade_time = trade_time(&mut random, &list).min(86_399);
        let before = desk::quotes_before(&list, trade_time);
        let best = desk::best_quotes(&list, trade_time, before);
        assert_eq!(best.refusal, 0);
        let end = 28 * before as usize;
        let examined = &list[end - 28 * best.examined as usize..end];
        let exchanges = |quotes: &[u8]| {
            let (records, _) = quotes.as_chunks();
            let sent = records.iter().map(|it| QuoteFields::decode(it).exchange);
            sent.collect::<BTreeSet<u32>>().len()
        };
        if best.examined < before {
            assert_eq!(exchanges(examined), 16);
            stopped += 1;
        }
        if best.examined > 0 {
            assert!(exchanges(&examined[28..]) < 16);
        }
        assert_eq!(
            desk::best_quotes(examined, trade_time, best.examined),
            best,
            "{} of {before} quotes",
            best.examined
        );
    }
    assert!(stopped > settings::lists() / 500, "{stopped} stopped");
}

/// Of all numbers up to one too many, and of the wrong ones besides.
#[test]
fn one_number_alone_is_accepted() {
    let mut random = Random::new(settings::seed());
    for _ in 0..settings::lists() / 50 {
        let list = encode_list(&good_list(&mut random));
        let trade_time = trade_time(&mut random, &list).min(86_399);
        let right = desk::quotes_before(&list, trade_time);
        let counted = Counted::new(&list, trade_time);
        assert_eq!(right, counted.before);
        let wrong = NUMBER_FAULTS.iter().map(|fault| fault.apply(counted));
        for before in (0..=counted.all + 1).chain(wrong) {
            let best = desk::best_quotes(&list, trade_time, before);
            let refusal = if before == right { 0 } else { 28 };
            assert_eq!(best.refusal, refusal, "{before} for {right}");
        }
    }
}

/// What the benchmark has for the plain lookup is no other lookup.
#[test]
fn the_benchmarks_own_lookup_is_the_same() {
    let mut random = Random::new(settings::seed());
    let source = Lists::default();
    for _ in 0..settings::lists() / 5 {
        let list = source.list(&mut random);
        let trade_time = trade_time(&mut random, &list);
        assert_eq!(
            fast_quotes::quotes_before(&list, trade_time),
            Plain.quotes_before(&list, trade_time)
        );
        let counted = Counted::new(&list, trade_time);
        let wrong = NUMBER_FAULTS.iter().map(|fault| fault.apply(counted));
        for before in wrong.chain([counted.before]) {
            assert_eq!(
                fast_quotes::best_quotes(&list, trade_time, before),
                Plain.best_quotes(&list, trade_time, before)
            );
        }
    }
}

/// Two quotes of one second by different exchanges are in order either way round. Which of them is
/// examined first may change the count, and nothing else.
#[test]
fn exchanges_do_not_take_turns_within_a_second() {
    let mut random = Random::new(settings::seed());
    let mut swapped = 0;
    let mut counted_otherwise = 0;
    for _ in 0..settings::lists() / 5 {
        let mut quotes = good_list(&mut random);
        let list = encode_list(&quotes);
        let trade_time = trade_time(&mut random, &list);
        for at in 1..quotes.len() {
            let (one, other) = (&quotes[at - 1], &quotes[at]);
            if one.time == other.time && one.exchange != other.exchange {
                quotes.swap(at - 1, at);
                swapped += 1;
            }
        }
        let before = desk::quotes_before(&list, trade_time);
        let best = desk::best_quotes(&list, trade_time, before);
        let turned = desk::best_quotes(&encode_list(&quotes), trade_time, before);
        counted_otherwise += u64::from(turned.examined != best.examined);
        let examined = best.examined;
        assert_eq!(DeskBest { examined, ..turned }, best);
    }
    assert!(counted_otherwise > 0);
    assert!(swapped > settings::lists() / 10, "{swapped} swapped");
}
