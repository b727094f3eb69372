//! Requests L1 and L8 of document 02, worked out by hand, on both desks: equality alone would not see
//! an error that the two share.

use harness::desk::{self, DeskBest};
use harness::desks::{Plain, Proved};
use harness::fields::{encode_list, Fields, QuoteFields, NONE};
use harness::quote_compare::QuoteComparison;

/// A price and a size, or none.
const NOTHING: (u32, u32) = (NONE, 0);

/// A quote of that exchange and second: the bid and the offer, each with its size.
fn quote(exchange: u32, time: u32, bid: (u32, u32), offer: (u32, u32)) -> QuoteFields {
    QuoteFields {
        length: 28,
        kind: 32,
        exchange,
        time,
        bid: bid.0,
        offer: offer.0,
        bid_size: bid.1,
        offer_size: offer.1,
    }
}

/// What a lookup gives with that number of quotes before the trade.
fn looked_up(quotes: &[QuoteFields], trade_time: u32, before: u64) -> DeskBest {
    QuoteComparison::new(&Proved, &Plain)
        .best_quotes(&encode_list(quotes), trade_time, before)
        .expect("the desks agree")
}

/// The number of quotes before the trade.
fn told(quotes: &[QuoteFields], trade_time: u32) -> u64 {
    QuoteComparison::new(&Proved, &Plain)
        .quotes_before(&encode_list(quotes), trade_time)
        .expect("the desks agree")
}

/// The best bid and the best offer, each with its size, and how many quotes were examined; so many
/// are before the trade.
fn best(quotes: &[QuoteFields], trade_time: u32, before: u64) -> ([(u32, u32); 2], u64) {
    assert_eq!(told(quotes, trade_time), before);
    let best = looked_up(quotes, trade_time, before);
    assert_eq!(best.refusal, 0);
    let sides = [(best.bid, best.bid_size), (best.offer, best.offer_size)];
    (
        sides.map(|(price, size)| (price as u32, size as u32)),
        best.examined,
    )
}

/// How many quotes were examined of so many before the trade.
fn examined(quotes: &[QuoteFields], trade_time: u32, before: u64) -> u64 {
    best(quotes, trade_time, before).1
}

/// The number of the refusal, beside which there is nothing.
fn refused(quotes: &[QuoteFields], trade_time: u32, before: u64) -> u64 {
    let best = looked_up(quotes, trade_time, before);
    let none = u64::from(NONE);
    assert_eq!(
        (best.bid, best.offer, best.bid_size, best.offer_size),
        (none, none, 0, 0)
    );
    assert_eq!(best.examined, 0);
    best.refusal
}

#[test]
fn no_quote_at_all() {
    for trade_time in [0, 1, 34_200, 86_399] {
        assert_eq!(best(&[], trade_time, 0), ([NOTHING, NOTHING], 0));
    }
}

/// "Strictly before the trade."
#[test]
fn a_quote_counts_from_the_second_after_it() {
    let list = [quote(1, 34_190, (1_000, 10), (1_100, 20))];
    let found = ([(1_000, 10), (1_100, 20)], 1);
    assert_eq!(best(&list, 0, 0), ([NOTHING, NOTHING], 0));
    assert_eq!(best(&list, 34_189, 0), ([NOTHING, NOTHING], 0));
    assert_eq!(best(&list, 34_190, 0), ([NOTHING, NOTHING], 0));
    assert_eq!(best(&list, 34_191, 1), found);
    assert_eq!(best(&list, 86_399, 1), found);
}

/// A quote of the day's first second counts for every later trade, one of its last for none.
#[test]
fn the_ends_of_the_day() {
    let list = [
        quote(1, 0, (1_000, 10), (1_100, 20)),
        quote(2, 86_399, (1_001, 1), (1_099, 2)),
    ];
    let found = ([(1_000, 10), (1_100, 20)], 1);
    assert_eq!(best(&list, 0, 0), ([NOTHING, NOTHING], 0));
    assert_eq!(best(&list, 1, 1), found);
    assert_eq!(best(&list, 86_399, 1), found);
}

/// "The best bid is the highest bid among those, its size the sum of sizes at that price; the offer
/// likewise with the lowest."
#[test]
fn the_highest_bid_and_the_lowest_offer_with_the_sizes_at_that_price() {
    let list = [
        quote(1, 100, (1_000, 10), (1_100, 20)),
        quote(2, 100, (1_010, 7), (1_100, 5)),
        quote(3, 101, (1_010, 8), (1_090, 3)),
        quote(16, 101, (990, 100), (1_090, 4)),
    ];
    // Bids 1,000, 1,010, 1,010 and 990; offers 1,100, 1,100, 1,090 and 1,090.
    assert_eq!(best(&list, 102, 4), ([(1_010, 15), (1_090, 7)], 4));
    // The second before, exchanges 3 and 16 have sent nothing: offers 1,100 of 20 and of 5.
    assert_eq!(best(&list, 101, 2), ([(1_010, 7), (1_100, 25)], 2));
}

/// "Each exchange's last quote": a better one before it is gone.
#[test]
fn only_the_last_quote_of_an_exchange_counts() {
    let list = [
        quote(1, 100, (2_000, 50), (2_001, 60)),
        quote(2, 110, (1_500, 3), (2_500, 4)),
        quote(1, 120, (1_000, 1), (3_000, 2)),
    ];
    assert_eq!(best(&list, 120, 2), ([(2_000, 50), (2_001, 60)], 2));
    // The overtaken one is examined all the same: fewer than sixteen exchanges are known.
    assert_eq!(best(&list, 121, 3), ([(1_500, 3), (2_500, 4)], 3));
}

/// Equal times are in order, and of two quotes of one exchange in one second the later record is
/// its last.
#[test]
fn of_one_second_the_later_record_is_the_last() {
    let high = quote(1, 100, (2_000, 50), (2_001, 60));
    let low = quote(1, 100, (1_000, 1), (3_000, 2));
    let both = [high.clone(), low.clone()];
    assert_eq!(best(&both, 101, 2), ([(1_000, 1), (3_000, 2)], 2));
    let turned = [low, high];
    assert_eq!(best(&turned, 101, 2), ([(2_000, 50), (2_001, 60)], 2));
    assert_eq!(best(&both, 100, 0), ([NOTHING, NOTHING], 0));
}

/// "An exchange that last sent none has no say": side by side, and no older quote of it has.
#[test]
fn none_says_nothing_on_its_side_and_revives_nothing() {
    let before = quote(1, 100, (2_000, 50), (2_001, 60));
    let none = quote(1, 110, NOTHING, NOTHING);
    let no_bid = quote(1, 110, NOTHING, (2_100, 9));
    let no_offer = quote(1, 110, (1_900, 8), NOTHING);
    let other = quote(2, 105, (1_000, 1), (3_000, 2));

    let alone = |last: &QuoteFields| best(&[before.clone(), last.clone()], 111, 2);
    assert_eq!(alone(&none), ([NOTHING, NOTHING], 2));
    assert_eq!(alone(&no_bid), ([NOTHING, (2_100, 9)], 2));
    assert_eq!(alone(&no_offer), ([(1_900, 8), NOTHING], 2));

    let beside = |last: &QuoteFields| best(&[before.clone(), other.clone(), last.clone()], 111, 3);
    assert_eq!(beside(&none), ([(1_000, 1), (3_000, 2)], 3));
    assert_eq!(beside(&no_bid), ([(1_000, 1), (2_100, 9)], 3));
    assert_eq!(beside(&no_offer), ([(1_900, 8), (3_000, 2)], 3));

    // In the trade's own second the none is not there yet.
    let found = ([(2_000, 50), (2_001, 60)], 1);
    assert_eq!(best(&[before, none], 110, 1), found);
}

/// A quote of zero is a quote: the lowest offer, and a bid where there is no higher one.
#[test]
fn zero_is_a_price() {
    let list = [
        quote(1, 100, (0, 0), (0, 0)),
        quote(2, 100, (0, 5), (1_000, 10)),
        quote(3, 100, NOTHING, (0, 3)),
    ];
    assert_eq!(best(&list, 101, 3), ([(0, 5), (0, 3)], 3));
    assert_eq!(best(&list[..1], 101, 1), ([(0, 0), (0, 0)], 1));
    let with_a_bid = [list[0].clone(), quote(2, 100, (1, 5), NOTHING)];
    assert_eq!(best(&with_a_bid, 101, 2), ([(1, 5), (0, 0)], 2));
}

/// "A sum above 1,000,000 is given as 1,000,000."
#[test]
fn a_sum_is_given_as_1_000_000_at_most() {
    let sums = |sizes: &[(u32, u32)]| {
        let list: Vec<QuoteFields> = (1..)
            .zip(sizes)
            .map(|(exchange, &(bid, offer))| quote(exchange, 100, (2_000, bid), (2_010, offer)))
            .collect();
        let all = list.len() as u64;
        let (found, examined) = best(&list, 101, all);
        assert_eq!(examined, all);
        found.map(|(_, size)| size)
    };
    assert_eq!(sums(&[(1_000_000, 1)]), [1_000_000, 1]);
    assert_eq!(
        sums(&[(999_999, 500_000), (1, 499_999)]),
        [1_000_000, 999_999]
    );
    assert_eq!(
        sums(&[(999_999, 500_000), (2, 500_001)]),
        [1_000_000, 1_000_000]
    );
    assert_eq!(
        sums(&[(400_000, 300_000), (400_000, 300_000), (400_000, 300_000)]),
        [1_000_000, 900_000]
    );
    assert_eq!(sums(&[(1_000_000, 62_500); 16]), [1_000_000, 1_000_000]);
    assert_eq!(sums(&[(62_499, 62_501); 16]), [999_984, 1_000_000]);
}

/// A size at another price is not in the sum, whichever exchange came first.
#[test]
fn a_worse_price_adds_nothing() {
    let best_first = [
        quote(5, 100, (2_000, 600_000), (2_010, 600_000)),
        quote(6, 100, (1_999, 600_000), (2_011, 600_000)),
    ];
    let [one, other] = best_first.clone();
    let found = ([(2_000, 600_000), (2_010, 600_000)], 2);
    assert_eq!(best(&best_first, 101, 2), found);
    assert_eq!(best(&[other, one], 101, 2), found);
}

/// Bid and offer are found by themselves: they may cross.
#[test]
fn a_crossed_market_is_given_as_it_is() {
    let list = [
        quote(1, 100, (3_000, 10), (3_100, 20)),
        quote(2, 100, (1_000, 30), (1_100, 40)),
    ];
    assert_eq!(best(&list, 101, 2), ([(3_000, 10), (1_100, 40)], 2));
}

/// Every exchange from 1 to 16, with a size of its own.
#[test]
fn sixteen_exchanges() {
    let mut list: Vec<QuoteFields> = (1..=16)
        .map(|exchange| quote(exchange, 100, (2_000, 1 << exchange), (2_010, exchange)))
        .collect();
    // 2 + 4 + .. + 65,536, and 1 + 2 + .. + 16.
    assert_eq!(best(&list, 101, 16), ([(2_000, 131_070), (2_010, 136)], 16));
    for exchange in 1..=16 {
        list.push(quote(exchange, 101, NOTHING, (9_999_999, 1)));
        let left = 131_070 - ((2 << exchange) - 2);
        let bid = if left == 0 { NOTHING } else { (2_000, left) };
        // Exchanges 1 to this one by their second quotes, the others by their first: sixteen.
        let ([found, _], examined) = best(&list, 102, 16 + u64::from(exchange));
        assert_eq!(found, bid, "without exchanges 1 to {exchange}");
        assert_eq!(examined, 16, "without exchanges 1 to {exchange}");
    }
    assert_eq!(best(&list, 102, 32), ([NOTHING, (9_999_999, 16)], 16));
}

#[test]
fn each_refusal() {
    let good = quote(1, 100, (1_000, 10), (1_100, 20));
    let earlier = quote(2, 99, (1_000, 10), (1_100, 20));
    let bad = quote(17, 100, (1_000, 10), (1_100, 20));
    let comparison = QuoteComparison::new(&Proved, &Plain);
    let mut bytes = encode_list(&[good.clone()]);
    bytes.push(0);
    let ragged = comparison.best_quotes(&bytes, 101, 1);
    assert_eq!(ragged.expect("the desks agree").refusal, 20);
    assert_eq!(refused(&vec![good.clone(); 2_001], 101, 2_001), 20);
    assert_eq!(refused(&[bad], 101, 1), 21);
    assert_eq!(refused(&[good.clone(), earlier], 101, 2), 22);
    assert_eq!(refused(&[good.clone()], 86_400, 1), 23);
    assert_eq!(refused(&[good.clone()], NONE, 1), 23);
    assert_eq!(refused(&[], 86_400, 0), 23);
    assert_eq!(refused(&[good], 101, 2), 28);
}

/// "In that order": each test on the whole list before the next.
#[test]
fn the_first_test_that_fails_is_told() {
    let good = quote(1, 100, (1_000, 10), (1_100, 20));
    let earlier = quote(2, 99, (1_000, 10), (1_100, 20));
    let bad = quote(0, 100, (1_000, 10), (1_100, 20));
    let back_then_bad = [good.clone(), earlier.clone(), bad.clone()];
    assert_eq!(refused(&back_then_bad, 101, 3), 21);
    assert_eq!(refused(&back_then_bad, NONE, 3), 21);
    let bad_then_back = [bad.clone(), good.clone(), earlier.clone()];
    assert_eq!(refused(&bad_then_back, 101, 3), 21);
    assert_eq!(refused(&[good.clone(), earlier], 86_400, 2), 22);
    // Quotes after the trade are tested too.
    assert_eq!(refused(&[good.clone(), bad.clone()], 50, 0), 21);
    assert_eq!(refused(&[bad], 0, 0), 21);
    let later = [quote(1, 200, NOTHING, NOTHING), good];
    assert_eq!(refused(&later, 50, 0), 22);
    let mut bytes = encode_list(&back_then_bad);
    bytes.truncate(83);
    let comparison = QuoteComparison::new(&Proved, &Plain);
    let cut = comparison.best_quotes(&bytes, NONE, 2);
    assert_eq!(cut.expect("the desks agree").refusal, 20);
}

/// "28 that number is wrong."
#[test]
fn a_wrong_number_is_refused_28() {
    let list = [
        quote(1, 100, (1_000, 10), (1_100, 20)),
        quote(2, 100, (1_000, 10), (1_100, 20)),
        quote(1, 101, (1_000, 10), (1_100, 20)),
    ];
    // At 100 none is before the trade, at 101 two are, at 102 all three.
    for (trade_time, right) in [(0, 0), (100, 0), (101, 2), (102, 3), (86_399, 3)] {
        assert_eq!(examined(&list, trade_time, right), right);
        for wrong in [0, 1, 2, 3, 4, 28, 56, 84, 2_000, u64::MAX, u64::MAX - 1] {
            if wrong != right {
                assert_eq!(refused(&list, trade_time, wrong), 28, "{wrong}");
            }
        }
        // The right number in its lower bits alone.
        for bit in [8, 16, 31, 32, 48, 63] {
            let wrong = right + (1 << bit);
            assert_eq!(refused(&list, trade_time, wrong), 28, "{wrong}");
        }
    }
    assert_eq!(examined(&[], 100, 0), 0);
    assert_eq!(refused(&[], 100, 1), 28);
    assert_eq!(refused(&[], 0, u64::MAX), 28);
}

/// "28 .., after 23", which is after the others.
#[test]
fn a_wrong_number_is_told_last() {
    let good = quote(1, 100, (1_000, 10), (1_100, 20));
    let earlier = quote(2, 99, (1_000, 10), (1_100, 20));
    let bad = quote(0, 100, (1_000, 10), (1_100, 20));
    let comparison = QuoteComparison::new(&Proved, &Plain);
    let bytes = encode_list(&[good.clone(), good.clone()]);
    for before in [0, 1, 2, 3, 2_000, 2_001, 1 << 32, u64::MAX] {
        let cut = comparison.best_quotes(&bytes[..55], 101, before);
        assert_eq!(cut.expect("the desks agree").refusal, 20);
        assert_eq!(refused(&vec![good.clone(); 2_001], 101, before), 20);
        assert_eq!(refused(&[good.clone(), bad.clone()], 101, before), 21);
        assert_eq!(refused(&[good.clone(), earlier.clone()], 101, before), 22);
        assert_eq!(refused(&[good.clone(), good.clone()], 86_400, before), 23);
        assert_eq!(refused(&[], NONE, before), 23);
    }
}

/// The number of quotes before a trade, told: 0 where something is refused, though there are some.
#[test]
fn no_number_is_told_of_what_is_refused() {
    let good = quote(1, 100, (1_000, 10), (1_100, 20));
    let earlier = quote(2, 99, (1_000, 10), (1_100, 20));
    let bad = quote(0, 100, (1_000, 10), (1_100, 20));
    assert_eq!(told(&[], 0), 0);
    assert_eq!(told(&[good.clone()], 100), 0);
    assert_eq!(told(&[good.clone()], 101), 1);
    assert_eq!(told(&[earlier.clone(), good.clone()], 100), 1);
    assert_eq!(told(&vec![good.clone(); 2_000], 101), 2_000);
    assert_eq!(told(&vec![good.clone(); 2_001], 101), 0);
    assert_eq!(told(&[good.clone(), bad], 101), 0);
    assert_eq!(told(&[good.clone(), earlier], 101), 0);
    assert_eq!(told(&[good.clone()], 86_399), 1);
    assert_eq!(told(&[good.clone()], 86_400), 0);
    assert_eq!(told(&[good.clone()], NONE), 0);
    let bytes = encode_list(&[good.clone(), good]);
    let cut = QuoteComparison::new(&Proved, &Plain).quotes_before(&bytes[..55], 101);
    assert_eq!(cut.expect("the desks agree"), 0);
}

/// A quote of each of these exchanges, one a second.
fn one_a_second(from: u32, exchanges: impl IntoIterator<Item = u32>) -> Vec<QuoteFields> {
    (from..)
        .zip(exchanges)
        .map(|(time, exchange)| quote(exchange, time, (1_000, 1), (1_100, 1)))
        .collect()
}

/// "Down to and including the one by which all sixteen exchanges are known."
#[test]
fn no_more_is_examined_once_all_sixteen_are_known() {
    // Exchange 3, then 1 to 16 at 100 to 115: the first is not examined.
    let mut list = one_a_second(99, [3].into_iter().chain(1..=16));
    list[0].bid = 5_000;
    assert_eq!(best(&list, 116, 17), ([(1_000, 16), (1_100, 16)], 16));
    // A second earlier exchange 16 has sent nothing, and all are.
    assert_eq!(best(&list, 115, 16), ([(1_000, 15), (1_100, 15)], 16));
    // Exchange 16 once more: its quote of 115 is examined though it is overtaken.
    list.push(quote(16, 116, (1_000, 1), (1_100, 1)));
    assert_eq!(examined(&list, 117, 18), 17);
    // Exchange 1 once more: now it is exchange 2, at 101, by which all are known.
    list.push(quote(1, 117, (1_000, 1), (1_100, 1)));
    assert_eq!(examined(&list, 118, 19), 17);
}

/// The one by which all are known may be the first of all.
#[test]
fn all_are_examined_where_the_first_one_is_the_sixteenth_exchanges() {
    // Exchange 1, then 2 to 16, then 500 times exchange 9.
    let later = (2..=16).chain([9; 500]);
    let list = one_a_second(100, [1].into_iter().chain(later.clone()));
    assert_eq!(examined(&list, 616, 516), 516);
    // With any quote before it, that one is not examined.
    let longer = one_a_second(99, [9, 1].into_iter().chain(later));
    assert_eq!(examined(&longer, 616, 517), 516);
}

/// "Or to the first if that never comes."
#[test]
fn all_are_examined_where_fifteen_exchanges_are_known() {
    // Each exchange in turn is the one that sends nothing; the others send four times.
    for silent in 1..=16 {
        let others = (1..=16).filter(|&exchange| exchange != silent);
        let mut list = one_a_second(100, others.cycle().take(60));
        assert_eq!(examined(&list, 160, 60), 60, "without exchange {silent}");
        // In the trade's second it is not known yet; a second later it is, with the fifteen before it.
        list.push(quote(silent, 160, (1_000, 1), (1_100, 1)));
        assert_eq!(examined(&list, 160, 60), 60, "exchange {silent} at 160");
        assert_eq!(examined(&list, 161, 61), 16, "exchange {silent} before");
    }
}

/// Decided: any quote makes its exchange known, none or not.
#[test]
fn an_exchange_is_known_by_a_quote_of_none() {
    // Twice 1 to 16; of the second time, exchange 1 at 116 is the one by which all are known.
    let twice = one_a_second(100, (1..=16).chain(1..=16));
    for (bid, offer, found) in [
        (NOTHING, NOTHING, [(1_000, 15), (1_100, 15)]),
        (NOTHING, (1_100, 1), [(1_000, 15), (1_100, 16)]),
        ((1_000, 1), NOTHING, [(1_000, 16), (1_100, 15)]),
    ] {
        for at in 16..32 {
            let mut list = twice.clone();
            list[at] = quote(list[at].exchange, list[at].time, bid, offer);
            assert_eq!(best(&list, 132, 32), (found, 16), "quote {at}");
        }
    }
    // All of the second time are none: the first time is not looked at.
    let mut silent = twice;
    for sent in &mut silent[16..] {
        *sent = quote(sent.exchange, sent.time, NOTHING, NOTHING);
    }
    assert_eq!(best(&silent, 132, 32), ([NOTHING, NOTHING], 16));
    // At 131 exchange 16 has not sent it yet, and is known by its first quote.
    assert_eq!(best(&silent, 131, 31), ([(1_000, 1), (1_100, 1)], 16));
}

/// Decided: with nothing before the trade the count is 0.
#[test]
fn none_is_examined_with_nothing_before_the_trade() {
    let list: Vec<QuoteFields> = (1..=16)
        .map(|exchange| quote(exchange, 100, (1_000, 1), (1_100, 1)))
        .collect();
    assert_eq!(best(&list, 100, 0), ([NOTHING, NOTHING], 0));
    assert_eq!(best(&list, 0, 0), ([NOTHING, NOTHING], 0));
    assert_eq!(best(&list, 101, 16), ([(1_000, 16), (1_100, 16)], 16));
}

/// Decided: the count is of the walk, and not of what the tests look at.
#[test]
fn the_tests_are_not_counted() {
    // 2,000 quotes by sixteen exchanges in turn, from 1,000 to 2,999.
    let mut list = one_a_second(1_000, (1..=16).cycle().take(2_000));
    assert_eq!(examined(&list, 1_000, 0), 0);
    assert_eq!(examined(&list, 1_001, 1), 1);
    assert_eq!(examined(&list, 1_015, 15), 15);
    assert_eq!(examined(&list, 1_016, 16), 16);
    assert_eq!(examined(&list, 1_017, 17), 16);
    assert_eq!(examined(&list, 3_000, 2_000), 16);
    // The two thousandth has its say.
    list[1_999].bid = 5_000;
    assert_eq!(best(&list, 3_000, 2_000), ([(5_000, 1), (1_100, 16)], 16));
    // By one exchange alone.
    let alone = one_a_second(1_000, [16; 2_000]);
    assert_eq!(examined(&alone, 1_017, 17), 17);
    assert_eq!(examined(&alone, 2_999, 1_999), 1_999);
    assert_eq!(examined(&alone, 3_000, 2_000), 2_000);
}

/// The example case was executed at 34,200 and filed 120 s later.
#[test]
fn a_case_is_filled_at_its_execution() {
    let comparison = QuoteComparison::new(&Proved, &Plain);
    let list = encode_list(&[
        quote(1, 34_199, (1_000, 10), (1_100, 20)),
        quote(2, 34_199, (1_000, 30), NOTHING),
        quote(3, 34_200, (5_000, 1), (50, 1)),
        quote(3, 34_320, (6_000, 1), (60, 1)),
    ]);
    let case = Fields {
        official: 1_234,
        ..Fields::example()
    };
    let answer = comparison
        .fill_case(&list, &case.encode())
        .expect("the desks agree");
    assert_eq!(answer.number, 0);
    let filled = Fields {
        bid: 1_000,
        offer: 1_100,
        bid_size: 40,
        offer_size: 20,
        ..case.clone()
    };
    assert_eq!(Fields::decode(&answer.case), filled);
    // The buy at 2.000 had an offer of 1.000, which made it 1.150; with 1.100 it becomes 1.250.
    let mut out = [0; 96];
    assert_eq!(desk::rule_case(&answer.case, &mut out), 0);
    assert_eq!((out[8], out[9], &out[16..20]), (1, 6, &[0xe2, 4, 0, 0][..]));

    // No quote before the execution: what was there goes.
    let empty = comparison
        .fill_case(&[], &case.encode())
        .expect("the desks agree");
    assert_eq!(empty.number, 0);
    let without = Fields {
        bid: NONE,
        offer: NONE,
        bid_size: 0,
        offer_size: 0,
        ..case
    };
    assert_eq!(empty.case, without.encode());
}

/// Bytes 20 to 35 of a case of kind 2 are filled as those of kind 1, and its differential stays. The
/// quotes that are found may be wide by it: .100 is twice .050.
#[test]
fn a_case_of_kind_2_is_filled() {
    let comparison = QuoteComparison::new(&Proved, &Plain);
    let list = encode_list(&[quote(1, 34_199, (1_000, 10), (1_100, 20))]);
    for (differential, outcome, reason) in [(50, 3, 14), (51, 1, 6)] {
        let case = Fields::example().wide(differential);
        let answer = comparison
            .fill_case(&list, &case.encode())
            .expect("the desks agree");
        assert_eq!(answer.number, 0);
        let filled = Fields {
            bid: 1_000,
            offer: 1_100,
            bid_size: 10,
            offer_size: 20,
            ..case
        };
        assert_eq!(answer.case, filled.encode());
        let mut out = [0; 96];
        assert_eq!(desk::rule_case(&answer.case, &mut out), 0);
        assert_eq!((out[8], out[9]), (outcome, reason));
    }
}

/// The case first, then the quotes; a refused call writes nothing. Of both kinds.
#[test]
fn a_case_is_tested_before_the_quotes() {
    check_order(Fields::example());
    check_order(Fields::example().wide(50));
}

fn check_order(case: Fields) {
    let comparison = QuoteComparison::new(&Proved, &Plain);
    let number = |list: &[u8], case: &[u8]| {
        let answer = comparison.fill_case(list, case).expect("the desks agree");
        assert_eq!(answer.case != case, answer.number == 0);
        answer.number
    };
    let good = quote(1, 100, (1_000, 10), (1_100, 20));
    let list = encode_list(&[good.clone()]);
    let bad = encode_list(&[quote(17, 100, (1_000, 10), (1_100, 20))]);
    let back = encode_list(&[quote(1, 101, (1_000, 10), (1_100, 20)), good]);
    let no_contracts = Fields {
        contracts: 0,
        ..case.clone()
    };
    let late = Fields {
        executed_at: 86_400,
        ..case.clone()
    };
    assert_eq!(number(&list, &case.encode()), 0);
    assert_eq!(number(&list[..27], &case.encode()), 20);
    assert_eq!(number(&bad, &case.encode()), 21);
    assert_eq!(number(&back, &case.encode()), 22);
    for quotes in [&list, &list[..27], &bad, &back] {
        assert_eq!(number(quotes, &no_contracts.encode()), 6);
        assert_eq!(number(quotes, &late.encode()), 7);
        assert_eq!(number(quotes, &case.encode()[..87]), 1);
        assert_eq!(number(quotes, &case.encode()[..case.encode().len() - 1]), 1);
        assert_eq!(number(quotes, &[]), 1);
        let (length, kind) = (case.length, 3 - case.kind);
        let other_kind = Fields {
            kind,
            ..case.clone()
        };
        assert_eq!(
            number(quotes, &other_kind.encode()),
            2,
            "({length}, {kind})"
        );
        let unpermitted = case.clone().wide(0);
        assert_eq!(number(quotes, &unpermitted.encode()), 5);
    }
    // The quotes that stand in the case are tested as well, though they would be overwritten.
    let bad_bid = Fields {
        bid: 10_000_000,
        ..case
    };
    assert_eq!(number(&list, &bad_bid.encode()), 5);
}
