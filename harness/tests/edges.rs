//! The page's own edges ("At the edges") and its sheet, on both desks: equality alone would not see
//! an error that the two share.

use harness::compare::Comparison;
use harness::desks::{Plain, Proved};
use harness::fields::{page_sheet, Fields, RulingFields, NONE};
use harness::random::Random;
use harness::settings;

const NO_RELIEF: u8 = 0;
const ADJUSTED: u8 = 1;
const NULLIFIED: u8 = 2;
const WAITING: u8 = 3;

/// The origins of request L3.
const NO_TP: u8 = 0;
const QUOTE: u8 = 1;
const OFFICIAL: u8 = 2;

fn answer(fields: &Fields) -> [u8; 96] {
    let mut random = Random::new(settings::seed());
    let mut comparison = Comparison::new(&Proved, &Plain);
    let answer = comparison
        .rule_case(&fields.encode(), 96, &mut random)
        .expect("the desks agree");
    *answer.bytes.expect("the case is ruled")
}

/// Outcome, reason, origin and new price of a ruled case.
fn ruled(fields: &Fields) -> (u8, u8, u8, u32) {
    let ruling = RulingFields::of_answer(&answer(fields));
    (
        ruling.outcome,
        ruling.reason,
        ruling.origin,
        ruling.new_price,
    )
}

fn refused(fields: &Fields) -> u32 {
    let comparison = Comparison::new(&Proved, &Plain);
    comparison
        .check_case(&fields.encode())
        .expect("the desks agree")
}

/// "Unless said: obvious way, no Customer, limit or agreement, bytes 46 and 47 at 0."
fn buy(offer: u32, execution: u32) -> Fields {
    Fields {
        offer,
        execution,
        ..Fields::example()
    }
}

fn sell(bid: u32, execution: u32) -> Fields {
    Fields {
        side: 2,
        bid,
        bid_size: 10,
        offer: NONE,
        offer_size: 0,
        execution,
        ..Fields::example()
    }
}

fn filed_after(seconds: u32, fields: Fields) -> Fields {
    Fields {
        filed_at: fields.executed_at + seconds,
        ..fields
    }
}

const NO_ERROR: (u8, u8, u8, u32) = (NO_RELIEF, 1, QUOTE, NONE);

#[test]
fn obvious_buys() {
    assert_eq!(ruled(&buy(1_999, 2_248)), NO_ERROR);
    assert_eq!(ruled(&buy(1_999, 2_249)), (ADJUSTED, 6, QUOTE, 2_149));
    assert_eq!(ruled(&buy(2_000, 2_399)), NO_ERROR);
    assert_eq!(ruled(&buy(2_000, 2_400)), (ADJUSTED, 6, QUOTE, 2_150));
    assert_eq!(ruled(&buy(5_001, 5_500)), NO_ERROR);
    assert_eq!(ruled(&buy(5_001, 5_501)), (ADJUSTED, 6, QUOTE, 5_301));
    assert_eq!(ruled(&buy(20_000, 20_800)), (ADJUSTED, 6, QUOTE, 20_300));
    assert_eq!(ruled(&buy(20_001, 20_801)), NO_ERROR);
}

#[test]
fn obvious_sells() {
    assert_eq!(ruled(&sell(2_999, 2_599)), (ADJUSTED, 6, QUOTE, 2_849));
    assert_eq!(ruled(&sell(3_000, 2_600)), (ADJUSTED, 6, QUOTE, 2_700));
    assert_eq!(ruled(&sell(200, 0)), NO_ERROR);
}

#[test]
fn a_market_makers_time() {
    assert_eq!(
        ruled(&filed_after(300, buy(1_999, 2_249))),
        (ADJUSTED, 6, QUOTE, 2_149)
    );
    assert_eq!(ruled(&filed_after(301, buy(1_999, 2_249))), NO_ERROR);
}

#[test]
fn catastrophic_sells() {
    let at_7 = filed_after(301, sell(12_000, 7_000));
    assert_eq!(ruled(&at_7), (ADJUSTED, 8, QUOTE, 7_000));
    let at_6 = Fields {
        execution: 6_000,
        buyer_kind: 1,
        buyer_limit: 6_500,
        ..at_7
    };
    assert_eq!(ruled(&at_6), (NULLIFIED, 12, QUOTE, NONE));
    let accepted = |accepted_after| Fields {
        accepted_after,
        ..at_6.clone()
    };
    assert_eq!(ruled(&accepted(1_800)), (ADJUSTED, 9, QUOTE, 7_000));
    assert_eq!(ruled(&accepted(1_801)), (NULLIFIED, 12, QUOTE, NONE));
}

#[test]
fn no_price_at_all() {
    let unpriced = Fields {
        offer: NONE,
        offer_size: 0,
        ..Fields::example()
    };
    assert_eq!(ruled(&unpriced), (WAITING, 14, NO_TP, NONE));
    let late = Fields { day: 2, ..unpriced };
    assert_eq!(ruled(&late), (NO_RELIEF, 2, NO_TP, NONE));
}

#[test]
fn closing_times() {
    let next_day = |filed_at| Fields {
        day: 1,
        filed_at,
        ..buy(1_000, 2_000)
    };
    assert_eq!(ruled(&next_day(30_600)), (ADJUSTED, 8, QUOTE, 2_000));
    assert_eq!(ruled(&next_day(30_601)), (NO_RELIEF, 2, NO_TP, NONE));
    let expiry = |filed_at| Fields {
        expiry: 1,
        filed_at,
        ..buy(1_000, 2_000)
    };
    assert_eq!(ruled(&expiry(61_200)), (ADJUSTED, 8, QUOTE, 2_000));
    assert_eq!(ruled(&expiry(61_201)), (NO_RELIEF, 2, NO_TP, NONE));
}

/// The same case with other prices for TP: the quote of its side, for 10 or none, and the official's
/// price.
fn priced(quote: u32, official: u32, fields: Fields) -> Fields {
    let size = if quote == NONE { 0 } else { 10 };
    let (bid, bid_size, offer, offer_size) = if fields.side == 1 {
        (fields.bid, fields.bid_size, quote, size)
    } else {
        (quote, size, fields.offer, fields.offer_size)
    };
    Fields {
        bid,
        bid_size,
        offer,
        offer_size,
        official,
        ..fields
    }
}

/// Both sides, each alone and with the other quote, for 10 too, at `price`.
fn sides(price: u32) -> [Fields; 4] {
    let (buy, sell) = (buy(1_000, 2_000), sell(2_000, 1_000));
    [
        buy.clone(),
        sell.clone(),
        Fields {
            bid: price,
            bid_size: 10,
            ..buy
        },
        Fields {
            offer: price,
            offer_size: 10,
            ..sell
        },
    ]
}

/// Request L3: the quote where there is one, whatever an official says and whatever the other quote
/// is; the official's price where there is none; neither where both are none.
#[test]
fn the_origin_of_tp() {
    for other in [0, 1_000, 2_000, 9_999_999] {
        for fields in sides(other) {
            let (tp, price) = match fields.side {
                1 => (1_000, 1_150),
                _ => (2_000, 1_850),
            };
            for official in [NONE, tp, 0, 1_500, 9_999_999] {
                let quoted = priced(tp, official, fields.clone());
                assert_eq!(ruled(&quoted), (ADJUSTED, 6, QUOTE, price), "\n{quoted}");
            }
            let official = priced(NONE, tp, fields.clone());
            assert_eq!(
                ruled(&official),
                (ADJUSTED, 6, OFFICIAL, price),
                "\n{official}"
            );
            let waiting = priced(NONE, NONE, fields);
            assert_eq!(ruled(&waiting), (WAITING, 14, NO_TP, NONE), "\n{waiting}");
        }
    }
}

/// TP is none for reasons 2 and 3 too, and then so is its origin, whatever stands in the record.
#[test]
fn no_origin_beside_reasons_2_and_3() {
    for fields in sides(1_500) {
        for (quote, official) in [(1_500, NONE), (1_500, 1_500), (NONE, 1_500), (NONE, NONE)] {
            let fields = priced(quote, official, fields.clone());
            let late = Fields {
                day: 2,
                ..fields.clone()
            };
            assert_eq!(ruled(&late), (NO_RELIEF, 2, NO_TP, NONE), "\n{late}");
            let decided = Fields {
                panel: 1,
                ..filed_after(301, fields)
            };
            assert_eq!(ruled(&decided), (NO_RELIEF, 3, NO_TP, NONE), "\n{decided}");
        }
    }
}

/// A quote of zero is a quote, of whatever size; an official's price of zero is a price.
#[test]
fn the_origin_of_a_tp_of_zero() {
    for offer_size in [0, 1, 10] {
        let quoted = Fields {
            offer_size,
            official: 5_000,
            ..buy(0, 250)
        };
        assert_eq!(ruled(&quoted), (ADJUSTED, 6, QUOTE, 150));
    }
    let official = priced(NONE, 0, buy(0, 250));
    assert_eq!(ruled(&official), (ADJUSTED, 6, OFFICIAL, 150));
}

/// Trade 2 of the page's sheet, by a bid for 20 and by an official's price: the origin goes with what
/// the adjustment covers.
#[test]
fn the_origin_and_what_is_covered() {
    let opening = |bid_size, official| Fields {
        bid_size,
        official,
        opening: 1,
        contracts: 30,
        seller_kind: 1,
        ..filed_after(1_800, sell(2_000, 1_000))
    };
    let covered = |fields: &Fields| {
        let ruling = RulingFields::of_answer(&answer(fields));
        (
            ruling.reason,
            ruling.origin,
            ruling.adjusted,
            ruling.standing,
        )
    };
    assert_eq!(covered(&opening(20, NONE)), (7, QUOTE, 20, 10));
    assert_eq!(covered(&opening(20, 2_000)), (7, QUOTE, 20, 10));
    assert_eq!(covered(&opening(30, 2_000)), (7, QUOTE, 30, 0));
    let official = priced(NONE, 2_000, opening(20, NONE));
    assert_eq!(covered(&official), (7, OFFICIAL, 30, 0));
}

/// "Notices ... stay": byte 10 is the recipient, byte 11 zero, and nothing else is another.
#[test]
fn the_notices_do_not_tell_the_origin() {
    let quoted = answer(&buy(1_000, 2_000));
    let official = answer(&priced(NONE, 1_000, buy(1_000, 2_000)));
    assert_eq!(quoted[8..12], [ADJUSTED, 6, QUOTE, 0]);
    assert_eq!(official[8..12], [ADJUSTED, 6, OFFICIAL, 0]);
    for answer in [quoted, official] {
        assert_eq!(answer[40..44], [ADJUSTED, 6, 1, 0]);
        assert_eq!(answer[72..76], [ADJUSTED, 6, 2, 0]);
    }
    assert_eq!(quoted[..10], official[..10]);
    assert_eq!(quoted[11..], official[11..]);
}

/// A bid of 1.500 with its bytes turned.
#[test]
fn a_turned_bid() {
    let turned = sell(1_500, 1_000).quotes_turned();
    assert_eq!(turned.bid, 3_691_315_200);
    assert_eq!(refused(&turned), 5);
}

#[test]
fn the_page_sheet_is_printed_as_on_the_page() {
    let mut random = Random::new(settings::seed());
    let mut comparison = Comparison::new(&Proved, &Plain);
    let text = comparison
        .print_sheet(&page_sheet(), &mut random)
        .expect("the desks agree");
    let expected = "\
TRADE OUTCOME REASON TP NEW ADJ NUL OLD FROM
1 ADJUST 6 1000 1150 10 0 0 1
2 ADJUST 7 2000 2000 20 0 10 1
#2 REFUSED 6
END 2 1
";
    assert_eq!(String::from_utf8_lossy(text), expected);
}

/// Request L3: "the printer adds it as a last field headed FROM"; on no other line.
#[test]
fn the_origin_is_printed_last() {
    let trade = |trade, fields| Fields { trade, ..fields };
    let cases = [
        trade(11, buy(1_000, 2_000)),
        trade(12, priced(1_000, 1_500, buy(1_000, 2_000))),
        trade(13, priced(NONE, 2_000, sell(2_000, 1_000))),
        trade(14, priced(NONE, NONE, buy(1_000, 2_000))),
        Fields {
            day: 2,
            ..trade(15, buy(1_000, 2_000))
        },
        Fields {
            panel: 1,
            ..trade(16, filed_after(301, buy(1_000, 2_000)))
        },
        trade(17, priced(NONE, 1_999, buy(1_000, 2_000))),
        Fields {
            seller_kind: 1,
            ..trade(18, priced(NONE, 1_000, buy(1_000, 2_000)))
        },
        Fields {
            contracts: 0,
            ..trade(19, buy(1_000, 2_000))
        },
    ];
    let sheet = cases.map(|case| case.encode()).concat();
    let mut random = Random::new(settings::seed());
    let mut comparison = Comparison::new(&Proved, &Plain);
    let text = comparison
        .print_sheet(&sheet, &mut random)
        .expect("the desks agree");
    let expected = "\
TRADE OUTCOME REASON TP NEW ADJ NUL OLD FROM
11 ADJUST 6 1000 1150 10 0 0 1
12 ADJUST 6 1000 1150 10 0 0 1
13 ADJUST 6 2000 1850 10 0 0 2
14 WAIT 14 - - 0 0 10 0
15 NONE 2 - - 0 0 10 0
16 NONE 3 - - 0 0 10 0
17 NONE 1 1999 - 0 0 10 2
18 NULLIFY 11 1000 - 0 10 0 2
#8 REFUSED 6
END 8 1
";
    assert_eq!(String::from_utf8_lossy(text), expected);
    let text = comparison
        .print_sheet(&sheet[1..], &mut random)
        .expect("the desks agree");
    assert_eq!(String::from_utf8_lossy(text), "SHEET REFUSED 10\n");
}
