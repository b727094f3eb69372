//! Request L4 at its edges, on both desks, against numbers worked out by hand from the documents: when
//! quotes are wide, what TP is then, what is covered, and what is refused.

use harness::compare::Comparison;
use harness::desks::{Plain, Proved};
use harness::fields::{Fields, RulingFields, NONE};
use harness::random::Random;
use harness::settings;

const NO_RELIEF: u8 = 0;
const ADJUSTED: u8 = 1;
const NULLIFIED: u8 = 2;
const WAITING: u8 = 3;

const NO_TP: u8 = 0;
const QUOTE: u8 = 1;
const OFFICIAL: u8 = 2;

fn ruling(fields: &Fields) -> RulingFields {
    let mut random = Random::new(settings::seed());
    let mut comparison = Comparison::new(&Proved, &Plain);
    let answer = comparison
        .rule_case(&fields.encode(), 96, &mut random)
        .expect("the desks agree");
    RulingFields::of_answer(answer.bytes.expect("the case is ruled"))
}

/// Outcome, reason, origin, TP and new price of a ruled case.
fn ruled(fields: &Fields) -> (u8, u8, u8, u32, u32) {
    let ruling = ruling(fields);
    (
        ruling.outcome,
        ruling.reason,
        ruling.origin,
        ruling.tp,
        ruling.new_price,
    )
}

/// Reason and origin, and the contracts adjusted, nullified and standing.
fn covered(fields: &Fields) -> (u8, u8, [u32; 3]) {
    let ruling = ruling(fields);
    let counts = [ruling.adjusted, ruling.nullified, ruling.standing];
    (ruling.reason, ruling.origin, counts)
}

fn number(record: &[u8]) -> u32 {
    let comparison = Comparison::new(&Proved, &Plain);
    comparison.check_case(record).expect("the desks agree")
}

/// Two Market Makers, a buy of 10 at 2.000, filed after 120 s.
fn buy(bid: u32, offer: u32) -> Fields {
    quoted(bid, offer, Fields::example())
}

/// The same as a sell at 1.000.
fn sell(bid: u32, offer: u32) -> Fields {
    let fields = Fields {
        side: 2,
        execution: 1_000,
        ..Fields::example()
    };
    quoted(bid, offer, fields)
}

/// With these quotes, each for 20.
fn quoted(bid: u32, offer: u32, fields: Fields) -> Fields {
    let size = |price| if price == NONE { 0 } else { 20 };
    Fields {
        bid,
        offer,
        bid_size: size(bid),
        offer_size: size(offer),
        ..fields
    }
}

fn official(official: u32, fields: Fields) -> Fields {
    Fields { official, ..fields }
}

fn filed_after(seconds: u32, fields: Fields) -> Fields {
    Fields {
        filed_at: fields.executed_at + seconds,
        ..fields
    }
}

const WAITS: (u8, u8, u8, u32, u32) = (WAITING, 14, NO_TP, NONE, NONE);

/// A buy at 2.000 by an offer of 1.000: + .15.
const BY_OFFER: (u8, u8, u8, u32, u32) = (ADJUSTED, 6, QUOTE, 1_000, 1_150);
/// By an official's price of 1.500.
const BY_OFFICIAL: (u8, u8, u8, u32, u32) = (ADJUSTED, 6, OFFICIAL, 1_500, 1_650);

/// A sell at 1.000 by a bid of 2.000: - .15.
const BY_BID: (u8, u8, u8, u32, u32) = (ADJUSTED, 6, QUOTE, 2_000, 1_850);
/// By an official's price of 2.500.
const SELL_BY_OFFICIAL: (u8, u8, u8, u32, u32) = (ADJUSTED, 6, OFFICIAL, 2_500, 2_350);

/// "Offer minus bid is at least twice" the differential: .100 and twice .050.
#[test]
fn wide_by_exactly_twice_and_not_by_a_mill_less() {
    for (bid, wide) in [(899, true), (900, true), (901, false), (902, false)] {
        let with = official(1_500, buy(bid, 1_000)).wide(50);
        let without = buy(bid, 1_000).wide(50);
        if wide {
            assert_eq!(
                (ruled(&with), ruled(&without)),
                (BY_OFFICIAL, WAITS),
                "{bid}"
            );
        } else {
            assert_eq!(
                (ruled(&with), ruled(&without)),
                (BY_OFFER, BY_OFFER),
                "{bid}"
            );
        }
    }
    for (offer, wide) in [(2_098, false), (2_099, false), (2_100, true), (2_101, true)] {
        let with = official(2_500, sell(2_000, offer)).wide(50);
        let without = sell(2_000, offer).wide(50);
        if wide {
            assert_eq!(
                (ruled(&with), ruled(&without)),
                (SELL_BY_OFFICIAL, WAITS),
                "{offer}"
            );
        } else {
            assert_eq!((ruled(&with), ruled(&without)), (BY_BID, BY_BID), "{offer}");
        }
    }
    for (differential, expected) in [
        (49, BY_OFFICIAL),
        (50, BY_OFFICIAL),
        (51, BY_OFFER),
        // One differential apart, and less than that.
        (100, BY_OFFER),
        (101, BY_OFFER),
    ] {
        let case = official(1_500, buy(900, 1_000)).wide(differential);
        assert_eq!(ruled(&case), expected, "{differential}");
    }
}

/// "Kind 1 is still ruled the old way", however far apart its quotes are.
#[test]
fn kind_1_is_never_wide() {
    for bid in [0, 900, 999, 1_000, 9_999_999, NONE] {
        assert_eq!(ruled(&official(1_500, buy(bid, 1_000))), BY_OFFER);
        assert_eq!(ruled(&buy(bid, 1_000)), BY_OFFER);
    }
    for offer in [0, 2_000, 2_001, 2_100, 9_999_999, NONE] {
        assert_eq!(ruled(&official(2_500, sell(2_000, offer))), BY_BID);
        assert_eq!(ruled(&sell(2_000, offer)), BY_BID);
    }
}

/// "A crossed market is not wide", by however much; nor is a locked one.
#[test]
fn crossed_and_locked_markets() {
    for bid in [1_000, 1_001, 1_099, 1_100, 1_101, 9_999_999] {
        for differential in [1, 50, 9_999_999] {
            let case = buy(bid, 1_000).wide(differential);
            assert_eq!(ruled(&case), BY_OFFER);
            assert_eq!(ruled(&official(1_500, case)), BY_OFFER);
        }
    }
    for offer in [2_000, 1_999, 1_901, 1_900, 1_899, 0] {
        for differential in [1, 50, 9_999_999] {
            let case = sell(2_000, offer).wide(differential);
            assert_eq!(ruled(&case), BY_BID);
            assert_eq!(ruled(&official(2_500, case)), BY_BID);
        }
    }
}

/// "If both quotes are present": with one alone, TP is found as in kind 1.
#[test]
fn one_quote_alone_is_not_wide() {
    assert_eq!(ruled(&official(1_500, buy(NONE, 1_000)).wide(1)), BY_OFFER);
    assert_eq!(ruled(&buy(NONE, 1_000).wide(1)), BY_OFFER);
    assert_eq!(ruled(&official(1_500, buy(900, NONE)).wide(1)), BY_OFFICIAL);
    assert_eq!(ruled(&buy(900, NONE).wide(1)), WAITS);
    assert_eq!(ruled(&official(2_500, sell(2_000, NONE)).wide(1)), BY_BID);
    assert_eq!(ruled(&sell(2_000, NONE).wide(1)), BY_BID);
    assert_eq!(
        ruled(&official(2_500, sell(NONE, 2_100)).wide(1)),
        SELL_BY_OFFICIAL
    );
    assert_eq!(ruled(&sell(NONE, 2_100).wide(1)), WAITS);
    assert_eq!(
        ruled(&official(1_500, buy(NONE, NONE)).wide(1)),
        BY_OFFICIAL
    );
    assert_eq!(ruled(&buy(NONE, NONE).wide(1)), WAITS);
}

/// From 0 to 9,999,999, and a mill less on either end: twice 4,999,999 is 9,999,998, and twice
/// 5,000,000 is more than any distance.
#[test]
fn the_widest_markets() {
    let highest = |bid, offer, differential| {
        let case = Fields {
            execution: 9_999_999,
            ..buy(bid, offer)
        };
        ruled(&official(0, case).wide(differential))
    };
    // By the official's 0, below $3: + .15.
    let by_official = (ADJUSTED, 6, OFFICIAL, 0, 150);
    let no_error = (NO_RELIEF, 1, QUOTE, 9_999_999, NONE);
    assert_eq!(highest(0, 9_999_999, 4_999_999), by_official);
    assert_eq!(highest(1, 9_999_999, 4_999_999), by_official);
    assert_eq!(highest(2, 9_999_999, 4_999_999), no_error);
    assert_eq!(highest(0, 9_999_999, 5_000_000), no_error);
    assert_eq!(highest(0, 9_999_999, 9_999_999), no_error);
    assert_eq!(highest(0, 9_999_999, 1), by_official);
    // A bid of zero is a quote, of whatever size; an offer of zero is not above it.
    let nothing = Fields {
        bid_size: 0,
        ..official(1_500, buy(0, 1_000))
    };
    assert_eq!(ruled(&nothing.clone().wide(500)), BY_OFFICIAL);
    assert_eq!(ruled(&nothing.wide(501)), BY_OFFER);
    let zeros = official(1_500, buy(0, 0)).wide(1);
    assert_eq!(ruled(&zeros), (ADJUSTED, 6, QUOTE, 0, 150));
}

/// The side's quote says one thing, the official another: where the quotes are wide the official is
/// heard, on error, price, limits and acceptance.
#[test]
fn tp_is_the_officials_at_every_step() {
    // 2.000 is no error by 1.900, and one by 1.000; and the other way round.
    let small = official(1_000, buy(1_800, 1_900));
    assert_eq!(ruled(&small), (NO_RELIEF, 1, QUOTE, 1_900, NONE));
    assert_eq!(
        ruled(&small.wide(50)),
        (ADJUSTED, 6, OFFICIAL, 1_000, 1_150)
    );
    let large = official(1_900, buy(900, 1_000)).wide(50);
    assert_eq!(ruled(&large), (NO_RELIEF, 1, OFFICIAL, 1_900, NONE));

    // An official's price that is the quote's own, or the other quote's, is still the official's.
    let same = official(1_000, buy(900, 1_000)).wide(50);
    assert_eq!(ruled(&same), (ADJUSTED, 6, OFFICIAL, 1_000, 1_150));
    let other = official(900, buy(900, 1_000)).wide(50);
    assert_eq!(ruled(&other), (ADJUSTED, 6, OFFICIAL, 900, 1_050));

    // With a Customer on the obvious way.
    let customer = Fields {
        seller_kind: 1,
        ..official(1_500, buy(900, 1_000)).wide(50)
    };
    assert_eq!(ruled(&customer), (NULLIFIED, 11, OFFICIAL, 1_500, NONE));

    // Catastrophic, a sell at 7.000: 12.000 - 5 is just the execution; 20.001 - 7 is 13.001.
    let catastrophic = Fields {
        execution: 7_000,
        ..filed_after(301, sell(12_000, 12_100))
    };
    let at = |price| official(price, catastrophic.clone()).wide(50);
    assert_eq!(ruled(&at(12_000)), (ADJUSTED, 8, OFFICIAL, 12_000, 7_000));
    assert_eq!(ruled(&at(11_999)), (NO_RELIEF, 1, OFFICIAL, 11_999, NONE));
    assert_eq!(ruled(&at(20_001)), (ADJUSTED, 8, OFFICIAL, 20_001, 13_001));
    assert_eq!(ruled(&at(NONE)), WAITS);

    // A Customer who buys with a limit of 13.000: 7.000 by the bid of 12.000 keeps it, and 13.001 by
    // the official's 20.001 does not.
    let limited = |price, accepted_after| Fields {
        buyer_kind: 1,
        buyer_limit: 13_000,
        accepted_after,
        ..at(price)
    };
    let narrow = limited(20_001, NONE).narrow();
    assert_eq!(ruled(&narrow), (ADJUSTED, 8, QUOTE, 12_000, 7_000));
    assert_eq!(
        ruled(&limited(20_001, NONE)),
        (NULLIFIED, 12, OFFICIAL, 20_001, NONE)
    );
    assert_eq!(
        ruled(&limited(20_001, 1_800)),
        (ADJUSTED, 9, OFFICIAL, 20_001, 13_001)
    );
    // 19.000 - 5 is past it, 18.000 - 5 is not.
    assert_eq!(
        ruled(&limited(19_000, NONE)),
        (NULLIFIED, 12, OFFICIAL, 19_000, NONE)
    );
    assert_eq!(
        ruled(&limited(18_000, NONE)),
        (ADJUSTED, 8, OFFICIAL, 18_000, 13_000)
    );
}

/// What is asked before TP is answered before it: 2 and 3, whatever stands in the record.
#[test]
fn late_and_decided_cases_do_not_wait() {
    for price in [NONE, 1_500] {
        let case = official(price, buy(900, 1_000)).wide(50);
        let late = Fields {
            day: 2,
            ..case.clone()
        };
        assert_eq!(ruled(&late), (NO_RELIEF, 2, NO_TP, NONE, NONE));
        let decided = Fields {
            panel: 1,
            ..filed_after(301, case)
        };
        assert_eq!(ruled(&decided), (NO_RELIEF, 3, NO_TP, NONE, NONE));
    }
}

/// On the opening a Customer sells 30 at 1.000 to a Market Maker, the bid being 2.000 for 20 and the
/// offer 2.100 for 5; filed after 1,800 s.
fn opening(differential: Option<u32>, price: u32) -> Fields {
    let case = Fields {
        opening: 1,
        contracts: 30,
        seller_kind: 1,
        offer_size: 5,
        ..official(price, filed_after(1_800, sell(2_000, 2_100)))
    };
    match differential {
        Some(differential) => case.wide(differential),
        None => case,
    }
}

/// "Where an official gave TP there is no such limit": no quote's size covers an official's price.
#[test]
fn every_contract_on_the_opening_way() {
    assert_eq!(covered(&opening(None, 2_000)), (7, QUOTE, [20, 0, 10]));
    assert_eq!(covered(&opening(Some(51), 2_000)), (7, QUOTE, [20, 0, 10]));
    assert_eq!(
        covered(&opening(Some(50), 2_000)),
        (7, OFFICIAL, [30, 0, 0])
    );
    assert_eq!(
        covered(&opening(Some(50), 2_500)),
        (7, OFFICIAL, [30, 0, 0])
    );
    assert_eq!(
        covered(&opening(Some(50), 1_249)),
        (1, OFFICIAL, [0, 0, 30])
    );
    assert_eq!(covered(&opening(Some(50), NONE)), (14, NO_TP, [0, 0, 30]));
    // A bid of zero for nothing.
    let nothing = Fields {
        bid: 0,
        bid_size: 0,
        ..opening(Some(50), 2_000)
    };
    assert_eq!(covered(&nothing), (7, OFFICIAL, [30, 0, 0]));
    let agreed = |differential, agreement, agreed| Fields {
        agreement,
        agreed,
        agreed_after: 1_800,
        ..opening(Some(differential), 2_000)
    };
    assert_eq!(covered(&agreed(51, 1, 1_900)), (10, QUOTE, [20, 0, 10]));
    assert_eq!(covered(&agreed(50, 1, 1_900)), (10, OFFICIAL, [30, 0, 0]));
    assert_eq!(covered(&agreed(51, 2, NONE)), (13, QUOTE, [0, 30, 0]));
    assert_eq!(covered(&agreed(50, 2, NONE)), (13, OFFICIAL, [0, 30, 0]));
}

/// "For kind 2 demand 3 reads over this TP": the limit that the opening way tests is tested against it.
#[test]
fn the_other_partys_limit_on_the_opening_way() {
    // An other who buys with a limit of 2.200: 2.000 keeps it, 2.201 does not.
    let limited = |differential, price| Fields {
        buyer_kind: 3,
        buyer_limit: 2_200,
        ..opening(Some(differential), price)
    };
    assert_eq!(covered(&limited(51, 2_201)), (7, QUOTE, [20, 0, 10]));
    assert_eq!(covered(&limited(50, 2_201)), (5, OFFICIAL, [0, 0, 30]));
    assert_eq!(covered(&limited(50, 2_200)), (7, OFFICIAL, [30, 0, 0]));
}

/// "1 allows either length, 2 covers a pair not of that length .., 5 covers the new field".
#[test]
fn refusals() {
    let narrow = buy(900, 1_000);
    let wide = narrow.clone().wide(50);
    assert_eq!((number(&narrow.encode()), number(&wide.encode())), (0, 0));
    let headed = |(length, kind), fields: &Fields| {
        let fields = Fields {
            length,
            kind,
            ..fields.clone()
        };
        number(&fields.encode())
    };
    for pair in [(88, 2), (92, 1), (92, 2), (88, 3), (92, 3), (94, 3), (0, 0)] {
        assert_eq!(headed(pair, &narrow), 2, "{pair:?} in 88 bytes");
    }
    for pair in [(88, 1), (88, 2), (92, 1), (88, 3), (92, 3), (94, 3), (0, 0)] {
        assert_eq!(headed(pair, &wide), 2, "{pair:?} in 92 bytes");
    }
    let record = wide.encode();
    for len in [0, 87, 89, 90, 91] {
        assert_eq!(number(&record[..len]), 1, "{len} bytes");
    }
    assert_eq!(number(&record[..88]), 2, "kind 2 cut to 88 bytes");
    let kind_3 = [&[94, 0, 3, 0], &record[4..], &[0, 0]].concat();
    assert_eq!(number(&kind_3), 1);

    for (differential, expected) in [
        (0, 5),
        (1, 0),
        (9_999_999, 0),
        (10_000_000, 5),
        (NONE - 1, 5),
        (NONE, 5),
    ] {
        let case = narrow.clone().wide(differential);
        assert_eq!(number(&case.encode()), expected, "{differential}");
    }
    // Of two faults the first test decides; 5 is between 4 and 6.
    let unpermitted = narrow.wide(0);
    let code = Fields {
        buyer_code: *b"mm01",
        ..unpermitted.clone()
    };
    assert_eq!(number(&code.encode()), 4);
    let contracts = Fields {
        contracts: 0,
        ..unpermitted.clone()
    };
    assert_eq!(number(&contracts.encode()), 5);
    let limit = Fields {
        buyer_limit: 1_999,
        ..unpermitted
    };
    assert_eq!(number(&limit.encode()), 5);
}

/// "A sheet may hold both, stepping by the length of each".
#[test]
fn a_mixed_sheet_is_printed() {
    let trade = |trade, fields| Fields { trade, ..fields };
    let cases = [
        trade(21, buy(900, 1_000)),
        trade(22, buy(900, 1_000).wide(50)),
        trade(23, official(1_500, buy(900, 1_000)).wide(50)),
        trade(24, official(1_500, buy(900, 1_000)).wide(51)),
        trade(25, buy(900, 1_000).wide(0)),
        Fields {
            contracts: 0,
            ..trade(26, buy(900, 1_000))
        },
        trade(27, official(1_500, buy(1_100, 1_000)).wide(50)),
        trade(28, opening(Some(50), 2_000)),
        trade(29, opening(None, 2_000)),
    ];
    let expected = "\
TRADE OUTCOME REASON TP NEW ADJ NUL OLD FROM
21 ADJUST 6 1000 1150 10 0 0 1
22 WAIT 14 - - 0 0 10 0
23 ADJUST 6 1500 1650 10 0 0 2
24 ADJUST 6 1000 1150 10 0 0 1
#4 REFUSED 5
#5 REFUSED 6
27 ADJUST 6 1000 1150 10 0 0 1
28 ADJUST 7 2000 2000 30 0 0 2
29 ADJUST 7 2000 2000 20 0 10 1
END 7 2
";
    let records = cases.map(|case| case.encode());
    let mut random = Random::new(settings::seed());
    let mut comparison = Comparison::new(&Proved, &Plain);
    let mut printed = |sheet: &[u8]| {
        let text = comparison.print_sheet(sheet, &mut random);
        String::from_utf8_lossy(text.expect("the desks agree")).into_owned()
    };
    let sheet = records.concat();
    assert_eq!(sheet.len(), 3 * 88 + 6 * 92);
    assert_eq!(printed(&sheet), expected);
    let refused = "SHEET REFUSED 10\n";
    for cut in [1, 4, 44, 84, 85, 86, 87] {
        assert_eq!(printed(&sheet[..sheet.len() - cut]), refused);
    }
    for at in 0..records.len() {
        let mut spoiled = records.clone();
        spoiled[at][2] ^= 3;
        assert_eq!(printed(&spoiled.concat()), refused, "case {at}");
    }
}
