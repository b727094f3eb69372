//! "A ruling explained" (R17), by the independent desk: every line against one worked out by hand from
//! the page, and the samples. `explain_differential` holds the proved desk to the same bytes.

use std::fs;
use std::path::{Path, PathBuf};

use harness::fields::{page_sheet, Fields, NONE};
use harness::page::{careful_sheet, explain_case, explain_sheet};

const NINE_THIRTY: u32 = 34_200;

const CUSTOMER: u8 = 1;
const MARKET_MAKER: u8 = 2;
const OTHER: u8 = 3;

fn explained(fields: &Fields) -> String {
    explain_case(&fields.encode())
}

/// The whole explanation of a case.
#[track_caller]
fn whole(fields: &Fields, lines: &[&str]) {
    assert_eq!(explained(fields), lines.join("\n") + "\n");
}

/// The lines of one step, which begin with two spaces and its word.
fn steps(fields: &Fields, word: &str) -> Vec<String> {
    let begin = format!("  {word:<11}");
    let text = explained(fields);
    let lines = text.lines().filter(|line| line.starts_with(&begin));
    lines.map(String::from).collect()
}

/// The one line of a step.
#[track_caller]
fn step(fields: &Fields, line: &str) {
    let word = line.split_whitespace().next().expect("a word");
    assert_eq!(steps(fields, word), [line], "{}", explained(fields));
}

/// That a step was not reached.
#[track_caller]
fn no_step(fields: &Fields, word: &str) {
    assert!(steps(fields, word).is_empty(), "{}", explained(fields));
}

/// Head and reason of the case.
#[track_caller]
fn head(fields: &Fields, line: &str) {
    assert_eq!(explained(fields).lines().next(), Some(line));
}

/// Why ways were shut: the lines with 13 spaces in front.
#[track_caller]
fn shut(fields: &Fields, lines: &[&str]) {
    let text = explained(fields);
    let found: Vec<&str> = text
        .lines()
        .filter_map(|line| line.strip_prefix("             "))
        .collect();
    assert_eq!(found, lines, "{text}");
}

/// Two Market Makers, a buy at that price against that offer.
fn buy(offer: u32, execution: u32) -> Fields {
    Fields {
        offer,
        execution,
        ..Fields::example()
    }
}

/// The same of a sell against that bid.
fn sell(bid: u32, execution: u32) -> Fields {
    Fields {
        side: 2,
        bid,
        bid_size: 10,
        offer: NONE,
        offer_size: 0,
        execution,
        ..Fields::example()
    }
}

fn filed_after(seconds: u32, fields: Fields) -> Fields {
    Fields {
        filed_at: fields.executed_at + seconds,
        ..fields
    }
}

/// A Customer in error on the opening way.
fn opening(fields: Fields) -> Fields {
    let (buyer_kind, seller_kind) = match fields.side {
        1 => (CUSTOMER, MARKET_MAKER),
        _ => (MARKET_MAKER, CUSTOMER),
    };
    let fields = Fields {
        opening: 1,
        buyer_kind,
        seller_kind,
        ..fields
    };
    filed_after(1_800, fields)
}

/// A Market Maker in error past 300 s.
fn catastrophic(fields: Fields) -> Fields {
    filed_after(301, fields)
}

// ---- R17.4: whole cases

#[test]
fn an_obvious_error() {
    whole(
        &Fields::example(),
        &[
            "trade 1: ADJUST, reason 6",
            "  way        obvious: filed at 09:32:00 (bytes 72 to 75) on the trade date (byte 66), 120 s after the execution at 09:30:00 (bytes 16 to 19) [R4.1]",
            "  TP         1.000 (bytes 24 to 27), the best offer [R5.1]",
            "  error      2.000 (bytes 8 to 11) is at least 1.000 + 0.250 = 1.250, by 0.750; 0.250 is the obvious minimum for a TP of 0.000 to 1.999 [R6.1, R6.2]",
            "  agreement  none (byte 67) [R7.4]",
            "  act        the buyer is a Market Maker (byte 64), the seller a Market Maker (byte 65): 1.000 + 0.150 = 1.150 [R8.2.1]",
            "  contracts  10 of 10 (bytes 12 to 15) adjusted to 1.150, 0 stand [R9.4]",
        ],
    );
}

/// The page's own words in R17.7 and R17.5: 2.249 against 1.999, 301 s after the execution.
#[test]
fn no_error_on_the_catastrophic_way() {
    let fields = Fields {
        trade: 12,
        ..catastrophic(buy(1_999, 2_249))
    };
    whole(
        &fields,
        &[
            "trade 12: NONE, reason 1",
            "  way        catastrophic: filed at 09:35:01 (bytes 72 to 75) on the trade date (byte 66), 301 s after the execution at 09:30:00 (bytes 16 to 19) [R4.3]",
            "             not obvious: open to a Market Maker (byte 64) for 300 s [R4.1]",
            "             not opening: an opening trade: no (byte 45) [R4.2]",
            "  TP         1.999 (bytes 24 to 27), the best offer [R5.1]",
            "  error      2.249 (bytes 8 to 11) is under 1.999 + 1.000 = 2.999, by 0.750; 1.000 is the catastrophic minimum for a TP of 0.000 to 1.999 [R6.1, R6.2]",
            "  contracts  10 of 10 (bytes 12 to 15) stand [R9.5]",
        ],
    );
}

/// R14.9 with every line that the catastrophic way can have, in a case of kind 2.
#[test]
fn a_catastrophic_error_against_a_limit() {
    let fields = Fields {
        trade: u32::MAX,
        offer: 13_000,
        offer_size: 10,
        buyer_kind: CUSTOMER,
        buyer_limit: 6_500,
        accepted_after: 1_800,
        contracts: 1_000_000,
        ..catastrophic(sell(12_000, 6_000))
    };
    whole(
        &fields.wide(501),
        &[
            "trade 4294967295: ADJUST, reason 9",
            "  way        catastrophic: filed at 09:35:01 (bytes 72 to 75) on the trade date (byte 66), 301 s after the execution at 09:30:00 (bytes 16 to 19) [R4.3]",
            "             not obvious: open to a Market Maker (byte 65) for 300 s [R4.1]",
            "             not opening: an opening trade: no (byte 45) [R4.2]",
            "  quotes     the offer 13.000 (bytes 24 to 27) is under the bid 12.000 (bytes 20 to 23) + twice 0.501 (bytes 88 to 91) = 13.002: not wide [R5.6]",
            "  TP         12.000 (bytes 20 to 23), the best bid [R5.1]",
            "  error      12.000 is at least 6.000 (bytes 8 to 11) + 5.000 = 11.000, by 1.000; 5.000 is the catastrophic minimum for a TP of 10.001 to 20.000 [R6.1, R6.2]",
            "  agreement  none (byte 67) [R7.4]",
            "  act        12.000 - 5.000 = 7.000 [R8.4.1]",
            "  limit      the buyer is a Customer (byte 64), its limit 6.500 (bytes 52 to 55); 7.000 is above it [R8.4.2]",
            "  acceptance after notice: 1,800 s (bytes 80 to 83); allowed: 1,800 s: in time [R8.4.3]",
            "  contracts  1,000,000 of 1,000,000 (bytes 12 to 15) adjusted to 7.000, 0 stand [R9.4]",
        ],
    );
}

/// A way that is shut, a panel, a wait: no later step has a line.
#[test]
fn steps_that_were_not_reached() {
    let late = Fields {
        day: 2,
        agreement: 2,
        ..Fields::example()
    };
    whole(
        &late,
        &[
            "trade 1: NONE, reason 2",
            "  way        none is open: filed at 09:32:00 (bytes 72 to 75) on a later day (byte 66), executed at 09:30:00 (bytes 16 to 19) [R4.4]",
            "             not obvious: filed on a later day (byte 66) [R4.1]",
            "             not opening: filed on a later day (byte 66) [R4.2]",
            "             not catastrophic: filed on a later day (byte 66) [R4.3]",
            "  contracts  10 of 10 (bytes 12 to 15) stand [R9.5]",
        ],
    );
    let decided = Fields {
        panel: 1,
        bid: 500,
        bid_size: 1,
        ..catastrophic(Fields::example())
    };
    whole(
        &decided.wide(1),
        &[
            "trade 1: NONE, reason 3",
            "  way        catastrophic: filed at 09:35:01 (bytes 72 to 75) on the trade date (byte 66), 301 s after the execution at 09:30:00 (bytes 16 to 19) [R4.3]",
            "             not obvious: open to a Market Maker (byte 64) for 300 s [R4.1]",
            "             not opening: an opening trade: no (byte 45) [R4.2]",
            "  panel      already decided: yes (byte 47) [R4.5]",
            "  contracts  10 of 10 (bytes 12 to 15) stand [R9.5]",
        ],
    );
    let unpriced = Fields {
        offer: NONE,
        offer_size: 0,
        ..Fields::example()
    };
    whole(
        &unpriced,
        &[
            "trade 1: WAIT, reason 14",
            "  way        obvious: filed at 09:32:00 (bytes 72 to 75) on the trade date (byte 66), 120 s after the execution at 09:30:00 (bytes 16 to 19) [R4.1]",
            "  TP         none: the official's price is none (bytes 40 to 43); the best offer is none (bytes 24 to 27) [R5.3]",
            "  contracts  10 of 10 (bytes 12 to 15) stand [R9.5]",
        ],
    );
    // Byte 47 is asked on the catastrophic way alone.
    let undecided = Fields {
        panel: 1,
        ..Fields::example()
    };
    no_step(&undecided, "panel");
    head(&undecided, "trade 1: ADJUST, reason 6");
}

// ---- R17.5: the way

#[test]
fn each_way_and_when_it_was_filed() {
    step(
        &filed_after(0, Fields::example()),
        "  way        obvious: filed at 09:30:00 (bytes 72 to 75) on the trade date (byte 66), 0 s after the execution at 09:30:00 (bytes 16 to 19) [R4.1]",
    );
    step(
        &opening(Fields::example()),
        "  way        opening: filed at 10:00:00 (bytes 72 to 75) on the trade date (byte 66), 1,800 s after the execution at 09:30:00 (bytes 16 to 19) [R4.2]",
    );
    let next_day = |filed_at| Fields {
        day: 1,
        filed_at,
        ..Fields::example()
    };
    step(
        &next_day(30_600),
        "  way        catastrophic: filed at 08:30:00 (bytes 72 to 75) on the next day (byte 66), executed at 09:30:00 (bytes 16 to 19) [R4.3]",
    );
    step(
        &next_day(30_601),
        "  way        none is open: filed at 08:30:01 (bytes 72 to 75) on the next day (byte 66), executed at 09:30:00 (bytes 16 to 19) [R4.4]",
    );
    let whole_day = Fields {
        executed_at: 0,
        filed_at: 86_399,
        ..Fields::example()
    };
    step(
        &whole_day,
        "  way        catastrophic: filed at 23:59:59 (bytes 72 to 75) on the trade date (byte 66), 86,399 s after the execution at 00:00:00 (bytes 16 to 19) [R4.3]",
    );
}

#[test]
fn the_obvious_way_is_shut_by_day_and_by_time() {
    let not_opening = "not opening: an opening trade: no (byte 45) [R4.2]";
    let in_error = |side, kind, seconds| {
        let fields = Fields {
            buyer_kind: if side == 1 { kind } else { MARKET_MAKER },
            seller_kind: if side == 2 { kind } else { MARKET_MAKER },
            side,
            ..Fields::example()
        };
        filed_after(seconds, fields)
    };
    for (side, at) in [(1, 64), (2, 65)] {
        for (kind, words, time, seconds) in [
            (CUSTOMER, "a Customer", "1,200 s", 1_200),
            (MARKET_MAKER, "a Market Maker", "300 s", 300),
            (OTHER, "another kind of party", "1,200 s", 1_200),
        ] {
            shut(&in_error(side, kind, seconds), &[]);
            let cause = format!("not obvious: open to {words} (byte {at}) for {time} [R4.1]");
            shut(&in_error(side, kind, seconds + 1), &[&cause, not_opening]);
        }
    }
    let next_day = Fields {
        day: 1,
        filed_at: 0,
        ..Fields::example()
    };
    shut(
        &next_day,
        &[
            "not obvious: filed on the next day (byte 66) [R4.1]",
            "not opening: filed on the next day (byte 66) [R4.2]",
        ],
    );
}

#[test]
fn the_opening_way_is_shut_by_each_of_its_tests() {
    let customer = "not obvious: open to a Customer (byte 64) for 1,200 s [R4.1]";
    let fields = opening(Fields::example());
    shut(&fields, &[customer]);
    let no_opening_trade = Fields {
        opening: 0,
        ..fields.clone()
    };
    shut(
        &no_opening_trade,
        &[
            customer,
            "not opening: an opening trade: no (byte 45) [R4.2]",
        ],
    );
    let maker = Fields {
        buyer_kind: MARKET_MAKER,
        ..fields.clone()
    };
    shut(
        &maker,
        &[
            "not obvious: open to a Market Maker (byte 64) for 300 s [R4.1]",
            "not opening: in error is a Market Maker (byte 64) [R4.2]",
        ],
    );
    let other_sells = Fields {
        seller_kind: OTHER,
        ..opening(sell(2_000, 1_000))
    };
    shut(
        &other_sells,
        &[
            "not obvious: open to another kind of party (byte 65) for 1,200 s [R4.1]",
            "not opening: in error is another kind of party (byte 65) [R4.2]",
        ],
    );
    let filed_at = |filed_at| Fields {
        filed_at,
        ..fields.clone()
    };
    shut(&filed_at(59_400), &[customer]);
    shut(
        &filed_at(59_401),
        &[customer, "not opening: open up to 16:30:00 [R4.2]"],
    );
    // Past 1,200 s by a second, and past 16:30:00 by one.
    let both = Fields {
        executed_at: 58_200,
        ..filed_at(59_401)
    };
    shut(
        &both,
        &[customer, "not opening: open up to 16:30:00 [R4.2]"],
    );
    // At 1,200 s the obvious way is open, and no other is asked.
    shut(&filed_after(1_200, fields.clone()), &[]);
    shut(&filed_after(1_201, fields), &[customer]);
    // Of several tests that fail the first has the line.
    let all_fail = Fields {
        opening: 0,
        filed_at: 59_401,
        ..Fields::example()
    };
    shut(
        &all_fail,
        &[
            "not obvious: open to a Market Maker (byte 64) for 300 s [R4.1]",
            "not opening: an opening trade: no (byte 45) [R4.2]",
        ],
    );
}

#[test]
fn the_catastrophic_way_is_shut_by_each_of_its_tests() {
    let filed = |expiry, day, filed_at| Fields {
        expiry,
        day,
        filed_at,
        ..Fields::example()
    };
    let cause = |fields: Fields| {
        let text = explained(&fields);
        let line = text.lines().find(|line| line.contains("not catastrophic"));
        line.map(|line| String::from(line.trim_start()))
    };
    assert_eq!(cause(filed(1, 0, 61_200)), None);
    assert_eq!(
        cause(filed(1, 0, 61_201)).as_deref(),
        Some("not catastrophic: expiry deadline: yes (byte 46), open up to 17:00:00 [R4.3]")
    );
    assert_eq!(
        cause(filed(1, 1, 0)).as_deref(),
        Some("not catastrophic: expiry deadline: yes (byte 46), filed on the next day (byte 66) [R4.3]")
    );
    assert_eq!(
        cause(filed(1, 2, 0)).as_deref(),
        Some("not catastrophic: expiry deadline: yes (byte 46), filed on a later day (byte 66) [R4.3]")
    );
    assert_eq!(
        cause(filed(0, 2, 0)).as_deref(),
        Some("not catastrophic: filed on a later day (byte 66) [R4.3]")
    );
    assert_eq!(cause(filed(0, 1, 30_600)), None);
    assert_eq!(
        cause(filed(0, 1, 30_601)).as_deref(),
        Some("not catastrophic: next day, open up to 08:30:00 [R4.3]")
    );
}

// ---- R17.6: TP

#[test]
fn tp_in_each_row() {
    let official = |official, fields| Fields { official, ..fields };
    let (bought, sold) = (buy(NONE, 2_000), sell(NONE, 1_000));
    let bought = Fields {
        offer_size: 0,
        bid: 900,
        bid_size: 3,
        ..bought
    };
    let sold = Fields {
        bid_size: 0,
        offer: 2_500,
        offer_size: 3,
        ..sold
    };
    step(
        &buy(0, 2_000),
        "  TP         0.000 (bytes 24 to 27), the best offer [R5.1]",
    );
    step(
        &official(2_000, sell(2_000, 1_000)),
        "  TP         2.000 (bytes 20 to 23), the best bid [R5.1]",
    );
    step(
        &official(0, bought.clone()),
        "  TP         0.000 (bytes 40 to 43), an official's price; the best offer is none (bytes 24 to 27) [R5.2]",
    );
    step(
        &official(9_999_999, sold.clone()),
        "  TP         9999.999 (bytes 40 to 43), an official's price; the best bid is none (bytes 20 to 23) [R5.2]",
    );
    step(
        &bought,
        "  TP         none: the official's price is none (bytes 40 to 43); the best offer is none (bytes 24 to 27) [R5.3]",
    );
    step(
        &sold,
        "  TP         none: the official's price is none (bytes 40 to 43); the best bid is none (bytes 20 to 23) [R5.3]",
    );
    for fields in [&bought, &sold] {
        no_step(fields, "quotes");
        // One quote is none: nothing to compare, in kind 2 neither.
        no_step(&fields.clone().wide(1), "quotes");
        no_step(fields, "error");
        head(fields, "trade 1: WAIT, reason 14");
    }
}

fn quoted(side: u8, bid: u32, offer: u32, official: u32) -> Fields {
    Fields {
        side,
        bid,
        bid_size: 5,
        offer,
        offer_size: 5,
        official,
        ..Fields::example()
    }
}

#[test]
fn tp_beside_wide_quotes() {
    let wide = "  quotes     the offer 1.500 (bytes 24 to 27) is at least the bid 1.000 (bytes 20 to 23) + twice 0.250 (bytes 88 to 91) = 1.500: wide [R5.6]";
    for (side, official, line) in [
        (1, 1_200, "  TP         1.200 (bytes 40 to 43), an official's price; the best offer is 1.500 (bytes 24 to 27), too wide [R5.8]"),
        (2, 1_200, "  TP         1.200 (bytes 40 to 43), an official's price; the best bid is 1.000 (bytes 20 to 23), too wide [R5.8]"),
        (1, NONE, "  TP         none: the official's price is none (bytes 40 to 43); the best offer is 1.500 (bytes 24 to 27), too wide [R5.9]"),
        (2, NONE, "  TP         none: the official's price is none (bytes 40 to 43); the best bid is 1.000 (bytes 20 to 23), too wide [R5.9]"),
    ] {
        let fields = quoted(side, 1_000, 1_500, official);
        no_step(&fields, "quotes");
        let fields = fields.wide(250);
        step(&fields, wide);
        step(&fields, line);
    }
}

#[test]
fn quotes_that_are_not_wide() {
    for (bid, offer, differential, line) in [
        (1_000, 1_499, 250, "the offer 1.499 (bytes 24 to 27) is under the bid 1.000 (bytes 20 to 23) + twice 0.250 (bytes 88 to 91) = 1.500: not wide"),
        (1_000, 1_500, 251, "the offer 1.500 (bytes 24 to 27) is under the bid 1.000 (bytes 20 to 23) + twice 0.251 (bytes 88 to 91) = 1.502: not wide"),
        (1_500, 1_000, 1, "the offer 1.000 (bytes 24 to 27) is under the bid 1.500 (bytes 20 to 23) + twice 0.001 (bytes 88 to 91) = 1.502: not wide"),
        (1_000, 1_000, 1, "the offer 1.000 (bytes 24 to 27) is under the bid 1.000 (bytes 20 to 23) + twice 0.001 (bytes 88 to 91) = 1.002: not wide"),
        (9_999_999, 0, 9_999_999, "the offer 0.000 (bytes 24 to 27) is under the bid 9999.999 (bytes 20 to 23) + twice 9999.999 (bytes 88 to 91) = 29999.997: not wide"),
    ] {
        let fields = quoted(1, bid, offer, 1_200).wide(differential);
        step(&fields, &format!("  quotes     {line} [R5.6]"));
        assert!(steps(&fields, "TP")[0].ends_with(", the best offer [R5.1]"));
    }
}

// ---- R17.7: the error

/// A row of R6.2: its lowest and highest TP, and either minimum.
type Row = (u32, u32, u32, u32);

const ROWS: [(Row, &str, &str, &str); 7] = [
    ((0, 1_999, 250, 1_000), "0.250", "1.000", "0.000 to 1.999"),
    (
        (2_000, 5_000, 400, 2_000),
        "0.400",
        "2.000",
        "2.000 to 5.000",
    ),
    (
        (5_001, 10_000, 500, 3_000),
        "0.500",
        "3.000",
        "5.001 to 10.000",
    ),
    (
        (10_001, 20_000, 800, 5_000),
        "0.800",
        "5.000",
        "10.001 to 20.000",
    ),
    (
        (20_001, 50_000, 1_000, 7_000),
        "1.000",
        "7.000",
        "20.001 to 50.000",
    ),
    (
        (50_001, 100_000, 1_000, 10_000),
        "1.000",
        "10.000",
        "50.001 to 100.000",
    ),
    (
        (100_001, 9_999_999, 1_000, 15_000),
        "1.000",
        "15.000",
        "100.001 to 9999.999",
    ),
];

fn in_dollars(mills: u32) -> String {
    let digits = format!("{mills:04}");
    let (dollars, rest) = digits.split_at(digits.len() - 3);
    format!("{dollars}.{rest}")
}

/// Against each end of each row, on both sides and by both columns: in error to the mill, and a mill
/// short of it.
#[test]
fn the_error_at_the_edges_of_each_row() {
    for ((lowest, highest, obvious, catastrophic_minimum), obvious_text, catastrophic_text, row) in
        ROWS
    {
        for tp in [lowest, highest] {
            for (late, minimum, text, column) in [
                (false, obvious, obvious_text, "obvious"),
                (
                    true,
                    catastrophic_minimum,
                    catastrophic_text,
                    "catastrophic",
                ),
            ] {
                let on_way = |fields| if late { catastrophic(fields) } else { fields };
                let why = format!("{text} is the {column} minimum for a TP of {row} [R6.1, R6.2]");
                let (shown, sum) = (in_dollars(tp), in_dollars(tp + minimum));
                let bought = |execution| on_way(buy(tp, execution));
                if tp + minimum <= 9_999_999 {
                    step(&bought(tp + minimum), &format!(
                        "  error      {sum} (bytes 8 to 11) is at least {shown} + {text} = {sum}, by 0.000; {why}"
                    ));
                    step(&bought(tp + minimum - 1), &format!(
                        "  error      {} (bytes 8 to 11) is under {shown} + {text} = {sum}, by 0.001; {why}",
                        in_dollars(tp + minimum - 1)
                    ));
                }
                let sold = |execution| on_way(sell(tp, execution));
                if tp >= minimum {
                    step(&sold(tp - minimum), &format!(
                        "  error      {shown} is at least {} (bytes 8 to 11) + {text} = {shown}, by 0.000; {why}",
                        in_dollars(tp - minimum)
                    ));
                    step(&sold(tp - minimum + 1), &format!(
                        "  error      {shown} is under {} (bytes 8 to 11) + {text} = {}, by 0.001; {why}",
                        in_dollars(tp - minimum + 1),
                        in_dollars(tp + 1)
                    ));
                }
            }
        }
    }
}

#[test]
fn the_error_in_words() {
    // R14.6, and the widest distance.
    step(
        &sell(200, 0),
        "  error      0.200 is under 0.000 (bytes 8 to 11) + 0.250 = 0.250, by 0.050; 0.250 is the obvious minimum for a TP of 0.000 to 1.999 [R6.1, R6.2]",
    );
    step(
        &buy(9_999_999, 0),
        "  error      0.000 (bytes 8 to 11) is under 9999.999 + 1.000 = 10000.999, by 10000.999; 1.000 is the obvious minimum for a TP of 100.001 to 9999.999 [R6.1, R6.2]",
    );
    step(
        &catastrophic(sell(0, 9_999_999)),
        "  error      0.000 is under 9999.999 (bytes 8 to 11) + 1.000 = 10000.999, by 10000.999; 1.000 is the catastrophic minimum for a TP of 0.000 to 1.999 [R6.1, R6.2]",
    );
    // R6.4: the opening way goes by the obvious column.
    step(
        &opening(buy(2_000, 2_400)),
        "  error      2.400 (bytes 8 to 11) is at least 2.000 + 0.400 = 2.400, by 0.000; 0.400 is the obvious minimum for a TP of 2.000 to 5.000 [R6.1, R6.2]",
    );
    for fields in [sell(200, 0), buy(9_999_999, 0)] {
        head(&fields, "trade 1: NONE, reason 1");
        for word in ["agreement", "act", "limit", "acceptance"] {
            no_step(&fields, word);
        }
    }
}

// ---- R17.8: agreement

fn agreed(agreement: u8, after: u32, fields: Fields) -> Fields {
    Fields {
        agreement,
        agreed: if agreement == 1 { 1_700 } else { NONE },
        agreed_after: after,
        ..fields
    }
}

#[test]
fn each_verdict_on_an_agreement() {
    let makers = Fields::example();
    let customer = Fields {
        seller_kind: CUSTOMER,
        ..Fields::example()
    };
    let on_opening = opening(Fields::example());
    let late = catastrophic(customer.clone());
    step(&makers, "  agreement  none (byte 67) [R7.4]");
    for (fields, line) in [
        (agreed(1, 600, makers.clone()), "on a price (byte 67), 1.700 (bytes 68 to 71), made 600 s (bytes 76 to 79) after notice; without a Customer allowed: 600 s: it counts [R7.2]"),
        (agreed(1, 1_800, customer.clone()), "on a price (byte 67), 1.700 (bytes 68 to 71), made 1,800 s (bytes 76 to 79) after notice; with a Customer allowed: 1,800 s: it counts [R7.2]"),
        (agreed(1, 0, late.clone()), "on a price (byte 67), 1.700 (bytes 68 to 71), made 0 s (bytes 76 to 79) after notice; with a Customer allowed: 1,800 s: it counts [R7.2]"),
        (agreed(2, 600, makers.clone()), "to nullify (byte 67), made 600 s (bytes 76 to 79) after notice; without a Customer allowed: 600 s: it counts [R7.3]"),
        (agreed(2, 1_800, on_opening.clone()), "to nullify (byte 67), made 1,800 s (bytes 76 to 79) after notice; with a Customer allowed: 1,800 s: it counts [R7.3]"),
    ] {
        step(&fields, &format!("  agreement  {line}"));
        no_step(&fields, "act");
        no_step(&fields, "limit");
    }
    for (fields, line) in [
        (agreed(1, 601, makers.clone()), "on a price (byte 67), 1.700 (bytes 68 to 71), made 601 s (bytes 76 to 79) after notice; without a Customer allowed: 600 s: too late [R7.1, R7.4]"),
        (agreed(1, 1_801, customer.clone()), "on a price (byte 67), 1.700 (bytes 68 to 71), made 1,801 s (bytes 76 to 79) after notice; with a Customer allowed: 1,800 s: too late [R7.1, R7.4]"),
        (agreed(2, 86_400, makers), "to nullify (byte 67), made 86,400 s (bytes 76 to 79) after notice; without a Customer allowed: 600 s: too late [R7.1, R7.4]"),
        (agreed(2, 1_801, on_opening), "to nullify (byte 67), made 1,801 s (bytes 76 to 79) after notice; with a Customer allowed: 1,800 s: too late [R7.1, R7.4]"),
        // Late, and with a Customer on this way: time is asked first.
        (agreed(2, 1_801, customer.clone()), "to nullify (byte 67), made 1,801 s (bytes 76 to 79) after notice; with a Customer allowed: 1,800 s: too late [R7.1, R7.4]"),
        (agreed(2, 1_800, customer), "to nullify (byte 67), made 1,800 s (bytes 76 to 79) after notice; with a Customer allowed: 1,800 s: not with a Customer on this way [R7.3, R7.4]"),
        (agreed(2, 60, late), "to nullify (byte 67), made 60 s (bytes 76 to 79) after notice; with a Customer allowed: 1,800 s: not with a Customer on this way [R7.3, R7.4]"),
    ] {
        step(&fields, &format!("  agreement  {line}"));
        assert_eq!(steps(&fields, "act").len(), 1);
    }
}

// ---- R17.9: the act, limits, acceptance

#[test]
fn each_act() {
    for (fields, line) in [
        (buy(2_999, 3_399), "the buyer is a Market Maker (byte 64), the seller a Market Maker (byte 65): 2.999 + 0.150 = 3.149 [R8.2.1]"),
        (buy(3_000, 3_400), "the buyer is a Market Maker (byte 64), the seller a Market Maker (byte 65): 3.000 + 0.300 = 3.300 [R8.2.1]"),
        (sell(2_999, 2_599), "the buyer is a Market Maker (byte 64), the seller a Market Maker (byte 65): 2.999 - 0.150 = 2.849 [R8.2.1]"),
        (sell(3_000, 2_600), "the buyer is a Market Maker (byte 64), the seller a Market Maker (byte 65): 3.000 - 0.300 = 2.700 [R8.2.1]"),
        (Fields { buyer_kind: OTHER, ..Fields::example() }, "the buyer is another kind of party (byte 64), the seller a Market Maker (byte 65): 1.000 + 0.150 = 1.150 [R8.2.1]"),
        (Fields { seller_kind: CUSTOMER, ..Fields::example() }, "the buyer is a Market Maker (byte 64), the seller a Customer (byte 65): with a Customer undone [R8.2.2]"),
        (Fields { buyer_kind: CUSTOMER, seller_kind: OTHER, ..Fields::example() }, "the buyer is a Customer (byte 64), the seller another kind of party (byte 65): with a Customer undone [R8.2.2]"),
        (opening(buy(2_000, 3_000)), "TP itself, 2.000 [R8.3.1]"),
        (opening(sell(2_000, 1_000)), "TP itself, 2.000 [R8.3.1]"),
        (catastrophic(sell(12_000, 7_000)), "12.000 - 5.000 = 7.000 [R8.4.1]"),
        (catastrophic(buy(100_001, 200_000)), "100.001 + 15.000 = 115.001 [R8.4.1]"),
    ] {
        step(&fields, &format!("  act        {line}"));
    }
    no_step(&Fields::example(), "limit");
    no_step(&catastrophic(sell(12_000, 7_000)), "limit");
}

#[test]
fn the_one_limit_of_the_opening_way() {
    // R8.3.2: the other is a Market Maker, whose own limit is not tested. Kept, and at the limit.
    let fields = Fields {
        seller_limit: 2_999,
        ..opening(buy(2_000, 3_000))
    };
    step(&fields, "  limit      the buyer is a Customer (byte 64), its limit none (bytes 52 to 55); 2.000 does not violate it [R8.3.2]");
    let fields = Fields {
        seller_limit: 400,
        ..opening(sell(1_000, 400))
    };
    step(&fields, "  limit      the seller is a Customer (byte 65), its limit 0.400 (bytes 60 to 63); 1.000 does not violate it [R8.3.2]");
    // R8.3.3: the other's, kept to the mill and violated by one.
    let from_other = |kind, limit| Fields {
        seller_kind: kind,
        seller_limit: limit,
        ..opening(buy(2_000, 3_000))
    };
    step(&from_other(OTHER, 2_000), "  limit      the seller is another kind of party (byte 65), its limit 2.000 (bytes 60 to 63); 2.000 does not violate it [R8.3.3]");
    step(&from_other(CUSTOMER, 2_001), "  limit      the seller is a Customer (byte 65), its limit 2.001 (bytes 60 to 63); 2.000 is below it [R8.3.3]");
    head(&from_other(CUSTOMER, 2_001), "trade 1: NONE, reason 5");
    step(
        &from_other(CUSTOMER, 2_001),
        "  contracts  10 of 10 (bytes 12 to 15) stand [R9.5]",
    );
    let to_other = |limit| Fields {
        buyer_kind: OTHER,
        buyer_limit: limit,
        ..opening(sell(2_000, 1_000))
    };
    step(&to_other(2_000), "  limit      the buyer is another kind of party (byte 64), its limit 2.000 (bytes 52 to 55); 2.000 does not violate it [R8.3.3]");
    step(&to_other(1_999), "  limit      the buyer is another kind of party (byte 64), its limit 1.999 (bytes 52 to 55); 2.000 is above it [R8.3.3]");
    for fields in [from_other(CUSTOMER, 2_001), to_other(1_999)] {
        no_step(&fields, "acceptance");
    }
}

#[test]
fn the_customers_limits_of_the_catastrophic_way() {
    let limits = |fields: Fields, lines: &[&str]| {
        let expected: Vec<String> = lines
            .iter()
            .map(|line| format!("  limit      {line} [R8.4.2]"))
            .collect();
        assert_eq!(steps(&fields, "limit"), expected);
    };
    // A sell from 12.000 becomes 7.000; both parties are Customers.
    let both = |buyer_limit, seller_limit| {
        let fields = Fields {
            buyer_kind: CUSTOMER,
            seller_kind: CUSTOMER,
            buyer_limit,
            seller_limit,
            ..sell(12_000, 6_000)
        };
        filed_after(1_201, fields)
    };
    limits(both(7_000, NONE), &[
        "the buyer is a Customer (byte 64), its limit 7.000 (bytes 52 to 55); 7.000 does not violate it",
        "the seller is a Customer (byte 65), its limit none (bytes 60 to 63); 7.000 does not violate it",
    ]);
    no_step(&both(7_000, NONE), "acceptance");
    limits(both(6_999, 6_000), &[
        "the buyer is a Customer (byte 64), its limit 6.999 (bytes 52 to 55); 7.000 is above it",
        "the seller is a Customer (byte 65), its limit 6.000 (bytes 60 to 63); 7.000 does not violate it",
    ]);
    // A buy from 1.000 becomes 2.000; the seller alone is a Customer, and the buyer's limit is not tested.
    let from_customer = |seller_limit| Fields {
        seller_kind: CUSTOMER,
        seller_limit,
        buyer_limit: 5_000,
        ..catastrophic(buy(1_000, 5_000))
    };
    limits(from_customer(2_000), &[
        "the seller is a Customer (byte 65), its limit 2.000 (bytes 60 to 63); 2.000 does not violate it",
    ]);
    limits(from_customer(2_001), &[
        "the seller is a Customer (byte 65), its limit 2.001 (bytes 60 to 63); 2.000 is below it",
    ]);
    no_step(&from_customer(2_000), "acceptance");
    assert_eq!(steps(&from_customer(2_001), "acceptance").len(), 1);
}

#[test]
fn an_acceptance_in_time_late_and_none() {
    let accepted = |accepted_after| Fields {
        buyer_kind: CUSTOMER,
        buyer_limit: 6_500,
        accepted_after,
        ..catastrophic(sell(12_000, 6_000))
    };
    for (after, reason, line) in [
        (
            0,
            "ADJUST, reason 9",
            "0 s (bytes 80 to 83); allowed: 1,800 s: in time [R8.4.3]",
        ),
        (
            1_800,
            "ADJUST, reason 9",
            "1,800 s (bytes 80 to 83); allowed: 1,800 s: in time [R8.4.3]",
        ),
        (
            1_801,
            "NULLIFY, reason 12",
            "1,801 s (bytes 80 to 83); allowed: 1,800 s: not in time [R8.4.4]",
        ),
        (
            86_400,
            "NULLIFY, reason 12",
            "86,400 s (bytes 80 to 83); allowed: 1,800 s: not in time [R8.4.4]",
        ),
        (
            NONE,
            "NULLIFY, reason 12",
            "none (bytes 80 to 83); allowed: 1,800 s: not in time [R8.4.4]",
        ),
    ] {
        let fields = accepted(after);
        head(&fields, &format!("trade 1: {reason}"));
        step(&fields, &format!("  acceptance after notice: {line}"));
    }
}

// ---- R17.10: contracts

#[test]
fn contracts_in_every_form() {
    let many = |contracts, size, fields: Fields| Fields {
        contracts,
        offer_size: if fields.side == 1 { size } else { 0 },
        bid_size: if fields.side == 2 { size } else { 0 },
        ..fields
    };
    let bought = opening(buy(2_000, 3_000));
    let sold = opening(sell(2_000, 1_000));
    let unquoted = Fields {
        offer: NONE,
        offer_size: 0,
        official: 2_000,
        ..bought.clone()
    };
    for (fields, line) in [
        (many(30, 20, sold.clone()), "20 of 30 (bytes 12 to 15) adjusted to 2.000, 10 stand; the quote's size is 20 (bytes 28 to 31) [R9.1, R9.5]"),
        (many(1_000_000, 999_999, bought.clone()), "999,999 of 1,000,000 (bytes 12 to 15) adjusted to 2.000, 1 stand; the quote's size is 999,999 (bytes 32 to 35) [R9.1, R9.5]"),
        (many(30, 31, bought.clone()), "30 of 30 (bytes 12 to 15) adjusted to 2.000, 0 stand; the quote's size is 31 (bytes 32 to 35) [R9.1, R9.5]"),
        (many(10, 0, opening(buy(0, 250))), "0 of 10 (bytes 12 to 15) adjusted to 0.000, 10 stand; the quote's size is 0 (bytes 32 to 35) [R9.1, R9.5]"),
        (agreed(1, 60, many(30, 20, sold.clone())), "20 of 30 (bytes 12 to 15) adjusted to 1.700, 10 stand; the quote's size is 20 (bytes 28 to 31) [R9.1, R9.5]"),
        (unquoted.clone(), "10 of 10 (bytes 12 to 15) adjusted to 2.000, 0 stand [R9.3]"),
        (agreed(1, 60, unquoted), "10 of 10 (bytes 12 to 15) adjusted to 1.700, 0 stand [R9.3]"),
        (Fields::example(), "10 of 10 (bytes 12 to 15) adjusted to 1.150, 0 stand [R9.4]"),
        (agreed(1, 60, Fields::example()), "10 of 10 (bytes 12 to 15) adjusted to 1.700, 0 stand [R9.4]"),
        (many(1_234, 1, catastrophic(buy(1_000, 2_000))), "1,234 of 1,234 (bytes 12 to 15) adjusted to 2.000, 0 stand [R9.4]"),
        (agreed(2, 60, many(30, 20, sold)), "30 of 30 (bytes 12 to 15) nullified [R9.4]"),
        (Fields { buyer_kind: CUSTOMER, ..many(1_000, 1, Fields::example()) }, "1,000 of 1,000 (bytes 12 to 15) nullified [R9.4]"),
        (buy(1_999, 2_248), "10 of 10 (bytes 12 to 15) stand [R9.5]"),
        (Fields { day: 2, ..bought }, "10 of 10 (bytes 12 to 15) stand [R9.5]"),
    ] {
        step(&fields, &format!("  contracts  {line}"));
    }
}

// ---- R17.11: refusals

/// A refused case of trade 900 has its head and one line.
#[track_caller]
fn refused(change: impl FnOnce(&mut Fields), number: u32, line: &str) {
    let mut fields = Fields {
        trade: 900,
        ..Fields::example()
    };
    change(&mut fields);
    whole(
        &fields,
        &[
            &format!("trade 900: REFUSED {number}"),
            &format!("  {line} [R3.{number}]"),
        ],
    );
}

#[test]
fn bytes_that_are_no_record() {
    let record = Fields::example().encode();
    let long = [record.clone(), vec![0; 1_234]].concat();
    for len in [0, 1, 4, 87, 89, 91, 93, 100, 999, 1_000, 1_322] {
        let shown = match len {
            1_000 => String::from("1,000"),
            1_322 => String::from("1,322"),
            _ => len.to_string(),
        };
        assert_eq!(
            explain_case(&long[..len]),
            format!("REFUSED 1\n  length of the case {shown}; allowed: 88 or 92 [R3.1]\n")
        );
    }
}

#[test]
fn a_head_that_is_not_the_records() {
    let headed = |length, kind, wide: bool| {
        let fields = Fields::example();
        let fields = if wide { fields.wide(250) } else { fields };
        explained(&Fields {
            length,
            kind,
            ..fields
        })
    };
    let line = |line: &str| format!("REFUSED 2\n  {line} [R3.2]\n");
    assert_eq!(
        headed(92, 2, false),
        line("length at the head 92 (bytes 0 to 1); allowed: 88, as long as the case is")
    );
    assert_eq!(
        headed(88, 1, true),
        line("length at the head 88 (bytes 0 to 1); allowed: 92, as long as the case is")
    );
    assert_eq!(
        headed(22_528, 256, false),
        line("length at the head 22,528 (bytes 0 to 1); allowed: 88, as long as the case is")
    );
    assert_eq!(
        headed(88, 2, false),
        line("kind at the head 2 (bytes 2 to 3); allowed: 1")
    );
    assert_eq!(
        headed(88, 65_535, false),
        line("kind at the head 65535 (bytes 2 to 3); allowed: 1")
    );
    assert_eq!(
        headed(92, 1, true),
        line("kind at the head 1 (bytes 2 to 3); allowed: 2")
    );
    // Neither has careful lines, nor a field that breaks a later test.
    let turned = Fields {
        kind: 3,
        bid: 655_360,
        bid_size: 0,
        ..Fields::example()
    };
    assert_eq!(
        explained(&turned),
        line("kind at the head 3 (bytes 2 to 3); allowed: 1")
    );
}

#[test]
fn zeros_and_coded_bytes() {
    refused(
        |f| f.zero_36 = 1,
        3,
        "zero bytes 1 (bytes 36 to 39); allowed: 0",
    );
    refused(
        |f| f.zero_36 = NONE,
        3,
        "zero bytes 4294967295 (bytes 36 to 39); allowed: 0",
    );
    refused(
        |f| f.zero_84 = 1 << 24,
        3,
        "zero bytes 16777216 (bytes 84 to 87); allowed: 0",
    );
    refused(
        |f| f.side = 0,
        3,
        "side in error 0 (byte 44); allowed: 1 to 2",
    );
    refused(
        |f| f.side = 3,
        3,
        "side in error 3 (byte 44); allowed: 1 to 2",
    );
    refused(
        |f| f.opening = 2,
        3,
        "on the opening 2 (byte 45); allowed: 0 to 1",
    );
    refused(
        |f| f.expiry = 255,
        3,
        "expiry deadline 255 (byte 46); allowed: 0 to 1",
    );
    refused(
        |f| f.panel = 2,
        3,
        "panel already decided 2 (byte 47); allowed: 0 to 1",
    );
    refused(
        |f| f.buyer_kind = 0,
        3,
        "buyer's kind 0 (byte 64); allowed: 1 to 3",
    );
    refused(
        |f| f.seller_kind = 4,
        3,
        "seller's kind 4 (byte 65); allowed: 1 to 3",
    );
    refused(|f| f.day = 3, 3, "filing day 3 (byte 66); allowed: 0 to 2");
    refused(
        |f| f.agreement = 3,
        3,
        "agreement 3 (byte 67); allowed: 0 to 2",
    );
    // The first in the record's order, and no field of a later test.
    refused(
        |f| {
            (f.zero_84, f.agreement, f.day, f.seller_kind) = (1, 9, 9, 9);
            (f.contracts, f.execution, f.buyer_code) = (0, NONE, *b"ab12");
        },
        3,
        "seller's kind 9 (byte 65); allowed: 1 to 3",
    );
}

#[test]
fn member_codes() {
    let allowed = "allowed: 0 to 9 or A to Z";
    for place in 0..4 {
        for byte in [0, b'/', b':', b'@', b'[', b'a', 255] {
            refused(
                |f| f.buyer_code[place] = byte,
                4,
                &format!(
                    "buyer's member code {byte} (byte {}); {allowed}",
                    48 + place
                ),
            );
            refused(
                |f| f.seller_code[place] = byte,
                4,
                &format!(
                    "seller's member code {byte} (byte {}); {allowed}",
                    56 + place
                ),
            );
        }
    }
    refused(
        |f| (f.buyer_code, f.seller_code) = (*b"AB1 ", *b"    "),
        4,
        "buyer's member code 32 (byte 51); allowed: 0 to 9 or A to Z",
    );
}

#[test]
fn prices_out_of_range() {
    refused(
        |f| f.execution = 10_000_000,
        5,
        "execution price 10000.000 (bytes 8 to 11); allowed: 0.000 to 9999.999",
    );
    refused(
        |f| f.execution = NONE,
        5,
        "execution price none (bytes 8 to 11); allowed: 0.000 to 9999.999",
    );
    refused(
        |f| f.bid = 3_691_315_200,
        5,
        "best bid 3691315.200 (bytes 20 to 23); allowed: 0.000 to 9999.999 or none",
    );
    refused(
        |f| f.offer = 10_000_000,
        5,
        "best offer 10000.000 (bytes 24 to 27); allowed: 0.000 to 9999.999 or none",
    );
    refused(
        |f| f.official = NONE - 1,
        5,
        "official's price 4294967.294 (bytes 40 to 43); allowed: 0.000 to 9999.999 or none",
    );
    refused(
        |f| f.buyer_limit = 10_000_000,
        5,
        "buyer's limit 10000.000 (bytes 52 to 55); allowed: 0.000 to 9999.999 or none",
    );
    refused(
        |f| f.seller_limit = 10_000_001,
        5,
        "seller's limit 10000.001 (bytes 60 to 63); allowed: 0.000 to 9999.999 or none",
    );
    refused(
        |f| f.agreed = 10_000_000,
        5,
        "agreed price 10000.000 (bytes 68 to 71); allowed: 0.000 to 9999.999 or none",
    );
    for (mills, shown) in [(0, "0.000"), (10_000_000, "10000.000"), (NONE, "none")] {
        refused(
            |f| *f = f.clone().wide(mills),
            5,
            &format!("permitted differential {shown} (bytes 88 to 91); allowed: 0.001 to 9999.999"),
        );
    }
    refused(
        |f| {
            *f = f.clone().wide(0);
            (f.seller_limit, f.contracts) = (10_000_000, 0);
        },
        5,
        "seller's limit 10000.000 (bytes 60 to 63); allowed: 0.000 to 9999.999 or none",
    );
}

#[test]
fn contracts_and_sizes() {
    for (contracts, shown) in [(0, "0"), (1_000_001, "1,000,001"), (NONE, "4,294,967,295")] {
        refused(
            |f| f.contracts = contracts,
            6,
            &format!("contracts {shown} (bytes 12 to 15); allowed: 1 to 1,000,000"),
        );
    }
    refused(
        |f| (f.bid, f.bid_size) = (NONE, 1),
        6,
        "bid size 1 (bytes 28 to 31); allowed: 0; the best bid is none (bytes 20 to 23)",
    );
    refused(
        |f| (f.bid, f.bid_size) = (0, 1_000_001),
        6,
        "bid size 1,000,001 (bytes 28 to 31); allowed: 0 to 1,000,000; the best bid is 0.000 (bytes 20 to 23)",
    );
    refused(
        |f| (f.bid, f.bid_size) = (1, 0),
        6,
        "bid size 0 (bytes 28 to 31); allowed: 1 to 1,000,000; the best bid is 0.001 (bytes 20 to 23)",
    );
    refused(
        |f| (f.offer, f.offer_size) = (NONE, NONE),
        6,
        "offer size 4,294,967,295 (bytes 32 to 35); allowed: 0; the best offer is none (bytes 24 to 27)",
    );
    refused(
        |f| (f.offer, f.offer_size) = (0, 1_000_001),
        6,
        "offer size 1,000,001 (bytes 32 to 35); allowed: 0 to 1,000,000; the best offer is 0.000 (bytes 24 to 27)",
    );
    refused(
        |f| f.offer_size = 1_000_001,
        6,
        "offer size 1,000,001 (bytes 32 to 35); allowed: 1 to 1,000,000; the best offer is 1.000 (bytes 24 to 27)",
    );
    refused(
        |f| (f.bid_size, f.offer_size, f.executed_at) = (2, 0, 86_400),
        6,
        "bid size 2 (bytes 28 to 31); allowed: 0; the best bid is none (bytes 20 to 23)",
    );
}

#[test]
fn times() {
    refused(
        |f| f.executed_at = 86_400,
        7,
        "execution time 24:00:00 (bytes 16 to 19); allowed: 00:00:00 to 23:59:59",
    );
    // A time of day has no none: what is no time of any day is told in seconds.
    refused(
        |f| (f.executed_at, f.filed_at) = (NONE, NONE),
        7,
        "execution time 4,294,967,295 s (bytes 16 to 19); allowed: 00:00:00 to 23:59:59",
    );
    refused(
        |f| f.filed_at = NINE_THIRTY - 1,
        7,
        "filing time 09:29:59 (bytes 72 to 75); allowed: 09:30:00 to 23:59:59; executed at 09:30:00 (bytes 16 to 19)",
    );
    refused(
        |f| f.filed_at = 86_400,
        7,
        "filing time 24:00:00 (bytes 72 to 75); allowed: 09:30:00 to 23:59:59; executed at 09:30:00 (bytes 16 to 19)",
    );
    refused(
        |f| (f.executed_at, f.filed_at) = (0, 86_400),
        7,
        "filing time 24:00:00 (bytes 72 to 75); allowed: 00:00:00 to 23:59:59; executed at 00:00:00 (bytes 16 to 19)",
    );
    // "Where only one number is allowed it stands alone."
    refused(
        |f| (f.executed_at, f.filed_at) = (86_399, 86_398),
        7,
        "filing time 23:59:58 (bytes 72 to 75); allowed: 23:59:59; executed at 23:59:59 (bytes 16 to 19)",
    );
    for day in [1, 2] {
        refused(
            |f| (f.day, f.filed_at) = (day, 86_400),
            7,
            "filing time 24:00:00 (bytes 72 to 75); allowed: 00:00:00 to 23:59:59",
        );
    }
    refused(
        |f| f.agreed_after = 86_401,
        7,
        "agreement made 86,401 s (bytes 76 to 79); allowed: 0 s to 86,400 s",
    );
    refused(
        |f| f.agreed_after = NONE,
        7,
        "agreement made none (bytes 76 to 79); allowed: 0 s to 86,400 s",
    );
    refused(
        |f| f.accepted_after = 86_401,
        7,
        "acceptance 86,401 s (bytes 80 to 83); allowed: 0 s to 86,400 s or none",
    );
    refused(
        |f| f.accepted_after = NONE - 1,
        7,
        "acceptance 4,294,967,294 s (bytes 80 to 83); allowed: 0 s to 86,400 s or none",
    );
    // The filing before the execution comes first in the record.
    refused(
        |f| (f.filed_at, f.agreed_after, f.buyer_limit) = (0, 86_401, 0),
        7,
        "filing time 00:00:00 (bytes 72 to 75); allowed: 09:30:00 to 23:59:59; executed at 09:30:00 (bytes 16 to 19)",
    );
}

#[test]
fn limits_that_the_execution_violates() {
    refused(
        |f| f.buyer_limit = 1_999,
        8,
        "buyer's limit 1.999 (bytes 52 to 55); allowed: 2.000 or more or none; the execution price is 2.000 (bytes 8 to 11)",
    );
    refused(
        |f| f.seller_limit = 2_001,
        8,
        "seller's limit 2.001 (bytes 60 to 63); allowed: 0.000 to 2.000 or none; the execution price is 2.000 (bytes 8 to 11)",
    );
    refused(
        |f| (f.buyer_limit, f.seller_limit, f.agreement) = (0, 9_999_999, 1),
        8,
        "buyer's limit 0.000 (bytes 52 to 55); allowed: 2.000 or more or none; the execution price is 2.000 (bytes 8 to 11)",
    );
    refused(
        |f| (f.execution, f.seller_limit) = (0, 1),
        8,
        "seller's limit 0.001 (bytes 60 to 63); allowed: 0.000 or none; the execution price is 0.000 (bytes 8 to 11)",
    );
}

#[test]
fn agreements_that_contradict_themselves() {
    refused(
        |f| f.agreement = 1,
        9,
        "agreed price none (bytes 68 to 71); allowed: 0.000 or more; the agreement is on a price (byte 67)",
    );
    refused(
        |f| f.agreed = 1_700,
        9,
        "agreed price 1.700 (bytes 68 to 71); allowed: none; the agreement is none (byte 67)",
    );
    refused(
        |f| (f.agreement, f.agreed, f.agreed_after) = (2, 0, 5),
        9,
        "agreed price 0.000 (bytes 68 to 71); allowed: none; the agreement is to nullify (byte 67)",
    );
    refused(
        |f| f.agreed_after = 1_200,
        9,
        "agreement made 1,200 s (bytes 76 to 79); allowed: 0 s; the agreement is none (byte 67)",
    );
    refused(
        |f| (f.agreed, f.agreed_after) = (1_700, 60),
        9,
        "agreed price 1.700 (bytes 68 to 71); allowed: none; the agreement is none (byte 67)",
    );
}

/// The fields before it are at their bounds, which they do not break.
#[test]
fn the_first_field_that_breaks_its_test() {
    refused(
        |f| {
            (f.execution, f.bid, f.offer, f.official) = (9_999_999, 9_999_999, NONE, 0);
            (f.buyer_limit, f.seller_limit, f.agreed) = (9_999_999, 0, 10_000_000);
        },
        5,
        "agreed price 10000.000 (bytes 68 to 71); allowed: 0.000 to 9999.999 or none",
    );
    for contracts in [1, 1_000_000] {
        refused(
            |f| (f.contracts, f.bid, f.bid_size, f.offer_size) = (contracts, 0, 1_000_000, 0),
            6,
            "offer size 0 (bytes 32 to 35); allowed: 1 to 1,000,000; the best offer is 1.000 (bytes 24 to 27)",
        );
    }
    refused(
        |f| (f.executed_at, f.filed_at, f.agreed_after) = (86_399, 86_399, 86_401),
        7,
        "agreement made 86,401 s (bytes 76 to 79); allowed: 0 s to 86,400 s",
    );
    refused(
        |f| (f.agreed_after, f.accepted_after) = (86_400, 86_401),
        7,
        "acceptance 86,401 s (bytes 80 to 83); allowed: 0 s to 86,400 s or none",
    );
    refused(
        |f| (f.buyer_limit, f.seller_limit) = (2_000, 2_001),
        8,
        "seller's limit 2.001 (bytes 60 to 63); allowed: 0.000 to 2.000 or none; the execution price is 2.000 (bytes 8 to 11)",
    );
}

// ---- R17.12, R17.13: careful

#[track_caller]
fn careful(fields: &Fields, lines: &[&str]) {
    let expected: Vec<String> = lines
        .iter()
        .map(|line| format!("  careful    {line}"))
        .collect();
    assert_eq!(steps(fields, "careful"), expected);
    // They stand at the end of the case, and on their own behind its trade.
    let text = explained(fields);
    let told = expected.iter().map(|line| line.to_owned() + "\n");
    let told: String = told.collect();
    assert!(text.ends_with(&told));
    let alone = match lines {
        [] => String::new(),
        _ => format!("#0 trade {}\n{told}", fields.trade),
    };
    assert_eq!(careful_sheet(&fields.encode()), alone.as_bytes());
}

#[test]
fn each_field_read_high_byte_first() {
    // 327,680 is 00 00 05 00 in the record, which reads 1,280 high byte first.
    let near = "327.680";
    for (name, at, change) in [
        (
            "the bid",
            20,
            (|f| (f.bid, f.bid_size) = (327_680, 5)) as fn(&mut Fields),
        ),
        ("the offer", 24, |f| f.offer = 327_680),
        ("the official's price", 40, |f| f.official = 327_680),
        ("the buyer's limit", 52, |f| f.buyer_limit = 327_680),
    ] {
        let mut fields = Fields::example();
        change(&mut fields);
        let line = format!(
            "{name} {near} (bytes {at} to {}) read high byte first is 1.280, nearer the execution 2.000 (bytes 8 to 11)",
            at + 3
        );
        careful(&fields, &[&line]);
    }
    // A seller's limit is at most the execution: 1.280 reads 327.680.
    let fields = Fields {
        execution: 400_000,
        seller_limit: 1_280,
        ..Fields::example()
    };
    careful(&fields, &["the seller's limit 1.280 (bytes 60 to 63) read high byte first is 327.680, nearer the execution 400.000 (bytes 8 to 11)"]);
    // Four of them in a case, in the record's order.
    let four = Fields {
        execution: 800_000,
        bid: 1_280,
        bid_size: 1,
        offer: 2_560,
        official: 3_840,
        seller_limit: 1_280,
        ..Fields::example()
    };
    careful(&four, &[
        "the bid 1.280 (bytes 20 to 23) read high byte first is 327.680, nearer the execution 800.000 (bytes 8 to 11)",
        "the offer 2.560 (bytes 24 to 27) read high byte first is 655.360, nearer the execution 800.000 (bytes 8 to 11)",
        "the official's price 3.840 (bytes 40 to 43) read high byte first is 983.040, nearer the execution 800.000 (bytes 8 to 11)",
        "the seller's limit 1.280 (bytes 60 to 63) read high byte first is 327.680, nearer the execution 800.000 (bytes 8 to 11)",
    ]);
}

#[test]
fn nothing_to_be_careful_of() {
    let offered = |execution, offer| Fields {
        execution,
        offer,
        ..Fields::example()
    };
    // Nearer as it stands; no price when turned (2.600 reads 671,744,000); none, which is none both ways.
    careful(&offered(2_000, 1_280), &[]);
    careful(&offered(3_000, 2_600), &[]);
    careful(&offered(9_999_999, 9_999_999), &[]);
    careful(&Fields::example(), &[]);
    // Equal when turned: 00 05 05 00 either way.
    careful(&offered(2_000, 0x0005_0500), &[]);
    careful(&offered(2_000, 0), &[]);
    // As near one way as the other: 1.280 and 327.680 around 164.480; a mill past the middle it is nearer.
    careful(&offered(164_480, 1_280), &[]);
    careful(&offered(164_480, 327_680), &[]);
    careful(&offered(164_481, 1_280), &["the offer 1.280 (bytes 24 to 27) read high byte first is 327.680, nearer the execution 164.481 (bytes 8 to 11)"]);
    careful(&offered(164_479, 327_680), &["the offer 327.680 (bytes 24 to 27) read high byte first is 1.280, nearer the execution 164.479 (bytes 8 to 11)"]);
}

#[test]
fn careful_of_a_refused_case() {
    let fields = Fields {
        trade: 405,
        execution: 2_000,
        bid: 655_360,
        bid_size: 20,
        offer: 671_744_000,
        ..Fields::example()
    };
    whole(&fields, &[
        "trade 405: REFUSED 5",
        "  best offer 671744.000 (bytes 24 to 27); allowed: 0.000 to 9999.999 or none [R3.5]",
        "  careful    the bid 655.360 (bytes 20 to 23) read high byte first is 2.560, nearer the execution 2.000 (bytes 8 to 11)",
    ]);
    // The number that stands at 8 is no price: nothing is nearer to it.
    let unpriced = Fields {
        execution: NONE,
        offer: 1_280,
        ..fields.clone()
    };
    whole(
        &unpriced,
        &[
            "trade 405: REFUSED 5",
            "  execution price none (bytes 8 to 11); allowed: 0.000 to 9999.999 [R3.5]",
        ],
    );
    let side = Fields { side: 0, ..fields };
    careful(&side, &["the bid 655.360 (bytes 20 to 23) read high byte first is 2.560, nearer the execution 2.000 (bytes 8 to 11)"]);
}

// ---- R17.1: sheets

#[test]
fn a_sheet_and_one_trade_of_it() {
    let text = |sheet: &[u8], trade| String::from_utf8(explain_sheet(sheet, trade)).expect("text");
    assert_eq!(
        text(&[], None),
        "FOR THE DESK ALONE: limits are shown\nEND 0 0\n"
    );
    let sheet = page_sheet();
    let cases: Vec<String> = sheet.chunks(88).map(explain_case).collect();
    let shown = |which: &[usize]| {
        let mut text = String::from("FOR THE DESK ALONE: limits are shown\n");
        for &index in which {
            text += &format!("#{index} {}", cases[index]);
        }
        text + "END 2 1\n"
    };
    assert_eq!(text(&sheet, None), shown(&[0, 1, 2]));
    assert_eq!(text(&sheet, Some(1)), shown(&[0]));
    assert_eq!(text(&sheet, Some(2)), shown(&[1]));
    // A refused case too; and a trade that is not there.
    assert_eq!(text(&sheet, Some(3)), shown(&[2]));
    assert_eq!(text(&sheet, Some(4)), shown(&[]));
    let same = Fields {
        trade: 1,
        ..Fields::example().wide(5)
    };
    let twice = [sheet.clone(), same.encode()].concat();
    let expected = format!(
        "FOR THE DESK ALONE: limits are shown\n#0 {}#3 {}END 3 1\n",
        cases[0],
        explained(&same)
    );
    assert_eq!(text(&twice, Some(1)), expected);
    // Refused whole: no other line, whatever trade is asked for.
    for trade in [None, Some(1)] {
        assert_eq!(text(&sheet[..100], trade), "SHEET REFUSED 10\n");
        assert_eq!(text(&vec![0; 52_801], trade), "SHEET REFUSED 10\n");
    }
    assert_eq!(careful_sheet(&sheet[..100]), b"");
}

// ---- the samples

fn samples() -> PathBuf {
    Path::new(env!("CARGO_MANIFEST_DIR")).join("../samples")
}

fn sample_sheets() -> Vec<PathBuf> {
    let sheets: Vec<PathBuf> = fs::read_dir(samples())
        .expect("the folder samples")
        .map(|entry| entry.expect("an entry of samples").path())
        .filter(|path| path.extension().is_some_and(|kind| kind == "sheet"))
        .collect();
    assert!(sheets.contains(&samples().join("unseen.sheet")));
    sheets
}

/// `NAME.explained` beside each `NAME.sheet`, and `NAME.careful` where there is something to tell.
#[test]
fn the_samples_are_explained_as_they_stand() {
    for path in sample_sheets() {
        let sheet = fs::read(&path).expect("a sheet");
        let expected = fs::read(path.with_extension("explained")).expect("the text beside it");
        let text = explain_sheet(&sheet, None);
        let name = path.display();
        assert!(text == expected, "{name}:\n{}", text.escape_ascii());
        let careful = fs::read(path.with_extension("careful")).unwrap_or_default();
        assert!(careful_sheet(&sheet) == careful, "{name}: careful");
    }
}

/// Every line ends with a line feed and no space, and no line is empty.
#[test]
fn the_samples_have_whole_lines() {
    for path in sample_sheets() {
        let text = fs::read_to_string(path.with_extension("explained")).expect("text");
        assert!(text.ends_with('\n') && text.is_ascii());
        assert!(text
            .lines()
            .all(|line| !line.is_empty() && line.trim_end() == line));
    }
}
