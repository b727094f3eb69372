//! Accepted cases, most of them on or beside an edge of a rule.
//!
//! The numbers here are the page's own, written once more: the generator must not lean on either
//! desk.

use crate::fields::{Fields, NONE};
use crate::random::Random;

const HIGHEST_PRICE: u32 = 9_999_999;
const MOST_CONTRACTS: u32 = 1_000_000;
const LAST_SECOND: u32 = 86_399;

const CUSTOMER: u8 = 1;
const BUY: u8 = 1;

/// The bands: first and last TP, obvious minimum, catastrophic minimum and adjustment.
const BANDS: [(u32, u32, u32, u32); 7] = [
    (0, 1_999, 250, 1_000),
    (2_000, 5_000, 400, 2_000),
    (5_001, 10_000, 500, 3_000),
    (10_001, 20_000, 800, 5_000),
    (20_001, 50_000, 1_000, 7_000),
    (50_001, 100_000, 1_000, 10_000),
    (100_001, HIGHEST_PRICE, 1_000, 15_000),
];

/// Where the adjustment of an obvious error changes from .15 to .30.
const THREE_DOLLARS: u32 = 3_000;

/// An accepted case of either kind.
pub fn accepted(random: &mut Random) -> Fields {
    let wide = random.once_in(2);
    accepted_of(random, wide)
}

/// An accepted case of kind 2 if it is to be one, else of kind 1.
pub fn accepted_of(random: &mut Random, wide: bool) -> Fields {
    if wide {
        accepted_wide(random)
    } else {
        accepted_narrow(random)
    }
}

fn accepted_narrow(random: &mut Random) -> Fields {
    let mut fields = without_prices(random);
    let (tp, amount) = tp_and_amount(random);
    fields.execution = execution(random, fields.side, tp, amount);
    let own = source(random, tp);
    let other = any_price(random, tp, amount);
    set_quotes(&mut fields, own, other);
    set_other_prices(random, fields, tp, amount)
}

fn accepted_wide(random: &mut Random) -> Fields {
    let mut fields = without_prices(random);
    let (tp, amount) = tp_and_amount(random);
    fields.execution = execution(random, fields.side, tp, amount);
    let (own, other) = market(random, fields.side, tp, amount);
    set_quotes(&mut fields, own, other);
    let fields = fields.clone().wide(differential(random, &fields));
    set_other_prices(random, fields, tp, amount)
}

/// All that the prices do not depend on.
fn without_prices(random: &mut Random) -> Fields {
    let mut fields = Fields {
        trade: random.word(),
        contracts: contracts(random),
        side: random.pick(&[1, 2]),
        opening: random.pick(&[0, 1]),
        expiry: random.pick(&[0, 0, 0, 1]),
        panel: random.pick(&[0, 0, 0, 1]),
        buyer_code: code(random),
        seller_code: code(random),
        buyer_kind: random.pick(&[CUSTOMER, 2, 3]),
        seller_kind: random.pick(&[CUSTOMER, 2, 3]),
        accepted_after: acceptance(random),
        ..Fields::example()
    };
    if random.once_in(6) {
        steer_to_opening(random, &mut fields);
    } else {
        set_times(random, &mut fields);
    }
    fields
}

fn contracts(random: &mut Random) -> u32 {
    match random.within(0, 5) {
        0 => random.pick(&[1, 2, MOST_CONTRACTS - 1, MOST_CONTRACTS]),
        1 => random.within(1, MOST_CONTRACTS),
        _ => random.within(1, 100),
    }
}

/// A member code; its bytes are often the first or the last of their range.
fn code(random: &mut Random) -> [u8; 4] {
    std::array::from_fn(|_| match random.within(0, 2) {
        0 => random.pick(b"AZ09"),
        1 => random.within(u32::from(b'A'), u32::from(b'Z')) as u8,
        _ => random.within(u32::from(b'0'), u32::from(b'9')) as u8,
    })
}

fn acceptance(random: &mut Random) -> u32 {
    match random.within(0, 3) {
        0 => NONE,
        1 => random.within(0, 86_400),
        _ => random.pick(&[0, 1, 1_799, 1_800, 1_801, 86_399, 86_400]),
    }
}

/// Chance alone seldom puts all that the opening way asks for together.
fn steer_to_opening(random: &mut Random, fields: &mut Fields) {
    fields.opening = 1;
    if fields.side == BUY {
        fields.buyer_kind = CUSTOMER;
    } else {
        fields.seller_kind = CUSTOMER;
    }
    fields.day = 0;
    fields.executed_at = random.within(30_600, 57_000);
    fields.filed_at = match random.within(0, 3) {
        0 => beside(random, fields.executed_at + 1_200),
        1 => beside(random, 59_400),
        _ => random.within(fields.executed_at + 1_201, 59_400),
    };
}

/// The filing day, the execution and the filing.
fn set_times(random: &mut Random, fields: &mut Fields) {
    fields.day = random.pick(&[0, 0, 0, 0, 0, 0, 0, 1, 1, 2]);
    if fields.day != 0 {
        fields.executed_at = time_of_day(random);
        fields.filed_at = match random.within(0, 2) {
            0 => random.within(0, 30_600),
            1 => beside(random, 30_600),
            _ => time_of_day(random),
        };
    } else if random.once_in(3) {
        fields.filed_at = time_of_day(random);
        let since = seconds_since(random).min(fields.filed_at);
        fields.executed_at = fields.filed_at - since;
    } else {
        let since = seconds_since(random);
        fields.executed_at = time_of_day(random).min(LAST_SECOND - since);
        fields.filed_at = fields.executed_at + since;
    }
}

/// A second of the day, often one beside a closing time.
fn time_of_day(random: &mut Random) -> u32 {
    if random.once_in(3) {
        return random.within(0, LAST_SECOND);
    }
    let edge = random.pick(&[0, 30_600, 34_200, 59_400, 61_200, LAST_SECOND]);
    beside(random, edge).min(LAST_SECOND)
}

/// The seconds from execution to filing, often beside a way's limit.
fn seconds_since(random: &mut Random) -> u32 {
    match random.within(0, 7) {
        0 => random.within(0, LAST_SECOND),
        1 => random.within(0, 2_400),
        _ => {
            let edge = random.pick(&[0, 300, 1_200, 1_201, 1_800, 7_200]);
            beside(random, edge)
        }
    }
}

/// The quote of the side in error and the other one.
fn set_quotes(fields: &mut Fields, own: u32, other: u32) {
    (fields.bid, fields.offer) = if fields.side == BUY {
        (other, own)
    } else {
        (own, other)
    };
}

/// The official's price, the sizes of the quotes, the limits and the agreement.
fn set_other_prices(random: &mut Random, mut fields: Fields, tp: u32, amount: u32) -> Fields {
    let (own, _) = fields.own_quote();
    let trusted = if fields.is_wide() { NONE } else { own };
    fields.official = official(random, trusted, tp, amount);
    fields.bid_size = size(random, fields.bid, fields.contracts);
    fields.offer_size = size(random, fields.offer, fields.contracts);
    fields.buyer_limit = limit(random, fields.execution, tp, amount, |limit, execution| {
        limit >= execution
    });
    fields.seller_limit = limit(random, fields.execution, tp, amount, |limit, execution| {
        limit <= execution
    });
    set_agreement(random, &mut fields);
    fields
}

/// A TP, often beside an edge of its band, and an amount of the table for it, or one of another
/// band.
fn tp_and_amount(random: &mut Random) -> (u32, u32) {
    let (first, last, obvious, catastrophic) = random.pick(&BANDS);
    let tp = match random.within(0, 9) {
        0 => random.within(first, last),
        1 => random.within(0, 8_000),
        2 => beside(random, THREE_DOLLARS),
        3 => 0,
        4..=6 => beside(random, first),
        _ => beside(random, last).min(HIGHEST_PRICE),
    };
    let (_, _, other_obvious, other_catastrophic) = random.pick(&BANDS);
    let amount = random.pick(&[
        obvious,
        obvious,
        catastrophic,
        catastrophic,
        other_obvious,
        other_catastrophic,
        150,
        300,
    ]);
    (tp, amount)
}

/// An execution at about the amount from TP, seldom on the side where there is no error, or
/// anywhere.
fn execution(random: &mut Random, side: u8, tp: u32, amount: u32) -> u32 {
    let distance = match random.within(0, 3) {
        0 => amount + random.within(0, amount),
        _ => beside(random, amount),
    };
    let above = (side == BUY) != random.once_in(12);
    match random.within(0, 19) {
        0 => random.within(0, HIGHEST_PRICE),
        1 => beside(random, tp).min(HIGHEST_PRICE),
        _ if above => (tp + distance).min(HIGHEST_PRICE),
        _ => tp.saturating_sub(distance),
    }
}

/// The quote that gives TP: now and then none.
fn source(random: &mut Random, tp: u32) -> u32 {
    if random.once_in(5) {
        NONE
    } else {
        tp
    }
}

/// A price that shall not matter: the other quote.
fn any_price(random: &mut Random, tp: u32, amount: u32) -> u32 {
    let price = random.pick(&[
        NONE,
        0,
        1,
        HIGHEST_PRICE,
        tp,
        tp + amount,
        tp.saturating_sub(amount),
    ]);
    if price == NONE {
        NONE
    } else {
        price.min(HIGHEST_PRICE)
    }
}

/// The two quotes of a case of kind 2, that of the side in error first: at TP or beside it or away
/// from it, since the official's price is TP where they are wide; the other one mostly on its own
/// side of the market, near or far.
fn market(random: &mut Random, side: u8, tp: u32, amount: u32) -> (u32, u32) {
    let own = match random.within(0, 11) {
        0 => NONE,
        1..=5 => tp,
        6 | 7 => beside(random, tp).min(HIGHEST_PRICE),
        _ => any_price(random, tp, amount),
    };
    if own == NONE || random.once_in(4) {
        return (own, any_price(random, tp, amount));
    }
    if random.once_in(40) {
        // As wide as a market can be, to a mill.
        let (low, high) = (random.within(0, 1), HIGHEST_PRICE - random.within(0, 1));
        return if side == BUY {
            (high, low)
        } else {
            (low, high)
        };
    }
    let apart = match random.within(0, 5) {
        0 => random.within(0, 4),
        1 => random.within(0, HIGHEST_PRICE),
        2 => beside(random, amount),
        3 => beside(random, 2 * amount),
        _ => random.within(1, 600),
    };
    let below = (side == BUY) != random.once_in(6);
    let other = if below {
        own.saturating_sub(apart)
    } else {
        (own + apart).min(HIGHEST_PRICE)
    };
    (own, other)
}

/// A differential, mostly one that the quotes are twice as far apart as, or a mill more or less; or
/// that they would be so by a rule that is easily taken for it.
fn differential(random: &mut Random, fields: &Fields) -> u32 {
    let apart = if fields.bid == NONE || fields.offer == NONE {
        random.within(0, 2_000)
    } else {
        fields.bid.abs_diff(fields.offer)
    };
    let any = random.within(1, HIGHEST_PRICE);
    let few = random.within(1, 300);
    let differential = match random.within(0, 15) {
        0..=7 => {
            let half = apart / 2;
            random.pick(&[
                half,
                half,
                apart.div_ceil(2),
                half + 1,
                half.saturating_sub(1),
            ])
        }
        8 => random.pick(&[apart, apart + 1, apart.saturating_sub(1)]),
        9 => random.pick(&[2 * apart, apart / 4, apart / 3]),
        10 => random.pick(&[1, 2, HIGHEST_PRICE, HIGHEST_PRICE - 1]),
        // Twice the one is a distance that quotes can have, twice the other is none.
        11 => random.pick(&[4_999_999, 5_000_000]),
        12 => any,
        _ => few,
    };
    differential.clamp(1, HIGHEST_PRICE)
}

/// The official's price: where no quote gives TP, TP mostly, and now and then none too; beside a
/// quote that does anything, the same price and none among it.
fn official(random: &mut Random, quote: u32, tp: u32, amount: u32) -> u32 {
    match random.within(0, 7) {
        0..=5 if quote == NONE => tp,
        6 if quote == NONE => NONE,
        _ => any_price(random, tp, amount),
    }
}

/// "A quote of none has size 0; a quote above zero has size at least 1; a quote of zero may have
/// either."
fn size(random: &mut Random, quote: u32, contracts: u32) -> u32 {
    if quote == NONE {
        return 0;
    }
    let any = random.within(0, MOST_CONTRACTS);
    let fewer = random.within(0, contracts);
    let size = random.pick(&[
        0,
        1,
        contracts - 1,
        contracts,
        contracts + 1,
        fewer,
        any,
        MOST_CONTRACTS,
    ]);
    let least = if quote == 0 { 0 } else { 1 };
    size.clamp(least, MOST_CONTRACTS)
}

/// A limit that the execution price keeps, often beside a price that is tested against it.
fn limit(
    random: &mut Random,
    execution: u32,
    tp: u32,
    amount: u32,
    keeps: fn(u32, u32) -> bool,
) -> u32 {
    let tested = random.pick(&[execution, tp, tp + amount, tp.saturating_sub(amount)]);
    let near = beside(random, tested);
    let between = random.within(execution.min(tp), execution.max(tp));
    let limit = random.pick(&[NONE, near, near, near, between, 0, HIGHEST_PRICE]);
    if limit != NONE && limit <= HIGHEST_PRICE && keeps(limit, execution) {
        limit
    } else {
        NONE
    }
}

/// Byte 67 and the fields that go with it.
fn set_agreement(random: &mut Random, fields: &mut Fields) {
    fields.agreement = random.pick(&[0, 0, 0, 0, 0, 1, 2]);
    if fields.agreement == 1 {
        fields.agreed = match random.within(0, 2) {
            0 => random.within(0, HIGHEST_PRICE),
            1 => fields.execution,
            _ => random.pick(&[0, 1, HIGHEST_PRICE]),
        };
    }
    if fields.agreement != 0 {
        fields.agreed_after = match random.within(0, 3) {
            0 => random.within(0, 86_400),
            _ => random.pick(&[0, 1, 599, 600, 601, 1_799, 1_800, 1_801, 86_399, 86_400]),
        };
    }
}

/// The number, the one before it or the one after it.
fn beside(random: &mut Random, number: u32) -> u32 {
    (number + random.within(0, 2)).saturating_sub(1)
}
