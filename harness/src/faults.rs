//! Faults: each makes an accepted case fail one test, in every field and on every side that the
//! test has.

use crate::fields::{Fields, KIND_1, KIND_2, NONE};

/// A change of an accepted case, and the number of the test that it then fails first.
pub struct Fault {
    pub number: u32,
    pub name: String,
    change: Box<dyn Fn(&mut Fields)>,
}

impl Fault {
    fn new(number: u32, name: impl Into<String>, change: impl Fn(&mut Fields) + 'static) -> Fault {
        Fault {
            number,
            name: name.into(),
            change: Box::new(change),
        }
    }

    pub fn apply(&self, fields: &mut Fields) {
        (self.change)(fields);
    }
}

/// A way to one field, so that faults can be listed by field.
type Place<T> = (&'static str, fn(&mut Fields) -> &mut T);

/// Every single fault that a case of kind 1 can have, and that one of kind 2 can have too.
pub fn faults() -> Vec<Fault> {
    let mut all = Vec::new();
    length_or_kind(&mut all);
    zero_or_coded_byte(&mut all);
    member_code(&mut all);
    price(&mut all);
    contracts_or_size(&mut all);
    time(&mut all);
    limit(&mut all);
    agreement(&mut all);
    all
}

/// Every single fault that a case of kind 2 can have.
pub fn wide_faults() -> Vec<Fault> {
    let mut all = faults();
    differential(&mut all);
    all
}

/// Sets a field to each of the values.
fn set<T: Copy + std::fmt::Debug + 'static>(
    all: &mut Vec<Fault>,
    number: u32,
    (name, place): Place<T>,
    values: &[T],
) {
    for &value in values {
        let name = format!("{name} {value:?}");
        all.push(Fault::new(number, name, move |fields| {
            *place(fields) = value;
        }));
    }
}

/// Test 2: what is the length or kind of no case; and what is that of the other kind, in one of the
/// two fields or in both.
fn length_or_kind(all: &mut Vec<Fault>) {
    let lengths = [
        0,
        1,
        32,
        87,
        89,
        90,
        91,
        93,
        94,
        96,
        88 + 256,
        92 + 256,
        88 << 8,
        92 << 8,
        u16::MAX,
    ];
    set(all, 2, ("length", |f| &mut f.length), &lengths);
    let kinds = [0, 3, 16, 17, 18, 1 << 8, 2 << 8, 1 + 256, 2 + 256, u16::MAX];
    set(all, 2, ("kind", |f| &mut f.kind), &kinds);
    all.push(Fault::new(2, "the other kind's length", |fields| {
        fields.length = other_pair(fields).0;
    }));
    all.push(Fault::new(2, "the other kind's kind", |fields| {
        fields.kind = other_pair(fields).1;
    }));
    all.push(Fault::new(
        2,
        "the other kind's length and kind",
        |fields| {
            (fields.length, fields.kind) = other_pair(fields);
        },
    ));
    all.push(Fault::new(
        2,
        "length and kind in each other's place",
        |fields| {
            (fields.length, fields.kind) = (fields.kind, fields.length);
        },
    ));
    for pair in [(88, 3), (92, 3), (94, 3)] {
        all.push(Fault::new(2, format!("the pair {pair:?}"), move |fields| {
            (fields.length, fields.kind) = pair;
        }));
    }
}

/// The pair that belongs to a record of the other length.
fn other_pair(fields: &Fields) -> (u16, u16) {
    match fields.differential {
        None => KIND_2,
        Some(_) => KIND_1,
    }
}

/// Test 3.
fn zero_or_coded_byte(all: &mut Vec<Fault>) {
    let zeros: [Place<u32>; 2] = [
        ("zero_36", |f| &mut f.zero_36),
        ("zero_84", |f| &mut f.zero_84),
    ];
    for place in zeros {
        let each_byte = [1, 0x80, 1 << 8, 1 << 16, 1 << 24, 0xff << 24, NONE];
        set(all, 3, place, &each_byte);
    }
    set(all, 3, ("side", |f| &mut f.side), &[0, 3, b'1', 255]);
    let flags: [Place<u8>; 3] = [
        ("opening", |f| &mut f.opening),
        ("expiry", |f| &mut f.expiry),
        ("panel", |f| &mut f.panel),
    ];
    for place in flags {
        set(all, 3, place, &[2, 3, b'0', 128, 255]);
    }
    let kinds: [Place<u8>; 2] = [
        ("buyer_kind", |f| &mut f.buyer_kind),
        ("seller_kind", |f| &mut f.seller_kind),
    ];
    for place in kinds {
        set(all, 3, place, &[0, 4, 129, 255]);
    }
    set(all, 3, ("day", |f| &mut f.day), &[3, 4, 128, 255]);
    set(
        all,
        3,
        ("agreement", |f| &mut f.agreement),
        &[3, 4, 128, 255],
    );
}

/// Test 4: the bytes beside the two ranges, and some far from them, in each place.
fn member_code(all: &mut Vec<Fault>) {
    let codes: [Place<[u8; 4]>; 2] = [
        ("buyer_code", |f| &mut f.buyer_code),
        ("seller_code", |f| &mut f.seller_code),
    ];
    for (name, place) in codes {
        for at in 0..4 {
            for byte in [0, b' ', b'/', b':', b'@', b'[', b'a', b'z', 128, 193, 255] {
                let name = format!("{name}[{at}] {byte}");
                all.push(Fault::new(4, name, move |fields| {
                    place(fields)[at] = byte;
                }));
            }
        }
    }
}

/// Test 5.
fn price(all: &mut Vec<Fault>) {
    let above = [10_000_000, 3_691_315_200, NONE - 1];
    let execution: Place<u32> = ("execution", |f| &mut f.execution);
    set(all, 5, execution, &above);
    set(all, 5, execution, &[NONE]);
    let may_be_none: [Place<u32>; 6] = [
        ("bid", |f| &mut f.bid),
        ("offer", |f| &mut f.offer),
        ("official", |f| &mut f.official),
        ("buyer_limit", |f| &mut f.buyer_limit),
        ("seller_limit", |f| &mut f.seller_limit),
        ("agreed", |f| &mut f.agreed),
    ];
    for place in may_be_none {
        set(all, 5, place, &above);
    }
}

/// Test 5 of kind 2: "1 to 9,999,999".
fn differential(all: &mut Vec<Fault>) {
    for mills in [0, 10_000_000, 3_691_315_200, NONE - 1, NONE] {
        let name = format!("differential {mills}");
        all.push(Fault::new(5, name, move |fields| {
            fields.differential = Some(mills);
        }));
    }
}

/// Test 6.
fn contracts_or_size(all: &mut Vec<Fault>) {
    let above = [1_000_001, NONE - 1, NONE];
    let contracts: Place<u32> = ("contracts", |f| &mut f.contracts);
    set(all, 6, contracts, &above);
    set(all, 6, contracts, &[0]);
    let quotes: [(Place<u32>, Place<u32>); 2] = [
        (("bid", |f| &mut f.bid), ("bid_size", |f| &mut f.bid_size)),
        (
            ("offer", |f| &mut f.offer),
            ("offer_size", |f| &mut f.offer_size),
        ),
    ];
    for ((name, quote), size) in quotes {
        set(all, 6, size, &above);
        let (_, size) = size;
        for (price, count) in [
            (NONE, 1),
            (NONE, 1_000_000),
            (1, 0),
            (9_999_999, 0),
            (0, 1_000_001),
        ] {
            let name = format!("{name} {price} of size {count}");
            all.push(Fault::new(6, name, move |fields| {
                *quote(fields) = price;
                *size(fields) = count;
            }));
        }
    }
}

/// Test 7.
fn time(all: &mut Vec<Fault>) {
    let times: [Place<u32>; 2] = [
        ("executed_at", |f| &mut f.executed_at),
        ("filed_at", |f| &mut f.filed_at),
    ];
    for place in times {
        set(all, 7, place, &[86_400, NONE - 1, NONE]);
    }
    let agreed_after: Place<u32> = ("agreed_after", |f| &mut f.agreed_after);
    set(all, 7, agreed_after, &[86_401, NONE - 1, NONE]);
    let accepted_after: Place<u32> = ("accepted_after", |f| &mut f.accepted_after);
    set(all, 7, accepted_after, &[86_401, NONE - 1]);
    for (executed_at, filed_at) in [(1, 0), (34_200, 34_199), (86_399, 86_398), (86_399, 0)] {
        let name = format!("executed_at {executed_at}, filed_at {filed_at} on day 0");
        all.push(Fault::new(7, name, move |fields| {
            fields.day = 0;
            fields.executed_at = executed_at;
            fields.filed_at = filed_at;
        }));
    }
}

/// Test 8.
fn limit(all: &mut Vec<Fault>) {
    all.push(Fault::new(
        8,
        "execution one above the buyer's limit",
        |fields| {
            fields.execution = fields.execution.clamp(1, 9_999_999);
            fields.buyer_limit = fields.execution - 1;
        },
    ));
    all.push(Fault::new(
        8,
        "execution one below the seller's limit",
        |fields| {
            fields.execution = fields.execution.min(9_999_998);
            fields.seller_limit = fields.execution + 1;
        },
    ));
}

/// Test 9.
fn agreement(all: &mut Vec<Fault>) {
    let contradictions = [
        (0, 0, 0),
        (0, 9_999_999, 0),
        (0, NONE, 1),
        (0, NONE, 86_400),
        (1, NONE, 0),
        (1, NONE, 86_400),
        (2, 0, 0),
        (2, 9_999_999, 600),
    ];
    for (agreement, agreed, after) in contradictions {
        let name = format!("agreement {agreement}, agreed {agreed}, agreed_after {after}");
        all.push(Fault::new(9, name, move |fields| {
            fields.agreement = agreement;
            fields.agreed = agreed;
            fields.agreed_after = after;
        }));
    }
}
