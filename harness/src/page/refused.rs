//! R17.11: of a refused case, the first field that breaks the test of its number.

use super::form::Record;
use super::reading::{u16_at, HIGHEST_PRICE, LAST_SECOND, MOST_CONTRACTS, NONE};
use super::refusal::Refusal;
use super::shown::{clock, count, dollars, passed, placed, Shown};

const LONGEST_WAIT: u32 = 86_400;

/// A field that breaks its test: its name, the number that stands there with its place, what is allowed,
/// and what comes then.
struct Broken {
    name: &'static str,
    number: String,
    allowed: String,
    then: String,
}

impl Broken {
    fn line(&self, refusal: Refusal) -> String {
        let Broken {
            name,
            number,
            allowed,
            then,
        } = self;
        let test = refusal.number();
        format!("  {name} {number}; allowed: {allowed}{then} [R3.{test}]\n")
    }
}

/// A field whose bounds no other field gives.
fn broken(name: &'static str, number: String, allowed: impl Into<String>) -> Broken {
    Broken {
        name,
        number,
        allowed: allowed.into(),
        then: String::new(),
    }
}

/// "Where only one number is allowed it stands alone."
fn from_to(lowest: String, highest: String) -> String {
    if lowest == highest {
        lowest
    } else {
        format!("{lowest} to {highest}")
    }
}

/// Test 1: "`length of the case`, a count; no place".
pub fn length_line(bytes: usize) -> String {
    broken("length of the case", count(bytes), "88 or 92").line(Refusal::CaseLength)
}

/// Test 2: the length, if that is not the case's own, else the kind.
pub fn head_line(record: Record) -> String {
    let (bytes, kind) = match record {
        Record::Kind1(_) => (88, "1"),
        Record::Kind2(_) => (92, "2"),
    };
    let at_the_head = |at| u16_at(record.facts(), at);
    let length = usize::from(at_the_head(0));
    let field = if length == bytes {
        let number = placed(&at_the_head(2).to_string(), 2, 2);
        broken("kind at the head", number, kind)
    } else {
        Broken {
            then: String::from(", as long as the case is"),
            ..broken(
                "length at the head",
                placed(&count(length), 0, 2),
                count(bytes),
            )
        }
    };
    field.line(Refusal::LengthOrKind)
}

/// Tests 3 to 9: the first field in the record's order that breaks the one of that number.
pub fn field_line(record: Record, refusal: Refusal) -> String {
    let shown = Shown::new(record);
    let field = match refusal {
        Refusal::ZeroOrCodedByte => zero_or_coded_byte(shown),
        Refusal::MemberCode => member_code(shown),
        Refusal::Price => price(record),
        Refusal::ContractsOrSize => contracts_or_size(shown),
        Refusal::Time => time(shown),
        Refusal::Limit => limit(shown),
        Refusal::Agreement => agreement(shown),
        _ => None,
    };
    field
        .expect("a field breaks the test that failed")
        .line(refusal)
}

/// Test 3: the coded bytes in the record's order, each with the lowest and the highest that it may be,
/// between the zeros.
fn zero_or_coded_byte(shown: Shown) -> Option<Broken> {
    const CODED: [(&str, usize, u8, u8); 8] = [
        ("side in error", 44, 1, 2),
        ("on the opening", 45, 0, 1),
        ("expiry deadline", 46, 0, 1),
        ("panel already decided", 47, 0, 1),
        ("buyer's kind", 64, 1, 3),
        ("seller's kind", 65, 1, 3),
        ("filing day", 66, 0, 2),
        ("agreement", 67, 0, 2),
    ];
    let coded = |(name, at, lowest, highest)| {
        let byte = shown.byte(at);
        (!(lowest..=highest).contains(&byte)).then(|| {
            let number = placed(&byte.to_string(), at, 1);
            broken(name, number, format!("{lowest} to {highest}"))
        })
    };
    zeros(shown, 36)
        .or_else(|| CODED.into_iter().find_map(coded))
        .or_else(|| zeros(shown, 84))
}

fn zeros(shown: Shown, at: usize) -> Option<Broken> {
    let word = shown.word(at);
    (word != 0).then(|| broken("zero bytes", placed(&word.to_string(), at, 4), "0"))
}

/// Test 4: "the byte that breaks it, bare".
fn member_code(shown: Shown) -> Option<Broken> {
    let buyer = (48..52).map(|at| ("buyer's member code", at));
    let seller = (56..60).map(|at| ("seller's member code", at));
    buyer.chain(seller).find_map(|(name, at)| {
        let byte = shown.byte(at);
        let allowed = byte.is_ascii_digit() || byte.is_ascii_uppercase();
        let number = placed(&byte.to_string(), at, 1);
        (!allowed).then(|| broken(name, number, "0 to 9 or A to Z"))
    })
}

/// Test 5: the execution price, which is never none; those that may be; in kind 2 the permitted
/// differential.
fn price(record: Record) -> Option<Broken> {
    const OR_NONE: [(&str, usize); 6] = [
        ("best bid", 20),
        ("best offer", 24),
        ("official's price", 40),
        ("buyer's limit", 52),
        ("seller's limit", 60),
        ("agreed price", 68),
    ];
    let shown = Shown::new(record);
    let is_price = |at| shown.word(at) <= HIGHEST_PRICE;
    let highest = dollars(HIGHEST_PRICE);
    if !is_price(8) {
        let allowed = format!("0.000 to {highest}");
        return Some(broken("execution price", shown.price(8), allowed));
    }
    for (name, at) in OR_NONE {
        if !is_price(at) && shown.word(at) != NONE {
            let allowed = format!("0.000 to {highest} or none");
            return Some(broken(name, shown.price(at), allowed));
        }
    }
    let wide = matches!(record, Record::Kind2(_));
    (wide && (!is_price(88) || shown.word(88) == 0)).then(|| {
        let allowed = format!("0.001 to {highest}");
        broken("permitted differential", shown.price(88), allowed)
    })
}

/// Test 6: the contracts, then the size of each quote, whose bounds the quote gives (R2.8).
fn contracts_or_size(shown: Shown) -> Option<Broken> {
    let most = count(MOST_CONTRACTS as usize);
    if !matches!(shown.word(12), 1..=MOST_CONTRACTS) {
        let allowed = format!("1 to {most}");
        return Some(broken("contracts", shown.count(12), allowed));
    }
    let quotes = [
        ("bid size", 28, "the best bid", 20),
        ("offer size", 32, "the best offer", 24),
    ];
    quotes.into_iter().find_map(|(name, at, quote, price_at)| {
        let (lowest, highest) = match shown.word(price_at) {
            NONE => (0, 0),
            0 => (0, MOST_CONTRACTS),
            _ => (1, MOST_CONTRACTS),
        };
        (!(lowest..=highest).contains(&shown.word(at))).then(|| Broken {
            then: format!("; {quote} is {}", shown.price(price_at)),
            ..broken(
                name,
                shown.count(at),
                from_to(count(lowest as usize), count(highest as usize)),
            )
        })
    })
}

/// Test 7: the execution time, the filing time, and the two times after notice.
fn time(shown: Shown) -> Option<Broken> {
    if shown.word(16) > LAST_SECOND {
        let allowed = from_to(clock(0), clock(LAST_SECOND));
        return Some(broken("execution time", shown.time(16), allowed));
    }
    filing_time(shown)
        .or_else(|| {
            let allowed = from_to(passed(0), passed(LONGEST_WAIT));
            (shown.word(76) > LONGEST_WAIT)
                .then(|| broken("agreement made", shown.passed(76), allowed))
        })
        .or_else(|| {
            let allowed = from_to(passed(0), passed(LONGEST_WAIT)) + " or none";
            let accepted = shown.word(80);
            (accepted > LONGEST_WAIT && accepted != NONE)
                .then(|| broken("acceptance", shown.passed(80), allowed))
        })
}

/// "On day 0 from the execution time to 23:59:59, on another from 00:00:00."
fn filing_time(shown: Shown) -> Option<Broken> {
    let on_the_trade_date = shown.byte(66) == 0;
    let (earliest, then) = if on_the_trade_date {
        (shown.word(16), format!("; executed at {}", shown.time(16)))
    } else {
        (0, String::new())
    };
    (!(earliest..=LAST_SECOND).contains(&shown.word(72))).then(|| Broken {
        then,
        ..broken(
            "filing time",
            shown.time(72),
            from_to(clock(earliest), clock(LAST_SECOND)),
        )
    })
}

/// Test 8: the buyer's limit is the execution price or more, the seller's at most that; either may be
/// none, which is above every price.
fn limit(shown: Shown) -> Option<Broken> {
    let execution = shown.word(8);
    let (buyer, seller) = (shown.word(52), shown.word(60));
    let (name, at, allowed) = if buyer < execution {
        let allowed = format!("{} or more or none", dollars(execution));
        ("buyer's limit", 52, allowed)
    } else if seller > execution && seller != NONE {
        let allowed = from_to(dollars(0), dollars(execution)) + " or none";
        ("seller's limit", 60, allowed)
    } else {
        return None;
    };
    Some(Broken {
        then: format!("; the execution price is {}", shown.price(8)),
        ..broken(name, shown.price(at), allowed)
    })
}

/// Test 9: the agreed price is there exactly when the agreement is on a price; the seconds after notice
/// are 0 where there is no agreement.
fn agreement(shown: Shown) -> Option<Broken> {
    let (mark, agreed) = (shown.byte(67), shown.word(68));
    let field = if mark == 1 && agreed == NONE {
        broken("agreed price", shown.price(68), "0.000 or more")
    } else if mark != 1 && agreed != NONE {
        broken("agreed price", shown.price(68), "none")
    } else if mark == 0 && shown.word(76) != 0 {
        broken("agreement made", shown.passed(76), passed(0))
    } else {
        return None;
    };
    Some(Broken {
        then: format!("; the agreement is {}", shown.agreement()),
        ..field
    })
}
