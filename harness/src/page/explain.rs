//! "A ruling explained" (R17): every number of a ruling and where it was born, step by step.

use super::bands::band;
use super::careful::careful_lines;
use super::case::{violates, Agreement, Case, Day, Form, Kind, Side, Terms};
use super::form::Record;
use super::reading::{read_facts, read_record};
use super::refusal::Refusal;
use super::refused::{field_line, head_line, length_line};
use super::ruling::{rule, Outcome, Reason, Ruling, TheoreticalPrice};
use super::sheet::Sheet;
use super::shown::{clock, count, dollars, passed, Shown};
use super::units::{Mills, Seconds};
use super::way::{open_way, Way};
use super::width::is_wide;

const FIRST_LINE: &str = "FOR THE DESK ALONE: limits are shown\n";

/// R17.1: the explanation of a sheet; of the cases with one trade number where that is asked for.
pub fn explain_sheet(sheet: &[u8], trade: Option<u32>) -> Vec<u8> {
    let sheet = match Sheet::walked(sheet) {
        Ok(sheet) => sheet,
        // "Of a sheet refused whole it has the line of R11.8 and no other."
        Err(refusal) => return format!("SHEET REFUSED {}\n", refusal.number()).into_bytes(),
    };
    let mut text = String::from(FIRST_LINE);
    let (mut ruled, mut refused) = (0, 0);
    for (index, record) in sheet.records().enumerate() {
        match read_facts(record) {
            Ok(_) => ruled += 1,
            Err(_) => refused += 1,
        }
        if trade.is_none_or(|trade| trade == Shown::new(record).trade()) {
            text += &format!("#{index} {}", explain_record(record));
        }
    }
    // "END counts all cases."
    text += &format!("END {ruled} {refused}\n");
    text.into_bytes()
}

/// The lines of one case, of any bytes (R17.4 to R17.12).
pub fn explain_case(case: &[u8]) -> String {
    match Record::of_length(case) {
        Ok(record) => explain_record(record),
        Err(refusal) => bytes_refused(refusal, &length_line(case.len())),
    }
}

fn explain_record(record: Record) -> String {
    let shown = Shown::new(record);
    match read_record(record) {
        Ok(case) => explain_ruling(shown, &case) + &careful_lines(shown),
        Err(Refusal::LengthOrKind) => bytes_refused(Refusal::LengthOrKind, &head_line(record)),
        Err(refusal) => format!(
            "trade {}: {}{}",
            shown.trade(),
            bytes_refused(refusal, &field_line(record, refusal)),
            careful_lines(shown)
        ),
    }
}

/// R17.11: "of bytes refused with 1 or 2, which are no record, `REFUSED 1`"; behind the trade it is the
/// head of every refused case.
fn bytes_refused(refusal: Refusal, field: &str) -> String {
    format!("REFUSED {}\n{field}", refusal.number())
}

/// R17.4: the head, the steps that were reached, the contracts.
fn explain_ruling(shown: Shown, case: &Case) -> String {
    let ruling = rule(case);
    let mut explanation = Explanation {
        shown,
        case,
        ruling: &ruling,
        text: format!(
            "trade {}: {}, reason {}\n",
            case.trade,
            outcome_word(ruling.outcome),
            ruling.reason as u8
        ),
    };
    let way = open_way(case);
    explanation.steps(way);
    explanation.contracts(way);
    explanation.text
}

/// R11.2.
fn outcome_word(outcome: Outcome) -> &'static str {
    match outcome {
        Outcome::NoRelief => "NONE",
        Outcome::Adjusted => "ADJUST",
        Outcome::Nullified => "NULLIFY",
        Outcome::Waiting => "WAIT",
    }
}

/// The lines of a ruled case, as far as they are written.
struct Explanation<'a> {
    shown: Shown<'a>,
    case: &'a Case,
    ruling: &'a Ruling,
    text: String,
}

impl Explanation<'_> {
    /// R17.4: "two spaces and its word, filled with spaces to column 13"; the paragraph at the end.
    fn step(&mut self, word: &str, line: &str, paragraph: &str) {
        self.text += &format!("  {word:<11}{line} [{paragraph}]\n");
    }

    /// R17.4: "a step that was not reached has no line."
    fn steps(&mut self, way: Option<Way>) {
        self.way(way);
        let Some(way) = way else {
            return;
        };
        if way == Way::Catastrophic && self.case.panel_decided {
            let line = format!("already decided: {}", self.shown.flag(47));
            return self.step("panel", &line, "R4.5");
        }
        self.quotes();
        self.theoretical_price();
        let Some(tp) = self.ruling.tp.map(TheoreticalPrice::price) else {
            return;
        };
        self.error(way, tp);
        if self.ruling.reason == Reason::NoError {
            return;
        }
        self.agreement();
        // "Where it counts no act follows."
        match self.ruling.reason {
            Reason::AgreedPrice | Reason::AgreedNullification => (),
            _ => self.act(way, tp),
        }
    }

    /// R17.5: the way, when it was filed, and why each way before it was shut.
    fn way(&mut self, way: Option<Way>) {
        let (name, paragraph, shut) = match way {
            Some(Way::Obvious) => ("obvious", "R4.1", 0),
            Some(Way::Opening) => ("opening", "R4.2", 1),
            Some(Way::Catastrophic) => ("catastrophic", "R4.3", 2),
            None => ("none is open", "R4.4", 3),
        };
        let shown = self.shown;
        let since = match self.case.filing_day {
            Day::Trade => {
                let Seconds(between) = self.case.filed_at - self.case.executed_at;
                format!("{} after the execution at", passed(between))
            }
            Day::Next | Day::Later => String::from("executed at"),
        };
        let line = format!(
            "{name}: filed at {} on {}, {since} {}",
            shown.time(72),
            shown.filing_day(),
            shown.time(16)
        );
        self.step("way", &line, paragraph);
        let causes = [
            ("obvious", "R4.1", not_obvious as Cause),
            ("opening", "R4.2", not_opening),
            ("catastrophic", "R4.3", not_catastrophic),
        ];
        for (name, paragraph, cause) in causes.into_iter().take(shut) {
            let cause = cause(shown, self.case);
            self.step("", &format!("not {name}: {cause}"), paragraph);
        }
    }

    /// R17.6: "in a case of kind 2 with both quotes".
    fn quotes(&mut self) {
        let (Form::Kind2 { differential }, Some(bid), Some(_)) =
            (self.case.form, self.case.bid, self.case.offer)
        else {
            return;
        };
        let (relation, verdict) = if is_wide(self.case) {
            ("is at least", "wide")
        } else {
            ("is under", "not wide")
        };
        let Mills(sum) = bid.price + differential + differential;
        let shown = self.shown;
        let line = format!(
            "the offer {} {relation} the bid {} + twice {} = {}: {verdict}",
            shown.price(24),
            shown.price(20),
            shown.price(88),
            dollars(sum)
        );
        self.step("quotes", &line, "R5.6");
    }

    /// R17.6: TP, or that it is none.
    fn theoretical_price(&mut self) {
        let (name, at) = match self.case.side_in_error {
            Side::Buy => ("the best offer", 24),
            Side::Sell => ("the best bid", 20),
        };
        let (official, quote) = (self.shown.price(40), self.shown.price(at));
        let wide = is_wide(self.case);
        let (line, paragraph) = match self.ruling.tp {
            Some(TheoreticalPrice::Quoted(_)) => (format!("{quote}, {name}"), "R5.1"),
            Some(TheoreticalPrice::Official(_)) => (
                format!("{official}, an official's price; {name} is {quote}"),
                if wide { "R5.8" } else { "R5.2" },
            ),
            None => (
                format!("none: the official's price is {official}; {name} is {quote}"),
                if wide { "R5.9" } else { "R5.3" },
            ),
        };
        let too_wide = if wide { ", too wide" } else { "" };
        self.step("TP", &(line + too_wide), paragraph);
    }

    /// R17.7: "for a buy the first price is the execution and the second TP, for a sell the first is TP
    /// and the second the execution".
    fn error(&mut self, way: Way, tp: Mills) {
        let execution = (self.case.execution, self.shown.price(8));
        let theoretical = (tp, dollars(tp.0));
        let (first, second) = match self.case.side_in_error {
            Side::Buy => (execution, theoretical),
            Side::Sell => (theoretical, execution),
        };
        let (minimum, column) = match way {
            Way::Obvious | Way::Opening => (band(tp).obvious_minimum, "obvious"),
            Way::Catastrophic => (band(tp).catastrophic, "catastrophic"),
        };
        let sum = second.0 + minimum;
        let relation = if first.0 >= sum {
            "is at least"
        } else {
            "is under"
        };
        let (lowest, highest) = row(tp);
        let line = format!(
            "{} {relation} {} + {minimum} = {}, by {}; {minimum} is the {column} minimum for a TP of {} to {}",
            first.1,
            second.1,
            dollars(sum.0),
            dollars(first.0 .0.abs_diff(sum.0)),
            dollars(lowest),
            dollars(highest),
            minimum = dollars(minimum.0),
        );
        self.step("error", &line, "R6.1, R6.2");
    }

    /// R17.8: what was agreed, and whether it counts.
    fn agreement(&mut self) {
        let shown = self.shown;
        let agreed = shown.agreement();
        let Some(Agreement { terms, after }) = self.case.agreement else {
            return self.step("agreement", &agreed, "R7.4");
        };
        let price = match terms {
            Terms::Price(_) => format!(", {}", shown.price(68)),
            Terms::Nullify => String::new(),
        };
        let (with, allowed) = if self.case.has_customer() {
            ("with", 1_800)
        } else {
            ("without", 600)
        };
        let (verdict, paragraphs) = if after > Seconds(allowed) {
            ("too late", "R7.1, R7.4")
        } else {
            match self.ruling.reason {
                Reason::AgreedPrice => ("it counts", "R7.2"),
                Reason::AgreedNullification => ("it counts", "R7.3"),
                _ => ("not with a Customer on this way", "R7.3, R7.4"),
            }
        };
        let line = format!(
            "{agreed}{price}, made {} after notice; {with} a Customer allowed: {}: {verdict}",
            shown.passed(76),
            passed(allowed)
        );
        self.step("agreement", &line, paragraphs);
    }

    /// R17.9.
    fn act(&mut self, way: Way, tp: Mills) {
        match way {
            Way::Obvious => self.obvious(tp),
            Way::Opening => self.opening(tp),
            Way::Catastrophic => self.catastrophic(tp),
        }
    }

    fn obvious(&mut self, tp: Mills) {
        let (buyer, seller) = (self.shown.kind(64), self.shown.kind(65));
        let (what, paragraph) = if self.case.has_customer() {
            (String::from("with a Customer undone"), "R8.2.2")
        } else {
            // R8.2.1: ".15 if TP is below $3, .30 otherwise".
            let adjustment = if tp < Mills(3_000) { 150 } else { 300 };
            (self.adjusted(tp, Mills(adjustment)).1, "R8.2.1")
        };
        let line = format!("the buyer is {buyer}, the seller {seller}: {what}");
        self.step("act", &line, paragraph);
    }

    /// R12.5.1: the Customer's limit if the other party is a Market Maker, else the other party's.
    fn opening(&mut self, tp: Mills) {
        let line = format!("TP itself, {}", dollars(tp.0));
        self.step("act", &line, "R8.3.1");
        let in_error = self.case.side_in_error;
        match self.case.other_party().kind {
            Kind::MarketMaker => self.limit(in_error, tp, "R8.3.2"),
            Kind::Customer | Kind::Other => self.limit(in_error.opposite(), tp, "R8.3.3"),
        };
    }

    /// R12.5.2: each Customer's limit, "the buyer's first".
    fn catastrophic(&mut self, tp: Mills) {
        let (price, line) = self.adjusted(tp, band(tp).catastrophic);
        self.step("act", &line, "R8.4.1");
        let mut violated = false;
        for side in [Side::Buy, Side::Sell] {
            if self.case.party(side).is_customer() {
                violated |= self.limit(side, price, "R8.4.2");
            }
        }
        if violated {
            self.acceptance();
        }
    }

    /// TP plus the adjustment for a buy, minus it for a sell: the price, and how it comes about.
    fn adjusted(&self, tp: Mills, adjustment: Mills) -> (Mills, String) {
        let (price, sign) = match self.case.side_in_error {
            Side::Buy => (tp + adjustment, '+'),
            Side::Sell => (tp - adjustment, '-'),
        };
        let [tp, adjustment, sum] = [tp, adjustment, price].map(|mills| dollars(mills.0));
        (price, format!("{tp} {sign} {adjustment} = {sum}"))
    }

    /// A limit that was tested, and whether the price violates it.
    fn limit(&mut self, side: Side, price: Mills, paragraph: &str) -> bool {
        let (party, kind_at, limit_at, past) = match side {
            Side::Buy => ("buyer", 64, 52, "is above it"),
            Side::Sell => ("seller", 65, 60, "is below it"),
        };
        let violated = violates(price, side, self.case.party(side).limit);
        let verdict = if violated {
            past
        } else {
            "does not violate it"
        };
        let line = format!(
            "the {party} is {}, its limit {}; {} {verdict}",
            self.shown.kind(kind_at),
            self.shown.price(limit_at),
            dollars(price.0)
        );
        self.step("limit", &line, paragraph);
        violated
    }

    fn acceptance(&mut self) {
        let (verdict, paragraph) = match self.ruling.reason {
            Reason::CatastrophicAccepted => ("in time", "R8.4.3"),
            _ => ("not in time", "R8.4.4"),
        };
        let accepted = self.shown.passed(80);
        let line = format!("after notice: {accepted}; allowed: 1,800 s: {verdict}");
        self.step("acceptance", &line, paragraph);
    }

    /// R17.10.
    fn contracts(&mut self, way: Option<Way>) {
        let traded = self.shown.count(12);
        let (line, paragraphs) = match (self.ruling.outcome, self.ruling.new_price) {
            (Outcome::Adjusted, Some(price)) => self.adjusted_contracts(way, price),
            (Outcome::Nullified, _) => {
                let nullified = count(self.ruling.nullified.0 as usize);
                (format!("{nullified} of {traded} nullified"), "R9.4")
            }
            _ => {
                let standing = count(self.ruling.standing.0 as usize);
                (format!("{standing} of {traded} stand"), "R9.5")
            }
        };
        self.step("contracts", &line, paragraphs);
    }

    fn adjusted_contracts(&self, way: Option<Way>, price: Mills) -> (String, &'static str) {
        let line = format!(
            "{} of {} adjusted to {}, {} stand",
            count(self.ruling.adjusted.0 as usize),
            self.shown.count(12),
            dollars(price.0),
            count(self.ruling.standing.0 as usize)
        );
        match (way, self.ruling.tp) {
            (Some(Way::Opening), Some(TheoreticalPrice::Quoted(_))) => {
                let size_at = match self.case.side_in_error {
                    Side::Buy => 32,
                    Side::Sell => 28,
                };
                let size = self.shown.count(size_at);
                (format!("{line}; the quote's size is {size}"), "R9.1, R9.5")
            }
            (Some(Way::Opening), _) => (line, "R9.3"),
            _ => (line, "R9.4"),
        }
    }
}

/// R17.7: "the lowest and the highest TP of its row", the rows being those of R6.2.
fn row(Mills(tp): Mills) -> (u32, u32) {
    match tp {
        0..=1_999 => (0, 1_999),
        2_000..=5_000 => (2_000, 5_000),
        5_001..=10_000 => (5_001, 10_000),
        10_001..=20_000 => (10_001, 20_000),
        20_001..=50_000 => (20_001, 50_000),
        50_001..=100_000 => (50_001, 100_000),
        _ => (100_001, 9_999_999),
    }
}

/// R17.5: the first test of a shut way that failed.
type Cause = fn(Shown, &Case) -> String;

fn not_obvious(shown: Shown, case: &Case) -> String {
    if case.filing_day != Day::Trade {
        return format!("filed on {}", shown.filing_day());
    }
    let time = match case.party_in_error().kind {
        Kind::MarketMaker => 300,
        Kind::Customer | Kind::Other => 1_200,
    };
    format!(
        "open to {} for {}",
        kind_in_error(shown, case),
        passed(time)
    )
}

fn not_opening(shown: Shown, case: &Case) -> String {
    if case.filing_day != Day::Trade {
        format!("filed on {}", shown.filing_day())
    } else if !case.on_opening {
        format!("an opening trade: {}", shown.flag(45))
    } else if !case.party_in_error().is_customer() {
        format!("in error is {}", kind_in_error(shown, case))
    } else if case.filed_at - case.executed_at <= Seconds(1_200) {
        // Never so where the obvious way is shut.
        format!("open only after {}", passed(1_200))
    } else {
        format!("open up to {}", clock(59_400))
    }
}

fn not_catastrophic(shown: Shown, case: &Case) -> String {
    let day = shown.filing_day();
    match (case.expiry_deadline, case.filing_day) {
        (true, Day::Trade) => {
            let deadline = shown.flag(46);
            format!("expiry deadline: {deadline}, open up to {}", clock(61_200))
        }
        (true, Day::Next | Day::Later) => {
            format!("expiry deadline: {}, filed on {day}", shown.flag(46))
        }
        (false, Day::Next) => format!("next day, open up to {}", clock(30_600)),
        (false, Day::Trade | Day::Later) => format!("filed on {day}"),
    }
}

/// The kind of the party in error, with its place.
fn kind_in_error(shown: Shown, case: &Case) -> String {
    shown.kind(match case.side_in_error {
        Side::Buy => 64,
        Side::Sell => 65,
    })
}
