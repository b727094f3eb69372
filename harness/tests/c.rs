//! The desk from C: `c/page.c` compiles without a warning against `include/desk.h`, reads the answers
//! under its names and prints the page's five lines; `c/quotes.c` counts and looks up quotes and fills
//! cases of both kinds; `c/fields.c` writes every field of a record. The header's numbers, and the first line of a
//! report in it, are those of the independent desk, and it is also good C++.

use std::fmt::Debug;
use std::fs::{self, File};
use std::path::{Path, PathBuf};
use std::process::{Command, Output};

use harness::desk;
use harness::fields::{Fields, QuoteFields, RulingFields, NONE};
use harness::page::{self, print_sheet, Origin, Outcome, Reason, Refusal};

const LINES: &str = "\
TRADE OUTCOME REASON TP NEW ADJ NUL OLD FROM
1 ADJUST 6 1000 1150 10 0 0 1
2 ADJUST 7 2000 2000 20 0 10 1
#2 REFUSED 6
END 2 1
";

const STRICT: [&str; 4] = ["-Wall", "-Wextra", "-Wpedantic", "-Werror"];

fn home() -> &'static Path {
    Path::new(env!("CARGO_MANIFEST_DIR"))
}

fn compiler() -> Command {
    let mut compiler = Command::new("cc");
    compiler.args(STRICT);
    compiler.arg("-I").arg(home().join("../include"));
    compiler
}

fn run(command: &mut Command) -> Output {
    let output = command.output().expect("the command starts");
    let errors = String::from_utf8_lossy(&output.stderr);
    assert!(output.status.success(), "{command:?}\n{errors}");
    output
}

/// The program of `c/NAME.c`.
fn compiled(name: &str) -> PathBuf {
    let program = PathBuf::from(env!("CARGO_TARGET_TMPDIR")).join(name);
    run(compiler()
        .arg("-std=c99")
        .arg("-o")
        .arg(&program)
        .arg(home().join("c").join(name).with_extension("c"))
        .arg(home().join("../target/staticlib/libdesk.a"))
        .arg(home().join("../target/staticlib/libcounter.a")));
    program
}

#[test]
fn the_c_program_prints_the_page_sheet() {
    check_printed("page", LINES);
}

/// Does the program print that, and end with 2 where it cannot?
fn check_printed(name: &str, lines: &str) {
    let program = compiled(name);
    let output = run(&mut Command::new(&program));
    assert_eq!(String::from_utf8_lossy(&output.stdout), lines);
    assert_eq!(String::from_utf8_lossy(&output.stderr), "");
    let full = File::options().write(true).open("/dev/full");
    let unwritten = Command::new(&program)
        .stdout(full.expect("/dev/full"))
        .output()
        .expect("the program starts");
    assert_eq!(unwritten.stderr, b"standard output cannot be written\n");
    assert_eq!(unwritten.status.code(), Some(2));
}

/// It says on standard error what was answered otherwise, and then does not end with 0. Three of four
/// quotes are before the trade, and then 2,000 by sixteen exchanges in turn.
#[test]
fn the_c_program_looks_up_quotes_and_fills_a_case() {
    check_printed("quotes", "3 before, 3 examined\n2000 before, 16 examined\n");
}

#[test]
fn the_header_names_every_field_of_a_record() {
    let case = Fields {
        length: 92,
        kind: 2,
        trade: 101,
        execution: 102,
        contracts: 1_000_000,
        executed_at: 103,
        bid: 104,
        offer: 105,
        bid_size: 106,
        offer_size: 107,
        zero_36: 0,
        official: 9_999_999,
        side: 2,
        opening: 1,
        expiry: 0,
        panel: 1,
        buyer_code: *b"BUY1",
        buyer_limit: 108,
        seller_code: *b"SEL1",
        seller_limit: NONE,
        buyer_kind: 1,
        seller_kind: 3,
        day: 1,
        agreement: 2,
        agreed: NONE,
        filed_at: 86_399,
        agreed_after: 86_400,
        accepted_after: 109,
        zero_84: 0,
        differential: Some(110),
    };
    let quote = QuoteFields {
        length: 28,
        kind: 32,
        exchange: 16,
        time: 86_399,
        bid: 201,
        offer: 202,
        bid_size: 203,
        offer_size: 204,
    };
    let ruling = RulingFields {
        length: 32,
        kind: 16,
        trade: 301,
        outcome: 1,
        reason: 7,
        origin: 2,
        zero_11: 0,
        tp: 302,
        new_price: 303,
        adjusted: 304,
        nullified: 305,
        standing: 306,
    };
    let output = run(&mut Command::new(compiled("fields")));
    let (record, rest) = output.stdout.split_at(88);
    assert_eq!(Fields::decode(record), case.clone().narrow());
    let (record, rest) = rest.split_at(92);
    assert_eq!(Fields::decode(record), case);
    let (record, rest) = rest.split_first_chunk().expect("28 bytes");
    assert_eq!(QuoteFields::decode(record), quote);
    assert_eq!(
        RulingFields::decode(rest.try_into().expect("32 bytes")),
        ruling
    );
}

fn header() -> String {
    fs::read_to_string(home().join("../include/desk.h")).expect("the header")
}

/// Does the header have that number under that name, which is the independent desk's own in C's
/// spelling?
fn check_number(prefix: &str, value: impl Debug, number: u32) {
    let mut name = String::from(prefix);
    for letter in format!("{value:?}").chars() {
        if letter.is_uppercase() {
            name.push('_');
        }
        name.push(letter.to_ascii_uppercase());
    }
    let define = format!("\n#define {name} {number}u");
    assert_eq!(header().matches(&define).count(), 1, "{define}");
}

#[test]
fn the_header_numbers_outcomes_reasons_origins_and_refusals_as_the_page() {
    use Outcome::*;
    for outcome in [NoRelief, Adjusted, Nullified, Waiting] {
        check_number("DESK", outcome, outcome as u32);
    }
    for origin in [Origin::None, Origin::Quote, Origin::Official] {
        check_number("DESK_ORIGIN", origin, origin as u32);
    }
    for reason in [
        Reason::NoError,
        Reason::Late,
        Reason::PanelDecided,
        Reason::CustomersLimit,
        Reason::OthersLimit,
        Reason::Obvious,
        Reason::Opening,
        Reason::Catastrophic,
        Reason::CatastrophicAccepted,
        Reason::AgreedPrice,
        Reason::ObviousWithCustomer,
        Reason::CatastrophicNotAccepted,
        Reason::AgreedNullification,
        Reason::NoPrice,
    ] {
        check_number("DESK_REASON", reason, reason as u32);
    }
    for refusal in [
        Refusal::CaseLength,
        Refusal::LengthOrKind,
        Refusal::ZeroOrCodedByte,
        Refusal::MemberCode,
        Refusal::Price,
        Refusal::ContractsOrSize,
        Refusal::Time,
        Refusal::Limit,
        Refusal::Agreement,
        Refusal::SheetLength,
        Refusal::AnswerBuffer,
        Refusal::QuotesLength,
        Refusal::QuoteField,
        Refusal::QuoteOrder,
        Refusal::TradeTime,
        Refusal::QuotesBefore,
    ] {
        check_number("DESK_REFUSAL", refusal, u32::from(refusal.number()));
    }
}

/// The lengths of both kinds of a case, and what a sheet may have.
#[test]
fn the_header_has_the_lengths_of_the_safe_interface() {
    for (name, number) in [
        ("DESK_CASE_BYTES", desk::CASE_BYTES),
        ("DESK_WIDE_CASE_BYTES", desk::WIDE_CASE_BYTES),
        ("DESK_ANSWER_BYTES", desk::ANSWER_BYTES),
        ("DESK_SHEET_BYTES", desk::SHEET_BYTES),
        ("DESK_TEXT_BYTES", desk::TEXT_BYTES),
        ("DESK_EXPLANATION_BYTES", desk::EXPLANATION_BYTES),
        ("DESK_QUOTE_BYTES", desk::QUOTE_BYTES),
        ("DESK_QUOTES_BYTES", desk::QUOTES_BYTES),
    ] {
        let define = format!("\n#define {name} {number}u");
        assert_eq!(header().matches(&define).count(), 1, "{define}");
    }
    assert_eq!(
        (page::CASE_BYTES, page::WIDE_CASE_BYTES),
        (desk::CASE_BYTES, desk::WIDE_CASE_BYTES)
    );
}

/// In a comment, on a line of its own.
#[test]
fn the_header_shows_the_first_line_of_a_report() {
    let report = print_sheet(&[]);
    let first = report.lines().next().expect("a line");
    let shown = format!("\n *     {first}\n");
    assert_eq!(header().matches(&shown).count(), 1, "{shown}");
}

#[test]
fn the_header_is_good_cpp() {
    let header = home().join("../include/desk.h");
    run(compiler().args(["-x", "c++", "-fsyntax-only"]).arg(header));
}
