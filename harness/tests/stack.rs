//! How much stack the proved desk takes at most: the desk's terminal has little. What is allowed is
//! what was reached when the limit was set, with the room of two or three saved registers above it,
//! so that none can creep up unseen; a sheet's two have used theirs up. They hold for the code that
//! this kit's compiler makes of it.

use std::collections::BTreeSet;

use harness::desk::{
    self, ANSWER_BYTES, CASE_BYTES, EXPLANATION_BYTES, SHEET_BYTES, TEXT_BYTES, WIDE_CASE_BYTES,
};
use harness::fields::Fields;
use harness::mixture::{well_headed, Mixture};
use harness::random::Random;
use harness::settings;
use harness::stack::{Stack, Taken};

/// As many of both kinds as every sheet of that length can hold.
const CASES: usize = SHEET_BYTES / WIDE_CASE_BYTES;
const SHEETS: usize = 20;

/// A call, what it may take, and the most that it took.
struct Call {
    name: &'static str,
    most: usize,
    taken: usize,
}

impl Call {
    fn new(name: &'static str, most: usize) -> Call {
        Call {
            name,
            most,
            taken: 0,
        }
    }

    /// The answer must be the one that the same call gives on the caller's own stack.
    fn took<T: PartialEq + std::fmt::Debug>(&mut self, call: Taken<T>, answer: T) {
        assert_eq!(call.answer, answer, "{}", self.name);
        self.taken = self.taken.max(call.bytes);
    }
}

#[test]
fn little_stack() {
    let mut check_case = Call::new("desk_check_case", 96);
    let mut rule_case = Call::new("desk_rule_case", 184);
    let mut rule_sheet = Call::new("desk_rule_sheet", 232);
    let mut print_sheet = Call::new("desk_print_sheet", 280);
    let mut explain_case = Call::new("desk_explain_case", 6704);

    let mut random = Random::new(settings::seed());
    let mixture = Mixture::default();
    let mut stack = Stack::default();
    let (mut out, mut out_too) = (vec![0; CASES * ANSWER_BYTES], vec![0; CASES * ANSWER_BYTES]);
    let (mut text, mut text_too) = ([0; TEXT_BYTES], [0; TEXT_BYTES]);
    let (mut told, mut told_too) = ([0; EXPLANATION_BYTES], [0; EXPLANATION_BYTES]);
    let (mut refusals, mut reasons) = (BTreeSet::new(), BTreeSet::new());
    let mut origins = BTreeSet::new();
    for _ in 0..SHEETS {
        let cases: Vec<_> = (0..CASES).map(|_| mixture.record(&mut random)).collect();
        for case in &cases {
            let refusal = desk::check_case(case);
            check_case.took(stack.check_case(case), refusal);
            rule_case.took(
                stack.rule_case(case, &mut out),
                desk::rule_case(case, &mut out_too),
            );
            explain_case.took(
                stack.explain_case(case, &mut told),
                desk::explain_case(case, &mut told_too),
            );
            refusals.insert(refusal);
            if refusal == 0 {
                reasons.insert(out[9]);
                origins.insert(out[10]);
            }
        }
        let row: Vec<_> = cases.iter().map(|case| well_headed(case)).collect();
        let sheet = row.concat();
        rule_sheet.took(
            stack.rule_sheet(&sheet, &mut out),
            desk::rule_sheet(&sheet, &mut out_too),
        );
        print_sheet.took(
            stack.print_sheet(&sheet, &mut text),
            desk::print_sheet(&sheet, &mut text_too),
        );
        assert!(
            out == out_too && text == text_too && told == told_too,
            "the buffers"
        );
    }
    // Every way through a ruling was gone; no accepted case has reason 4.
    assert_eq!(
        refusals,
        [0, 2, 3, 4, 5, 6, 7, 8, 9].into(),
        "the refusals that were met"
    );
    assert_eq!(
        reasons,
        (1..=14).filter(|&reason| reason != 4).collect(),
        "the reasons that were met"
    );
    assert_eq!(origins, [0, 1, 2].into(), "the origins that were met");

    // Refused whole, or for want of room: no deeper.
    let ragged = &[0; CASE_BYTES * 2 + 1];
    let short = &mut out[..ANSWER_BYTES - 1];
    check_case.took(stack.check_case(ragged), 1);
    rule_case.took(stack.rule_case(ragged, short), 1);
    rule_case.took(stack.rule_case(&ragged[..CASE_BYTES], short), 11);
    rule_case.took(stack.rule_case(&ragged[..WIDE_CASE_BYTES], short), 11);
    let refused = |refusal| desk::DeskSheet {
        refusal,
        written: 0,
        ruled: 0,
        refused: 0,
    };
    rule_sheet.took(stack.rule_sheet(ragged, short), refused(10));
    for case in [Fields::example(), Fields::example().wide(1)] {
        rule_sheet.took(stack.rule_sheet(&case.encode(), short), refused(11));
    }
    print_sheet.took(stack.print_sheet(ragged, &mut text), 17);

    for call in [
        &check_case,
        &rule_case,
        &rule_sheet,
        &print_sheet,
        &explain_case,
    ] {
        println!(
            "{}: {} bytes of stack, {} allowed",
            call.name, call.taken, call.most
        );
    }
    for call in [check_case, rule_case, rule_sheet, print_sheet, explain_case] {
        assert!(
            call.taken <= call.most,
            "{} took {} bytes of stack",
            call.name,
            call.taken
        );
    }
}
