//! One call on two desks: the same number, the same counts and the same bytes in the whole buffer,
//! those after the written ones too; and the page's own word on what a call leaves untouched.

use std::fmt::{self, Write};

use crate::desk::{DeskSheet, TEXT_BYTES};
use crate::desks::Desk;
use crate::fields::Fields;
use crate::random::Random;
use crate::sheets::{cases_of, cut};

/// A difference, told in full: `expect` in a test prints it as it is.
pub struct Difference(pub(crate) String);

impl fmt::Debug for Difference {
    fn fmt(&self, out: &mut fmt::Formatter) -> fmt::Result {
        write!(out, "\n{}", self.0)
    }
}

/// The two desks, with buffers that are used again for each call.
pub struct Comparison<'a> {
    left: &'a dyn Desk,
    right: &'a dyn Desk,
    buffers: Buffers,
    texts: Box<[[u8; TEXT_BYTES]; 3]>,
}

/// What the buffers held before the call, and what each desk left in its own.
#[derive(Default)]
struct Buffers {
    before: Vec<u8>,
    left: Vec<u8>,
    right: Vec<u8>,
}

impl Buffers {
    /// Buffers of that length, alike and full of chance bytes.
    fn prepare(&mut self, len: usize, random: &mut Random) {
        self.before.resize(len, 0);
        random.fill(&mut self.before);
        self.left.clone_from(&self.before);
        self.right.clone_from(&self.before);
    }

    /// Equal in every byte, and as before from `written` on.
    fn judge(&self, written: usize) -> Result<(), String> {
        same_bytes("the buffers", &self.left, &self.right)?;
        same_bytes(
            "what must stay",
            &self.before[written..],
            &self.left[written..],
        )
    }
}

pub(crate) fn same_bytes(what: &str, left: &[u8], right: &[u8]) -> Result<(), String> {
    if left == right {
        return Ok(());
    }
    let at = (0..left.len())
        .find(|&at| left[at] != right[at])
        .expect("unequal slices of one length");
    Err(format!(
        "{what} differ from byte {at} on: {} and {}",
        left[at], right[at]
    ))
}

pub(crate) fn same<T: PartialEq + fmt::Debug>(what: &str, left: T, right: T) -> Result<T, String> {
    if left == right {
        Ok(left)
    } else {
        Err(format!("{what}: {left:?} and {right:?}"))
    }
}

/// Every case of a sheet is ruled or refused, and none of a sheet that is refused whole: test 10 is for
/// those that are no row of cases, and for no other.
fn answered(sheet: &[u8], answer: &DeskSheet) -> Result<(), String> {
    let cases = cases_of(sheet);
    same("refused 10", answer.refusal == 10, cases.is_none())?;
    let answered = match answer.refusal {
        0 => cases.unwrap_or(0) as u64,
        _ => 0,
    };
    same("cases", answer.ruled + answer.refused, answered).map(|_| ())
}

/// What a call on a case gave, on both desks.
pub struct CaseAnswer<'a> {
    pub number: u32,
    /// The 96 bytes, where the case was ruled.
    pub bytes: Option<&'a [u8; 96]>,
}

impl<'a> Comparison<'a> {
    pub fn new(left: &'a dyn Desk, right: &'a dyn Desk) -> Comparison<'a> {
        Comparison {
            left,
            right,
            buffers: Buffers::default(),
            texts: Box::new([[0; TEXT_BYTES]; 3]),
        }
    }

    /// Reading a case.
    pub fn check_case(&self, case: &[u8]) -> Result<u32, Difference> {
        same(
            "numbers",
            self.left.check_case(case),
            self.right.check_case(case),
        )
        .map_err(|what| self.report("check_case", what, case, None))
    }

    /// Ruling a case into a buffer of that length.
    pub fn rule_case(
        &mut self,
        case: &[u8],
        out_len: usize,
        random: &mut Random,
    ) -> Result<CaseAnswer<'_>, Difference> {
        self.buffers.prepare(out_len, random);
        let left = self.left.rule_case(case, &mut self.buffers.left);
        let right = self.right.rule_case(case, &mut self.buffers.right);
        let written = if left == 0 { 96 } else { 0 };
        let judged = same("numbers", left, right).and_then(|_| self.buffers.judge(written));
        match judged {
            Ok(()) => Ok(CaseAnswer {
                number: left,
                bytes: self.buffers.left.first_chunk().filter(|_| left == 0),
            }),
            Err(what) => Err(self.report("rule_case", what, case, Some(out_len))),
        }
    }

    /// Ruling a sheet into a buffer of that length; the refusal's number and the bytes written.
    pub fn rule_sheet(
        &mut self,
        sheet: &[u8],
        out_len: usize,
        random: &mut Random,
    ) -> Result<(u64, &[u8]), Difference> {
        self.buffers.prepare(out_len, random);
        let left = self.left.rule_sheet(sheet, &mut self.buffers.left);
        let right = self.right.rule_sheet(sheet, &mut self.buffers.right);
        let written = left.written as usize;
        let judged = same("answers", left, right)
            .and_then(|_| {
                same(
                    "bytes written",
                    left.written,
                    96 * left.ruled + 12 * left.refused,
                )
            })
            .and_then(|_| answered(sheet, &left))
            .and_then(|_| self.buffers.judge(written));
        match judged {
            Ok(()) => Ok((left.refusal, &self.buffers.left[..written])),
            Err(what) => Err(self.report("rule_sheet", what, sheet, Some(out_len))),
        }
    }

    /// Printing a sheet; the text.
    pub fn print_sheet(&mut self, sheet: &[u8], random: &mut Random) -> Result<&[u8], Difference> {
        let [before, left, right] = &mut *self.texts;
        before.fill(random.word() as u8);
        left.copy_from_slice(before);
        right.copy_from_slice(before);
        let left_len = self.left.print_sheet(sheet, left) as usize;
        let right_len = self.right.print_sheet(sheet, right) as usize;
        let judged = same_bytes("the texts", left, right)
            .and_then(|()| same("bytes of text", left_len, right_len))
            .and_then(|len| same_bytes("what must stay", &before[len..], &left[len..]));
        match judged {
            Ok(()) => Ok(&self.texts[1][..left_len]),
            Err(what) => Err(self.report("print_sheet", what, sheet, None)),
        }
    }

    fn report(&self, call: &str, what: String, input: &[u8], out_len: Option<usize>) -> Difference {
        let mut text = format!(
            "{} and {} differ in {call}: {what}\n",
            self.left.name(),
            self.right.name()
        );
        if let Some(out_len) = out_len {
            let _ = writeln!(text, "answer buffer of {out_len} bytes");
        }
        let _ = writeln!(text, "input of {} bytes", input.len());
        let (cases, rest) = shown_as(input);
        for (index, case) in cases.iter().take(CASES_SHOWN).enumerate() {
            let _ = writeln!(text, "case {index}: {}", hex(case));
            let _ = write!(text, "{}", Fields::decode(case));
        }
        if cases.len() > CASES_SHOWN {
            let _ = writeln!(text, "and {} cases more", cases.len() - CASES_SHOWN);
        }
        if !rest.is_empty() {
            let _ = writeln!(text, "rest: {}", hex(rest));
        }
        Difference(text)
    }
}

/// One case whatever its head says, or the cases of a sheet and what no case is.
fn shown_as(input: &[u8]) -> (Vec<&[u8]>, &[u8]) {
    match input.len() {
        88 | 92 => (vec![input], &[]),
        _ => cut(input),
    }
}

/// A difference shows this many cases of a sheet; the seed gives the rest.
const CASES_SHOWN: usize = 16;

pub(crate) fn hex(bytes: &[u8]) -> String {
    bytes.iter().fold(String::new(), |mut text, byte| {
        let _ = write!(text, "{byte:02x}");
        text
    })
}
