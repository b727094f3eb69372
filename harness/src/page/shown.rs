//! R17.2 and R17.3: how a number is written in an explanation, in its measure, and with its place in
//! the record behind it.

use super::form::{Facts, Record};
use super::reading::{u32_at, NONE};

/// R17.2: "dollars with three decimals, no commas; `none` where the price is none".
pub fn dollars(mills: u32) -> String {
    match mills {
        NONE => String::from("none"),
        _ => format!("{}.{:03}", mills / 1_000, mills % 1_000),
    }
}

/// R17.2: "a time of day as `10:15:00` (a number from 360,000 on, which only a refused field can hold,
/// in seconds: `360,000 s`)".
pub fn clock(seconds: u32) -> String {
    if seconds >= 360_000 {
        return format!("{} s", count(seconds as usize));
    }
    let (hours, minutes) = (seconds / 3_600, seconds / 60 % 60);
    format!("{hours:02}:{minutes:02}:{:02}", seconds % 60)
}

/// R17.2: "a time that has passed in seconds, with commas and ` s`; `none` where it is none".
pub fn passed(seconds: u32) -> String {
    match seconds {
        NONE => String::from("none"),
        _ => format!("{} s", count(seconds as usize)),
    }
}

/// R17.2: "a count with commas".
pub fn count(number: usize) -> String {
    let digits = number.to_string();
    let mut text = String::new();
    for (at, digit) in digits.chars().enumerate() {
        if at > 0 && (digits.len() - at).is_multiple_of(3) {
            text.push(',');
        }
        text.push(digit);
    }
    text
}

/// R17.3: "followed by its place in parentheses, `(byte 66)` or `(bytes 72 to 75)`".
pub fn placed(number: &str, at: usize, bytes: usize) -> String {
    match bytes {
        1 => format!("{number} (byte {at})"),
        _ => format!("{number} (bytes {at} to {})", at + bytes - 1),
    }
}

/// A record whose fields are shown as they stand: R17.3's `<8>`, each in its measure. The coded bytes
/// are asked for only where test 3 has passed.
#[derive(Clone, Copy)]
pub struct Shown<'a> {
    record: Record<'a>,
}

impl<'a> Shown<'a> {
    pub fn new(record: Record<'a>) -> Shown<'a> {
        Shown { record }
    }

    fn facts(self) -> &'a Facts {
        self.record.facts()
    }

    /// The number in the four bytes there; at 88 there is one in kind 2 alone.
    pub fn word(self, at: usize) -> u32 {
        match self.record {
            Record::Kind1(facts) => u32_at(facts, at),
            Record::Kind2(record) => u32_at(record, at),
        }
    }

    pub fn byte(self, at: usize) -> u8 {
        self.facts()[at]
    }

    pub fn trade(self) -> u32 {
        self.word(4)
    }

    pub fn price(self, at: usize) -> String {
        placed(&dollars(self.word(at)), at, 4)
    }

    pub fn time(self, at: usize) -> String {
        placed(&clock(self.word(at)), at, 4)
    }

    pub fn passed(self, at: usize) -> String {
        placed(&passed(self.word(at)), at, 4)
    }

    pub fn count(self, at: usize) -> String {
        placed(&count(self.word(at) as usize), at, 4)
    }

    /// R17.2: "a party's kind is `a Customer`, `a Market Maker` or `another kind of party`".
    pub fn kind(self, at: usize) -> String {
        let words = match self.byte(at) {
            1 => "a Customer",
            2 => "a Market Maker",
            _ => "another kind of party",
        };
        placed(words, at, 1)
    }

    /// R17.2: "a day is `the trade date`, `the next day` or `a later day`".
    pub fn filing_day(self) -> String {
        let words = match self.byte(66) {
            0 => "the trade date",
            1 => "the next day",
            _ => "a later day",
        };
        placed(words, 66, 1)
    }

    /// R17.2: "a flag is `yes` or `no`".
    pub fn flag(self, at: usize) -> String {
        let word = match self.byte(at) {
            0 => "no",
            _ => "yes",
        };
        placed(word, at, 1)
    }

    /// R17.2: "an agreement is `none`, `on a price` or `to nullify`".
    pub fn agreement(self) -> String {
        let words = match self.byte(67) {
            0 => "none",
            1 => "on a price",
            _ => "to nullify",
        };
        placed(words, 67, 1)
    }
}
