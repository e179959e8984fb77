//! Suites for the two rules of raw dates, and for numbers that name none.

use super::Size;
use crate::ledger::Ledger;
use crate::oracle::{Form, Now};
use crate::texts::NOON;

/// The fields of two bytes: two digits, or a sign and a digit.
fn two_byte_fields() -> Vec<String> {
    let digits = (0..100).map(|value| format!("{value:02}"));
    let signed = (0..10).flat_map(|digit| [format!("+{digit}"), format!("-{digit}")]);
    digits.chain(signed).collect()
}

pub(super) fn offsets(ledger: &mut Ledger, _: Size) {
    let missing = Now::missing();
    let fields = two_byte_fields();
    for sign in ["+", "-"] {
        for hours in &fields {
            for minutes in &fields {
                for seconds in ["", "00", "01", "59", "60", "99", "+0", "+1", "-0"] {
                    let text = format!("5 {sign}{hours}{minutes}{seconds}");
                    ledger.ask(Form::Header, text.as_bytes(), &missing);
                    ledger.ask(Form::Raw, text.as_bytes(), &missing);
                    ledger.ask(Form::Any, text.as_bytes(), &missing);
                    ledger.ask(Form::Any, format!("@{text}").as_bytes(), &missing);
                }
            }
        }
    }
}

/// Numbers from 0 to 1000, and those around each power of two, where a number may be cut to fewer bits.
fn numbers() -> impl Iterator<Item = u32> {
    let around_powers = (10..=32).flat_map(|power| (-4..=4).map(move |delta| (1_i64 << power) + delta));
    (0..=1000).chain(around_powers.filter_map(|number| u32::try_from(number).ok()))
}

pub(super) fn numbers_of_rules(ledger: &mut Ledger, _: Size) {
    const TEXTS: [&[u8]; 16] = [
        b"now",
        b"1 day ago",
        b"5 +0100",
        b"5 +0520",
        b"5 +2000",
        b"5 +2400",
        b"5 -0000",
        b"@5 -0000",
        b"@5 +0520",
        b"@5",
        b"100000000",
        b"2008-02-14T20:30:45Z",
        b"",
        b"x",
        b"\x80",
        b"5 +0100\xff",
    ];
    let nows = [Now::missing(), Now::at(NOON, 3600), Now::at(i64::MIN, 0)];
    for rule in numbers() {
        for text in TEXTS {
            for now in &nows {
                ledger.ask(Form::RawBy(rule), text, now);
                ledger.ask(Form::AnyBy(rule), text, now);
            }
        }
    }
}
