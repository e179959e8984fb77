//! The suite of numbers that are too large for 64 signed bits, and of their neighbours that fit.

use super::Size;
use crate::ledger::Ledger;
use crate::oracle::{Form, MAX_PAIRS, Now};
use crate::texts::NOON;

/// The digits of the largest number that fits. Behind `-`, one more fits.
const LARGEST: &str = "9223372036854775807";

/// Digits close to the largest number: those that differ from it by one at some place and go on with zeros or nines.
fn close() -> Vec<String> {
    let mut all = vec![LARGEST.to_string()];
    for (place, digit) in LARGEST.bytes().enumerate() {
        for other in [digit - 1, digit + 1].into_iter().filter(u8::is_ascii_digit) {
            for rest in ["0", "9"] {
                all.push(format!("{}{}{}", &LARGEST[..place], char::from(other), rest.repeat(18 - place)));
            }
        }
    }
    all
}

/// Digits of other lengths: one repeated, and numbers of which the low 64 bits are small.
fn of_other_lengths() -> Vec<String> {
    let repeated = [18, 19, 20, 21, 38, 39, 40, 300].into_iter().flat_map(|count| ["1", "9"].map(|d| d.repeat(count)));
    let powers = [64, 65, 100].into_iter().flat_map(|power| [0, 5].map(|more| ((1_i128 << power) + more).to_string()));
    repeated.chain(powers).collect()
}

/// Digits in every spelling: with each sign and with two, without zeros in front and with some.
fn spelled(digits: &str) -> impl Iterator<Item = String> {
    let signs = ["", "+", "-", "++", "--", "+-", "-+"];
    signs.into_iter().flat_map(move |sign| [0, 1, 30].map(|zeros| format!("{sign}{}{digits}", "0".repeat(zeros))))
}

/// Numbers that are put between every front and every tail.
const NUMBERS: [&str; 22] = [
    "5",
    "99999999999",
    "9223372036854775807",
    "+9223372036854775807",
    "-9223372036854775807",
    "9223372036854775808",
    "+9223372036854775808",
    "-9223372036854775808",
    "9223372036854775809",
    "-9223372036854775809",
    "18446744073709551621",
    "-18446744073709551621",
    "99999999999999999999",
    "+99999999999999999999",
    "-99999999999999999999",
    "--99999999999999999999",
    "0000000000000000000000000000005",
    "-0000000000000000000000000000005",
    "00000000009223372036854775808",
    "-00000000009223372036854775808",
    "00000000099999999999999999999",
    "-00000000099999999999999999999",
];

/// What stands in front of the number: nothing, `@`, white space and bytes like it, other words, the front of an ISO date.
const FRONTS: [&[u8]; 22] = [
    b"",
    b"@",
    b"@ ",
    b"@@",
    b" ",
    b" @",
    b"\x0b",
    b"\x1f",
    b"x",
    b"x ",
    b":",
    b": ",
    b"5 ",
    b"5 +",
    b"1 day ",
    b"\x80",
    b"\x80 ",
    b"2008-02-14 ",
    b"2008-02-14T",
    b"2008-02-14 20:",
    b"2008-02-14 20:30:45 +",
    b"20080214T",
];

/// What follows the number: nothing, bytes of the same word, second words and third, `:`, byte 128, units, an ISO date.
const TAILS: [&[u8]; 48] = [
    b"",
    b"x",
    b"+",
    b"-",
    b"+5",
    b".",
    b"@",
    b"\0",
    b"\x0e",
    b"\x1f",
    b"\x1f+0100",
    b" ",
    b"\n",
    b"\x0b",
    b" +0100",
    b"\t+0100\n",
    b"\x0b+0100",
    b"\x0c+0100\r",
    b" -1445",
    b" +0520",
    b" +2400",
    b" +01",
    b" +010000",
    b" +01:00",
    b" +0100 x",
    b" +0100 +0100",
    b"x +0100",
    b"x +01:00",
    b" a b",
    b" a:b",
    b" a b:",
    b" :",
    b":",
    b":5",
    b":30",
    b":30:45Z",
    b"\x80",
    b"x\x80",
    b" \x80",
    b" +0100 \xff",
    b" 1",
    b" days ago",
    b" 3 days ago",
    b" days 1 day",
    b" now",
    b" 5 ago",
    b"T203045",
    b"-02-14 20:30:45",
];

/// Asks every reader; raw and "any" also by rules 0 to 3.
pub(super) fn ask(ledger: &mut Ledger, text: &[u8], now: &Now) {
    ledger.ask_all(text, now);
    for rule in [0, 3] {
        ledger.ask(Form::RawBy(rule), text, now);
        ledger.ask(Form::AnyBy(rule), text, now);
    }
}

pub(super) fn too_large(ledger: &mut Ledger, _: Size) {
    let nows = [Now::missing(), Now::at(NOON, 3600), Now::at(i64::MIN, 0)];
    // by the bound of pairs, "any" refuses the second of these before it comes to the raw form
    let pairs = [MAX_PAIRS, MAX_PAIRS + 1].map(|count| " 1 day".repeat(count).into_bytes());
    for number in NUMBERS {
        for front in FRONTS {
            for tail in TAILS.into_iter().chain(pairs.iter().map(Vec::as_slice)) {
                let text = [front, number.as_bytes(), tail].concat();
                for now in &nows {
                    ask(ledger, &text, now);
                }
            }
        }
    }
    for digits in close().into_iter().chain(of_other_lengths()) {
        for number in spelled(&digits) {
            for (front, tail) in [("", ""), ("@", ""), ("", "x"), ("", " +0100"), ("", " +0100 x"), ("", " 1 day")] {
                ask(ledger, format!("{front}{number}{tail}").as_bytes(), &nows[1]);
            }
        }
    }
}
