//! Suites for the relative reader.

use std::ops::RangeInclusive;

use jiff::ToSpan as _;

use super::{Size, every, iso, seeded};
use crate::ledger::Ledger;
use crate::oracle::{Form, MAX_OFFSET, MAX_PAIRS, MAX_SECONDS, MIN_SECONDS, Now};
use crate::rng::Rng;
use crate::texts::{self, COUNTS, NAMES, NOON, UNITS, month_length, seconds_of};

pub(super) fn month_ends(ledger: &mut Ledger, size: Size) {
    let mut rng = Rng::new(size.seed, "month-ends");
    let texts: Vec<String> = (0..=4800)
        .map(|count| format!("{count} months"))
        .chain((0..=400).map(|count| format!("{count} years ago")))
        .collect();
    for year in 2000..2400 {
        for month in 1..=12 {
            let offset = rng.one_of(&[0, 3600, -12 * 3600, 14 * 3600, MAX_OFFSET, -MAX_OFFSET]);
            let local = seconds_of(year, month, month_length(year, month)) + rng.within(0, 86399);
            let now = Now::at(local - i64::from(offset), offset);
            for text in &texts {
                ledger.ask(Form::Relative, text.as_bytes(), &now);
            }
            if ledger.is_over() {
                return;
            }
        }
    }
    // years far from these, by "any": month ends of the years around each century
    for century in -99..=99 {
        for year in [century * 100, century * 100 + 4, century * 100 - 1] {
            for month in 1..=12 {
                for back in [0, 1, 2, 30] {
                    let day = month_length(year, month) - back;
                    let now = Now::at(seconds_of(year, month, day.max(1)) + rng.within(0, 86399), 0);
                    for text in
                        ["1 month", "2 months", "11 months", "1 year", "4 years", "100 years", "1 month 1 month"]
                    {
                        ledger.ask(Form::Any, text.as_bytes(), &now);
                    }
                }
            }
        }
    }
}

pub(super) fn words(ledger: &mut Ledger, size: Size) {
    const WORDS: [&str; 13] =
        ["ago", "1", "2", "last", "days", "month", "x", "now", "yesterday", "0", "99999999999999999999", "s", "ten"];
    let now = Now::at(NOON, 3600);
    let places: Vec<u8> = (0..WORDS.len() as u8).collect();
    let longest = if size.times > 1 { 6 } else { 5 };
    for len in 0..=longest {
        for separator in [" ", ".", "\t, "] {
            every(&places, len, |chosen| {
                let chosen: Vec<&str> = chosen.iter().map(|place| WORDS[usize::from(*place)]).collect();
                let text = chosen.join(separator);
                ledger.ask(Form::Relative, text.as_bytes(), &now);
                ledger.ask(Form::Any, text.as_bytes(), &now);
            });
            if len > 3 {
                break;
            }
        }
    }
}

/// Every letter case of `word`.
fn in_every_case(word: &str, mut ask: impl FnMut(&str)) {
    for mask in 0..1_u32 << word.len() {
        let cased: String = word
            .char_indices()
            .map(|(place, c)| if mask >> place & 1 == 1 { c.to_ascii_uppercase() } else { c })
            .collect();
        ask(&cased);
    }
}

pub(super) fn spellings(ledger: &mut Ledger, _: Size) {
    let now = Now::at(NOON, 0);
    for name in NAMES {
        in_every_case(name, |name| {
            for (before, after) in [
                ("", ""),
                (" ", ""),
                ("", "\x0b"),
                ("\t\n\x0b\x0c\r ", " \r"),
                ("x", ""),
                ("", "s"),
                ("\0", ""),
                ("", "."),
            ] {
                ledger.ask_all(format!("{before}{name}{after}").as_bytes(), &now);
            }
        });
    }
    for unit in UNITS.into_iter().chain(["ago", "fortnight"]) {
        in_every_case(unit, |unit| {
            for plural in ["", "s", "S", "ss", "sS", "x"] {
                for ago in ["", " ago", " AgO"] {
                    ledger.ask(Form::Relative, format!("3 {unit}{plural}{ago}").as_bytes(), &now);
                }
            }
        });
    }
    for count in COUNTS.into_iter().chain(["zero", "eleven"]) {
        in_every_case(count, |count| {
            for unit in ["day", "months", "x"] {
                for ago in ["", " ago"] {
                    ledger.ask(Form::Relative, format!("{count} {unit}{ago}").as_bytes(), &now);
                }
            }
        });
    }
    // a word with one byte changed is another word
    for word in UNITS.into_iter().chain(["last", "three", "ago"]).chain(NAMES.into_iter().rev()) {
        for place in 0..word.len() {
            for byte in b'\0'..=127 {
                let mut changed = word.as_bytes().to_vec();
                changed[place] = byte;
                let changed = String::from_utf8(changed).expect("ASCII");
                for text in
                    [changed.clone(), format!("2 {changed}"), format!("{changed} days"), format!("2 x {changed}")]
                {
                    ledger.ask(Form::Relative, text.as_bytes(), &now);
                }
            }
        }
    }
}

/// Offsets at the limits of a current time, at a day and an hour to either side, and around 0.
const OFFSETS: [i32; 13] = [
    -MAX_OFFSET - 1,
    -MAX_OFFSET,
    1 - MAX_OFFSET,
    -86400,
    -3600,
    -1,
    0,
    1,
    3600,
    86400,
    MAX_OFFSET - 1,
    MAX_OFFSET,
    MAX_OFFSET + 1,
];

pub(super) fn range(ledger: &mut Ledger, _: Size) {
    from_both_ends(ledger);
    to_the_first_second(ledger);
    iso::around_the_last_second(ledger);
}

/// Current times around both ends of the range, and second by second through the day in which `yesterday` leaves it.
fn from_both_ends(ledger: &mut Ledger) {
    for offset in OFFSETS {
        for (end, from, to) in [(MIN_SECONDS, -60, 90_000), (MAX_SECONDS, -90_000, 60)] {
            for delta in from..=to {
                let now = Now::at(end + delta, offset);
                let close = !(120..=86_280).contains(&delta.abs());
                ledger.ask(Form::Relative, b"yesterday", &now);
                ledger.ask(Form::Any, if delta % 2 == 0 { b"1 month" } else { b"0 years" }, &now);
                if close {
                    for text in [
                        "now",
                        "today",
                        "0 seconds",
                        "1 second",
                        "60 seconds",
                        "1 day",
                        "1 week",
                        "0 months",
                        "1 year",
                        "x",
                        "@5",
                    ] {
                        ledger.ask(Form::Relative, text.as_bytes(), &now);
                        ledger.ask(Form::Any, text.as_bytes(), &now);
                    }
                }
            }
        }
    }
}

/// Months and years that land around the first second of the range, and around the local midnights next to it.
fn to_the_first_second(ledger: &mut Ledger) {
    for offset in OFFSETS {
        let Some(first) = Now::at(MIN_SECONDS, offset).zoned() else { continue };
        for months in [0, 1, 2, 11, 12, 13, 24, 4800, 239_000] {
            let start = first.checked_add(months.months()).expect("a time in range").timestamp().as_second();
            let texts = match months % 12 {
                0 => vec![
                    format!("{months} months"),
                    format!("{} years", months / 12),
                    format!("{} days {months} months", months % 7),
                ],
                _ => vec![format!("{months} months"), format!("0 years {months} months ago")],
            };
            for delta in (-1200..=1200).chain(85_800..=87_000) {
                let now = Now::at(start + delta, offset);
                for text in &texts {
                    ledger.ask(Form::Relative, text.as_bytes(), &now);
                }
            }
        }
    }
}

/// Every count of pairs up to two more than are read; the long texts less often.
pub(super) fn pairs(ledger: &mut Ledger, size: Size) {
    some_pairs(ledger, size, "pairs", 40_000, 1..=34);
    some_pairs(ledger, size, "many pairs", 2_000, 35..=MAX_PAIRS + 2);
}

fn some_pairs(ledger: &mut Ledger, size: Size, name: &str, rounds: usize, counts: RangeInclusive<usize>) {
    let mut text = Vec::new();
    seeded(ledger, size, name, rounds, |ledger, rng| {
        for count in counts.clone() {
            text.clear();
            let small = rng.below(8) > 0;
            texts::pairs(rng, &mut text, count, small);
            let now = texts::now(rng);
            ledger.ask(Form::Relative, &text, &now);
            if count % 8 == 1 {
                ledger.ask(Form::Any, &text, &now);
            }
        }
    });
}
