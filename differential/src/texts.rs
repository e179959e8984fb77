//! Texts: a list of telling ones, boundary numbers and words, random good texts, and damaged copies of these.

use crate::oracle::{LEAST_PLAIN, MAX_OFFSET, MAX_SECONDS, MIN_SECONDS, Now};
use crate::rng::Rng;

/// Texts of every form that a plausible mistake reads wrongly. Damaged copies are made from these too.
pub const TELLING: &[&str] = &[
    // header, raw
    "1745582210 +0200",
    "12abc",
    "12abc +0100",
    "-12abc",
    "12+0100",
    "5 +01:00",
    "5 +00-5",
    "5 -01-5",
    "5 +0100 x",
    "5 x y:z",
    "5 +9960",
    "5 -9999",
    "5 +010203",
    "5 +0000-1",
    "5 +1445",
    "5 -1445",
    "5 ++5+0",
    "5 +0100+0",
    "5 +01-0",
    "5 +1500",
    "5 +0010",
    "5",
    "5 -0000",
    " 5 +0100\n",
    "5\x0b+0100",
    "5\x1f+0100",
    "99999999999999999999",
    "99999999999999999999x",
    "-99999999999999999999",
    "0000000000000000000000000000000000000005",
    "-9223372036854775808 -1200",
    "9223372036854775807 +1200",
    "9223372036854775808 +1200",
    "+5 +0100",
    "--5 +0100",
    // ISO
    "2008-02-14 20:30:45",
    "2008-02-14T20:30:45Z",
    "2008-02-14 20:30:45 Z",
    "20080214T203045.019-04:00",
    "2008.02.14 20:30:45 -0500",
    "2008-02-14 20:30:45 +-5",
    "2008-02-14 20:30:45:99",
    "2008-02-14 20:30:60",
    "9999-12-31 00:00:00 +02:00",
    "9999-12-31 00:00:00 +01:59",
    ".008.02.14 20:30:45",
    "2008-02-14\t20:30:45",
    "2008.02.14\t20:30:45",
    "2008-02-14 20:30 +-5",
    "2008-02-14 20:30:45\t+-5",
    "2008-02-14 20:30:45 \t+-5",
    "2008-02-14 20:30:45+:05",
    "2008-02-14 20:30:45 +:05",
    "2008-02-14 20:30:45.1+05-",
    "2008-02-14 20:30:45 .5",
    "2008-02-14 20.30.45",
    "2008.02.14 20.30.45",
    "2008-02-14 20:30:45:",
    "2008-02-14 20:30:",
    "2008-02-14 20304599",
    "2008-02-14 20: 30",
    "2008-02-14 +8:30",
    "2008-02-14 08:+5:00Z",
    "2008-02-14 20:30:45+0:5",
    "2008-02-14 20:30:45+01:",
    "2008-02-14 20:30:45 -01-5",
    "2008-02-14 20:30:45+5:30",
    "2008-02-14 20:30:45:x +0100Z",
    "2008-02-14t20:30:45",
    "2008-02-14T20:30:45z",
    "-0010101T00",
    "-001-01-01 00",
    "2008-02-14",
    "2008-02-14T",
    "2008-02-14 Z",
    "2008-02-14 20:30:45.5 -x",
    "2008-02-14 20:30:45.5-x",
    "2008-02-29 00",
    "2100-02-29 00",
    "0000-02-29 00",
    "2008-+2-14 20:30:45",
    "2008-02-14 20:30:45 +2359",
    "2008-02-14 20:30:45 +2400",
    "2008-02-14 20:30:45 -2360",
    "20080214T20-05",
    "20080214T20:30:45 -0500",
    "20080214T2030",
    " 2008-02-14 20:30:45 +0100 \n",
    // relative
    "now",
    "today",
    "yesterday",
    " NoW\t",
    "now.",
    "now now",
    "1 month",
    "1 month ago",
    "2 months",
    "1 month 1 month",
    "1 year",
    "2 ago",
    "2 ago ago",
    "5 6 days",
    "5 6 days ago",
    "0 seconds",
    "1 second",
    "000000000000000000000000000005 days",
    "-5 days",
    "ago 5 x",
    "5 secondss ago",
    "5 s ago",
    "2 days 3 ago",
    "2weeks",
    "yesterday 1 day",
    "5 ago 3 x ago",
    "last week",
    "ten.hours.ago",
    "one day two hours",
    "99999999999999999999 days 1 day",
    "9223372036854775807 weeks ago",
    "9223372036854775807 years ago",
    "3 DAYS 4 Months aGo",
    "1 day 1",
    // any
    "@5",
    "@-5",
    "@ 5",
    "@ 5 +0100",
    "@5 +0100",
    "@5 days",
    "@",
    " @5",
    "@@5",
    "@99999999999999999999",
    "100000000",
    "99999999",
    " 100000000",
    "100000000\r",
    "+100000000",
    "-100000000",
    "5 +0100 ago",
    "",
    " ",
];

/// Noon of 31 May 2021 at offset 0: a day that April does not have.
pub const NOON: i64 = 1_622_462_400;
/// The first second of year 0 at offset 0: the first that the ISO writer shows there.
pub const YEAR_0: i64 = -62_167_219_200;

/// Boundary numbers that random texts draw from: the limits of fields, of widths and of the range.
///
/// A seed picks from this list by place, so a change to it changes every random text.
pub const EDGES: [i128; 24] = [
    0,
    5,
    9,
    12,
    14,
    23,
    24,
    31,
    45,
    59,
    60,
    99,
    255,
    256,
    10_000,
    LEAST_PLAIN as i128 - 1,
    LEAST_PLAIN as i128,
    1 << 31,
    1 << 32,
    MAX_SECONDS as i128,
    -(MIN_SECONDS as i128),
    1 << 63,
    1 << 64,
    10_i128.pow(19),
];

/// Boundary numbers around which whole suites try every number: the range, each power of ten and each width.
///
/// The suites go 130 to either side, so they meet every number of [`EDGES`] too.
pub fn every_edge() -> impl Iterator<Item = i128> {
    let limits = [0, LEAST_PLAIN - 1, MAX_SECONDS, MIN_SECONDS].map(i128::from);
    let powers_of_ten = (0..=38).map(|power| 10_i128.pow(power));
    let widths = [7, 8, 15, 16, 31, 32, 63, 64, 126].map(|width| 1 << width);
    limits.into_iter().chain(powers_of_ten).chain(widths)
}

const SPACES: [&str; 12] = [" ", " ", " ", " ", "\t", "\n", "\x0b", "\x0c", "\r", "  ", " \t", "\x0b "];
/// What stands between the words of a relative date.
pub const SEPARATORS: [&str; 12] = [" ", " ", " ", ".", "-", "_", ",", ", ", "  ", "\t", "+", "/"];

/// Appends `more` to the text.
fn push(text: &mut Vec<u8>, more: &str) {
    text.extend_from_slice(more.as_bytes());
}

/// Appends some white space.
fn push_spaces(rng: &mut Rng, text: &mut Vec<u8>) {
    push(text, rng.pick(&SPACES));
}

/// A number: near an edge, near a power of ten, or anywhere. Some have leading zeros or an odd sign.
pub fn number(rng: &mut Rng) -> String {
    let value = match rng.below(5) {
        0 => rng.one_of(&EDGES) + i128::from(rng.within(-2, 2)),
        1 => 10_i128.pow(rng.below(21) as u32) + i128::from(rng.within(-2, 2)),
        2 => i128::from(rng.bits() >> rng.below(64)),
        3 => i128::from(rng.within(0, 100)),
        _ => i128::from(rng.within(0, 2_000_000_000)),
    };
    let sign = match rng.below(12) {
        0 => "+",
        1 | 2 => "-",
        3 if rng.once_in(8) => rng.pick(&["--", "+-", "-+", "++", " -"]),
        _ => "",
    };
    let zeros = if rng.once_in(10) { rng.below(25) } else { 0 };
    format!("{sign}{}{}", "0".repeat(zeros), value.abs())
}

/// A field of two bytes: mostly two digits, and mostly at most `most`.
fn field(rng: &mut Rng, most: i64) -> String {
    match rng.below(12) {
        0 => format!("{:02}", rng.within(most, (most + 2).min(99))),
        1 => format!("{}{}", rng.one_of(&['+', '-']), rng.below(10)),
        2 => format!("{:02}", rng.below(100)),
        _ => format!("{:02}", rng.within(0, most)),
    }
}

/// The offset of a header or raw date.
fn header_offset(rng: &mut Rng) -> String {
    let sign = if rng.once_in(20) { "" } else { rng.pick(&["+", "-"]) };
    let minutes = if rng.once_in(2) { rng.pick(&["00", "15", "30", "45"]).to_string() } else { field(rng, 59) };
    let hours = field(rng, 14);
    let seconds = if rng.once_in(3) { rng.one_of(&["00", "+0", "-0", "01", "59"]) } else { "" };
    format!("{sign}{hours}{minutes}{seconds}")
}

/// A header or raw date.
pub fn header(rng: &mut Rng, text: &mut Vec<u8>) {
    if rng.once_in(8) {
        push_spaces(rng, text);
    }
    push(text, &number(rng));
    if rng.once_in(12) {
        return;
    }
    push_spaces(rng, text);
    push(text, &header_offset(rng));
    if rng.once_in(8) {
        push_spaces(rng, text);
        if rng.once_in(2) {
            push(text, rng.pick(&["x", "+0100", "5", "-"]));
        }
    }
}

fn is_leap(year: i64) -> bool {
    year % 4 == 0 && (year % 100 != 0 || year % 400 == 0)
}

/// The days of a month.
pub fn month_length(year: i64, month: i64) -> i64 {
    match month {
        2 => 28 + i64::from(is_leap(year)),
        4 | 6 | 9 | 11 => 30,
        _ => 31,
    }
}

/// A year, and a field of four bytes for it.
fn year_field(rng: &mut Rng) -> (i64, String) {
    let year = match rng.below(8) {
        0 => rng.one_of(&[0, 1, 4, 100, 400, 1600, 1900, 2000, 2100, 9998, 9999]),
        1 => rng.within(-999, 0),
        2 => rng.within(0, 9999),
        _ => rng.within(1890, 2110),
    };
    let field = match year {
        ..0 => format!("-{:03}", -year),
        0..=999 if rng.once_in(3) => format!("+{year:03}"),
        _ => format!("{year:04}"),
    };
    (year, field)
}

/// The clock of an ISO date.
fn clock(rng: &mut Rng, text: &mut Vec<u8>) {
    let fields = [field(rng, 23), field(rng, 59), field(rng, 59)];
    let count = if rng.once_in(3) { rng.below(3) + 1 } else { 3 };
    let between = if rng.once_in(3) { "" } else { ":" };
    push(text, &fields[..count].join(between));
    match rng.below(16) {
        0 => push(text, &format!(".{:03}", rng.below(1000))),
        1 => push(text, &format!(":{}", rng.below(100))),
        2 => push(text, &format!(" .{}", rng.below(10))),
        3 => push(text, &format!(".{}", rng.pick(&["", "5+", "5-x", "+5 ", "-05 x", ":"]))),
        4 => text.push(b':'),
        _ => {}
    }
}

/// The offset of an ISO date.
fn iso_offset(rng: &mut Rng, text: &mut Vec<u8>) {
    match rng.below(10) {
        0 => return,
        1 => push(text, "Z"),
        2 => push(text, " Z"),
        kind => {
            if kind < 7 {
                push_spaces(rng, text);
            }
            push(text, rng.pick(&["+", "-"]));
            push(text, &field(rng, 23));
            if rng.below(4) > 0 {
                if rng.once_in(2) {
                    text.push(b':');
                }
                push(text, &field(rng, 59));
            }
            if rng.once_in(12) {
                push(text, rng.pick(&[":", "::", "0", ":00", "Z", " "]));
            }
        }
    }
    if rng.once_in(10) {
        push_spaces(rng, text);
    }
}

/// An ISO date of one of the three forms.
pub fn iso(rng: &mut Rng, text: &mut Vec<u8>) {
    if rng.once_in(10) {
        push_spaces(rng, text);
    }
    let (year, year_text) = year_field(rng);
    let month = if rng.once_in(20) { rng.within(0, 13) } else { rng.within(1, 12) };
    let end = month_length(year, month);
    let day = match rng.below(4) {
        0 => rng.within(end - 1, end + 1),
        1 => rng.within(0, 2),
        _ => rng.within(1, end),
    };
    let (month, day) = if rng.once_in(20) {
        (format!("+{}", month % 10), format!("+{}", day % 10))
    } else {
        (format!("{month:02}"), format!("{day:02}"))
    };
    let date = match rng.below(4) {
        0 => format!("{year_text}.{month}.{day} "),
        1 => format!("{year_text}{month}{day}T"),
        2 => format!("{year_text}-{month}-{day}T"),
        _ => format!("{year_text}-{month}-{day} "),
    };
    push(text, &date);
    clock(rng, text);
    iso_offset(rng, text);
}

/// The words that are a whole relative date (RULES 7.1).
pub const NAMES: [&str; 3] = ["now", "today", "yesterday"];
/// The words that are a count (RULES 7.3).
pub const COUNTS: [&str; 11] = ["one", "two", "three", "four", "five", "six", "seven", "eight", "nine", "ten", "last"];
/// The units, without their final `s` (RULES 7.5).
pub const UNITS: [&str; 7] = ["second", "minute", "hour", "day", "week", "month", "year"];
/// Words that are passed over where a count is awaited.
const PASSED_OVER: [&str; 12] =
    ["and", "the", "zero", "eleven", "x", "99999999999999999999", "3days", "noon", "s", "monday", "1st", "lasts"];

/// The word in some letter case.
fn in_some_case(rng: &mut Rng, word: &str) -> String {
    match rng.below(8) {
        0 => word.to_ascii_uppercase(),
        1 => word.chars().map(|c| if rng.once_in(2) { c.to_ascii_uppercase() } else { c }).collect(),
        _ => word.to_string(),
    }
}

/// One pair of count and unit. With `small` the count is at most 40.
fn pair(rng: &mut Rng, text: &mut Vec<u8>, small: bool) {
    let count = match rng.below(8) {
        0 | 1 => {
            let name = rng.pick(&COUNTS);
            in_some_case(rng, name)
        }
        2 if !small => number(rng).trim_start_matches(['+', '-', ' ']).to_string(),
        3 => rng.within(0, 40).to_string(),
        4 if !small => rng.within(0, 130_000).to_string(),
        _ => rng.within(0, 13).to_string(),
    };
    let unit =
        if rng.once_in(24) { rng.pick(&["ago", "x", "fortnight", "7", "s", "", "daysS"]) } else { rng.pick(&UNITS) };
    let unit = in_some_case(rng, unit);
    let plural = rng.pick(&["s", "s", "", "", "S", "ss"]);
    let plural = if plural == "ss" && !rng.once_in(10) { "s" } else { plural };
    push(text, &count);
    push(text, rng.pick(&SEPARATORS));
    push(text, &unit);
    push(text, plural);
}

/// A relative date of `pairs` pairs.
pub fn pairs(rng: &mut Rng, text: &mut Vec<u8>, pairs: usize, small: bool) {
    let ago = rng.below(4);
    if ago == 0 {
        push(text, "ago ");
    }
    for place in 0..pairs {
        if place > 0 {
            push(text, rng.pick(&SEPARATORS));
        }
        if rng.once_in(20) {
            push(text, rng.pick(&PASSED_OVER));
            text.push(b' ');
        }
        pair(rng, text, small);
    }
    if ago >= 2 {
        push(text, rng.pick(&SEPARATORS));
        push(text, &in_some_case(rng, "ago"));
    }
}

/// A relative date.
pub fn relative(rng: &mut Rng, text: &mut Vec<u8>) {
    if rng.once_in(8) {
        if rng.once_in(3) {
            push_spaces(rng, text);
        }
        let word = rng.pick(&NAMES);
        push(text, &in_some_case(rng, word));
        if rng.once_in(3) {
            push_spaces(rng, text);
        }
        return;
    }
    let count = if rng.once_in(12) { rng.below(34) + 1 } else { rng.below(4) + 1 };
    let small = rng.below(4) > 0;
    pairs(rng, text, count, small);
}

/// A text that only "any" reads, or one near it.
fn any(rng: &mut Rng, text: &mut Vec<u8>) {
    if rng.below(4) > 0 {
        text.push(b'@');
    }
    if rng.once_in(2) {
        push(text, &number(rng));
    } else {
        header(rng, text);
    }
}

/// A text of any form that is good, or nearly so.
pub fn good(rng: &mut Rng, text: &mut Vec<u8>) {
    match rng.below(9) {
        0 | 1 => header(rng, text),
        2..=4 => iso(rng, text),
        5 | 6 => relative(rng, text),
        7 => any(rng, text),
        _ => push(text, rng.pick(TELLING)),
    }
}

/// Bytes that readers look for, and others that are easily mistaken for them.
const BYTES: &[u8] = b"0123456789+-:. \t\n\x0b\x0c\rTZ@tzagonows,_/x\0\x08\x0e\x1c\x1f\x7f;<=>?!*";

fn any_byte(rng: &mut Rng) -> u8 {
    match rng.below(40) {
        0 => rng.below(128) as u8,
        1 if rng.once_in(6) => 128 + rng.below(128) as u8,
        _ => rng.one_of(BYTES),
    }
}

/// Damages a text in one to three places.
pub fn damage(rng: &mut Rng, text: &mut Vec<u8>) {
    for _ in 0..=rng.below(3) {
        let at = rng.below(text.len() + 1);
        match rng.below(10) {
            0 | 1 if at < text.len() => {
                text.remove(at);
            }
            2 | 3 => {
                let byte = any_byte(rng);
                text.insert(at, byte);
            }
            4 | 5 if at < text.len() => text[at] = any_byte(rng),
            6 if at + 1 < text.len() => text.swap(at, at + 1),
            7 => text.truncate(at),
            8 if at < text.len() => {
                let end = at + rng.below((text.len() - at).min(8)) + 1;
                let part = text[at..end].to_vec();
                let to = rng.below(text.len() + 1);
                text.splice(to..to, part);
            }
            _ => {
                let mut other = Vec::new();
                good(rng, &mut other);
                let from = rng.below(other.len() + 1);
                text.truncate(at);
                text.extend(&other[from..]);
            }
        }
    }
}

/// A current time: missing, anywhere, at the end of a month, near the ends of the range, or out of range.
pub fn now(rng: &mut Rng) -> Now {
    let offset = match rng.below(8) {
        0 => rng.one_of(&[MAX_OFFSET, -MAX_OFFSET, MAX_OFFSET - 1, 1 - MAX_OFFSET]),
        1 => rng.within(-i64::from(MAX_OFFSET), i64::from(MAX_OFFSET)) as i32,
        2 | 3 => 0,
        _ => rng.within(-56, 56) as i32 * 900,
    };
    match rng.below(16) {
        0 => Now::missing(),
        1 => Now::at(MIN_SECONDS + rng.within(-3, 90_000_000) / rng.one_of(&[1, 1000, 30_000_000]), offset),
        2 => Now::at(MAX_SECONDS - rng.within(-3, 90_000_000) / rng.one_of(&[1, 1000, 30_000_000]), offset),
        3 => match rng.below(6) {
            0 => Now::at(MIN_SECONDS - 1, offset),
            1 => Now::at(MAX_SECONDS + 1, offset),
            2 => Now::at(rng.bits() as i64, offset),
            3 => Now::at(rng.within(MIN_SECONDS, MAX_SECONDS), rng.one_of(&[MAX_OFFSET + 1, -MAX_OFFSET - 1])),
            4 => Now::at(rng.within(MIN_SECONDS, MAX_SECONDS), rng.bits() as i32),
            _ => Now::at(rng.one_of(&[i64::MIN, i64::MAX, 0]), rng.one_of(&[i32::MIN, i32::MAX, 0])),
        },
        4..=7 => {
            // the last days of a month by the local clock, any second of them
            let year = if rng.once_in(3) { rng.within(-9998, 9998) } else { rng.within(1900, 2100) };
            let month = rng.within(1, 12);
            let day = month_length(year, month) - rng.within(0, 2);
            let local = seconds_of(year, month, day) + rng.within(0, 86399);
            Now::at(local - i64::from(offset), offset)
        }
        8 => Now::at(rng.within(MIN_SECONDS, MAX_SECONDS), offset),
        _ => Now::at(rng.within(0, 4_000_000_000), offset),
    }
}

/// The seconds of a date's midnight at offset 0.
pub fn seconds_of(year: i64, month: i64, day: i64) -> i64 {
    let date = jiff::civil::date(year as i16, month as i8, day as i8);
    date.to_zoned(jiff::tz::TimeZone::UTC).expect("a date in range").timestamp().as_second()
}
