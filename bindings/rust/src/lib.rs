#![doc = include_str!("../README.md")]
//!
//! # Panics
//!
//! No call panics when the crate is linked with the library that it was made for. Linked with another version, a call
//! may panic if an entry returns a number that it never returns in this one.
#![no_std]
#![deny(missing_docs)]

pub mod book;
pub mod entries;
pub mod lists;
mod refusal;
pub mod strip;
mod time;

pub use refusal::{Refusal, UnknownNumber};
pub use time::{Time, TimeBuf, HEADER_MAX, ISO_LENGTH};

/// The number of rule 1 for the offset of a raw date: its hours are at most 14, its minutes 0, 15, 30 or 45.
pub const RULE_1: u32 = 1;
/// The number of rule 2 for the offset of a raw date: its hours are at most 23, its minutes at most 59.
pub const RULE_2: u32 = 2;

/// The most pairs of a count and a unit that a relative date has.
pub const PAIRS_MAX: usize = 256;

/// The length, in bytes, of the longest text that [`parse_relative_turns`] reads.
pub const TURNS_MAX: usize = 4096;

/// Reads the date of a commit header: `1745582210 +0200`.
///
/// It is as lenient as gix-date: if the first word is not a number, its leading digits are read, and an offset that
/// cannot be read is 0. [`parse_raw`] refuses both.
///
/// The mark is set exactly if the second word is read as an offset, opens with `-` and gives 0: `5 -0000`, `5 -000000`. With
/// a third word no offset is read, and the mark is clear.
///
/// # Errors
/// [`Refusal::NotAscii`]; [`Refusal::Form`] if the text has a `:` anywhere or does not begin with a number. Without a `:`,
/// if the first word or else its leading digits are too large for 64 bits, [`Refusal::TooLarge`].
///
/// ```
/// use chowderbell::{parse_header, Refusal, Time};
///
/// assert_eq!(parse_header("1745582210 +0200"), Ok(Time::new(1745582210, 7200)));
/// assert_eq!(parse_header("12abc"), Ok(Time::new(12, 0)));
/// assert_eq!(parse_header("5 -0000"), Ok(Time::with_mark(5, 0, true)));
/// assert_eq!(parse_header("5 -0000 x"), Ok(Time::new(5, 0)));
/// assert_eq!(parse_header("5 +01:00"), Err(Refusal::Form));
/// assert_eq!(parse_header("99999999999999999999"), Err(Refusal::TooLarge));
/// ```
pub fn parse_header(text: impl AsRef<[u8]>) -> Result<Time, Refusal> {
    read_marked(|seconds, offset, mark| entries::header_marked(text.as_ref(), seconds, offset, mark))
}

/// Reads a raw date: a number and an offset, and nothing else.
///
/// The offset's hours are at most 14, its minutes 0, 15, 30 or 45, its seconds 0. That is rule 1; [`parse_raw_by`] takes
/// either rule. The mark is set exactly if the offset opens with `-` and is 0.
///
/// # Errors
/// [`Refusal::NotAscii`]; [`Refusal::TooLarge`] if the first word is a number that is too large for 64 bits, whatever words
/// follow; [`Refusal::Form`].
///
/// ```
/// use chowderbell::{parse_raw, Refusal, Time};
///
/// assert_eq!(parse_raw("5 +1445"), Ok(Time::new(5, 53100)));
/// assert_eq!(parse_raw("5 -0000"), Ok(Time::with_mark(5, 0, true)));
/// assert_eq!(parse_raw("5 +1500"), Err(Refusal::Form));
/// assert_eq!(parse_raw("99999999999999999999 +1500"), Err(Refusal::TooLarge));
/// ```
pub fn parse_raw(text: impl AsRef<[u8]>) -> Result<Time, Refusal> {
    parse_raw_by(RULE_1, text)
}

/// Reads a raw date by the rule with this number, [`RULE_1`] or [`RULE_2`].
///
/// A rule limits the hours and the minutes of the offset. Its seconds are 0 by both rules. What rule 1 reads, rule 2
/// reads as the same time, with the same mark.
///
/// # Errors
/// Those of [`parse_raw`]. A number that names no rule gives [`Refusal::Form`] for every ASCII text.
///
/// ```
/// use chowderbell::{parse_raw_by, Refusal, Time, RULE_1, RULE_2};
///
/// assert_eq!(parse_raw_by(RULE_2, "1745582210 +0520"), Ok(Time::new(1745582210, 19200)));
/// assert_eq!(parse_raw_by(RULE_1, "1745582210 +0520"), Err(Refusal::Form));
/// assert_eq!(parse_raw_by(RULE_2, "1745582210 +2400"), Err(Refusal::Form));
/// assert_eq!(parse_raw_by(3, "1745582210 +0100"), Err(Refusal::Form)); // there is no rule 3
/// ```
pub fn parse_raw_by(rule: u32, text: impl AsRef<[u8]>) -> Result<Time, Refusal> {
    read_marked(|seconds, offset, mark| entries::raw_marked(rule, text.as_ref(), seconds, offset, mark))
}

/// Reads an ISO date with a time, in one of three forms: dotted, compact, flexible. The mark is clear, also with `-0000`.
///
/// # Errors
/// [`Refusal::NotAscii`]; [`Refusal::Form`], also if the date does not exist or the time is out of range.
///
/// ```
/// use chowderbell::{parse_iso, Refusal, Time};
///
/// assert_eq!(parse_iso("2008.02.14 20:30:45 -0500"), Ok(Time::new(1203039045, -18000)));
/// assert_eq!(parse_iso("20080214T203045.019-04:00"), Ok(Time::new(1203035445, -14400)));
/// assert_eq!(parse_iso("2008-02-14T20:30:45Z"), Ok(Time::new(1203021045, 0)));
/// assert_eq!(parse_iso("2008-02-14 20:30:45 -0000"), Ok(Time::new(1203021045, 0)));
/// assert_eq!(parse_iso("2008-02-30 20:30:45"), Err(Refusal::Form));
/// ```
pub fn parse_iso(text: impl AsRef<[u8]>) -> Result<Time, Refusal> {
    read(|seconds, offset| entries::iso(text.as_ref(), seconds, offset))
}

/// Reads a relative date, `2 weeks ago`, counted back from `now`. The answer has the offset of `now`. Its mark is clear, and
/// that of `now` is not looked at.
///
/// The library has no clock, so the caller passes the current time. It is used only if the text is relative.
///
/// # Errors
/// In the order in which they are tested: [`Refusal::NotAscii`], [`Refusal::Form`], [`Refusal::Pairs`],
/// [`Refusal::Missing`], [`Refusal::Current`], [`Refusal::Range`].
///
/// ```
/// use chowderbell::{parse_relative, Refusal, Time};
///
/// let now = Time::new(1622462400, 0); // 31 May 2021, noon
/// assert_eq!(parse_relative("2 days 3 hours ago", Some(now)), Ok(Time::new(1622278800, 0)));
/// // not 30 April: the 31st day of April is 1 May
/// assert_eq!(parse_relative("1 month ago", Some(now)), Ok(Time::new(1619870400, 0)));
/// assert_eq!(parse_relative("now", None), Err(Refusal::Missing));
/// assert_eq!(parse_relative("now", Some(Time::with_mark(5, 0, true))), Ok(Time::new(5, 0)));
/// // at most PAIRS_MAX pairs
/// assert_eq!(parse_relative("1 day ".repeat(256), Some(now)), Ok(Time::new(1600344000, 0)));
/// assert_eq!(parse_relative("1 day ".repeat(257), Some(now)), Err(Refusal::Pairs));
/// ```
pub fn parse_relative(text: impl AsRef<[u8]>, now: Option<Time>) -> Result<Time, Refusal> {
    let (has_now, at) = current(now);
    read(|seconds, offset| entries::relative(text.as_ref(), has_now, at.seconds, at.offset, seconds, offset))
}

/// Reads a relative date by the second reader, which takes turns: one function waits for a count, the other for its unit,
/// and each hands the rest of the text to the other. `docs/relative-dates.md` explains relative dates by this reader.
///
/// A text of at most [`TURNS_MAX`] bytes is answered as by [`parse_relative`], in every case. White space at its ends
/// counts. If you only want the answer, call [`parse_relative`], which has no limit on the length.
///
/// It calls itself at most once for each word of the text, so at most 2049 calls deep. `include/chowderbell.h` says how
/// much stack that takes.
///
/// # Errors
/// Those of [`parse_relative`], in the same order. A text of more than [`TURNS_MAX`] bytes gives [`Refusal::NotAscii`] if it
/// holds a byte of 128 or more, else [`Refusal::Form`].
///
/// ```
/// use chowderbell::{parse_relative, parse_relative_turns, Refusal, Time, TURNS_MAX};
///
/// let now = Time::new(1622462400, 0); // 31 May 2021, noon
/// assert_eq!(parse_relative_turns("1 month ago", Some(now)), Ok(Time::new(1619870400, 0)));
/// assert_eq!(parse_relative_turns("2 ago", Some(now)), Err(Refusal::Form)); // `ago` is the unit here
///
/// let longest = format!("{:TURNS_MAX$}", "now"); // and 4093 spaces
/// assert_eq!(parse_relative_turns(&longest, Some(now)), Ok(now));
/// let longer = longest + " ";
/// assert_eq!(parse_relative_turns(&longer, Some(now)), Err(Refusal::Form));
/// assert_eq!(parse_relative(&longer, Some(now)), Ok(now));
/// ```
pub fn parse_relative_turns(text: impl AsRef<[u8]>, now: Option<Time>) -> Result<Time, Refusal> {
    let (has_now, at) = current(now);
    read(|seconds, offset| entries::relative_turns(text.as_ref(), has_now, at.seconds, at.offset, seconds, offset))
}

/// Reads a date of any form: `@` and then a raw date or seconds; plain seconds from 100000000 on; ISO; relative; raw.
///
/// Raw dates are read by rule 1; [`parse_by`] takes either rule. They keep their mark, also behind `@`. Dates of the other
/// forms have the mark clear, and that of `now` is not looked at.
///
/// # Errors
/// Those of [`parse_relative`] if the text is relative, else those of [`parse_raw`]. A number that is too large behind `@`
/// gives [`Refusal::Form`], since the whole text is no raw date.
///
/// ```
/// use chowderbell::{parse, Refusal, Time};
///
/// assert_eq!(parse("@5", None), Ok(Time::new(5, 0)));
/// assert_eq!(parse("@5 -0000", None), Ok(Time::with_mark(5, 0, true)));
/// assert_eq!(parse("100000000", None), Ok(Time::new(100000000, 0)));
/// assert_eq!(parse("99999999", None), Err(Refusal::Form));
/// assert_eq!(parse("yesterday", Some(Time::new(86400, 3600))), Ok(Time::new(0, 3600)));
/// assert_eq!(parse("99999999999999999999 days ago", None), Err(Refusal::TooLarge));
/// assert_eq!(parse("@99999999999999999999", None), Err(Refusal::Form));
/// ```
pub fn parse(text: impl AsRef<[u8]>, now: Option<Time>) -> Result<Time, Refusal> {
    parse_by(RULE_1, text, now)
}

/// Reads a date of any form, with raw dates read by the rule with this number, [`RULE_1`] or [`RULE_2`].
///
/// Wherever [`parse`] does not refuse with [`Refusal::Form`], rule 2 gives the same answer.
///
/// # Errors
/// Those of [`parse`]. A number that names no rule gives [`Refusal::Form`] for every ASCII text, also for `now`.
///
/// ```
/// use chowderbell::{parse_by, Refusal, Time, RULE_1, RULE_2};
///
/// assert_eq!(parse_by(RULE_2, "@5 +0520", None), Ok(Time::new(5, 19200)));
/// assert_eq!(parse_by(RULE_1, "@5 +0520", None), Err(Refusal::Form));
/// assert_eq!(parse_by(RULE_2, "now", Some(Time::new(86400, 3600))), Ok(Time::new(86400, 3600)));
/// assert_eq!(parse_by(3, "now", Some(Time::new(86400, 3600))), Err(Refusal::Form)); // there is no rule 3
/// ```
pub fn parse_by(rule: u32, text: impl AsRef<[u8]>, now: Option<Time>) -> Result<Time, Refusal> {
    let (has_now, at) = current(now);
    read_marked(|seconds, offset, mark| {
        entries::any_marked(rule, text.as_ref(), has_now, at.seconds, at.offset, seconds, offset, mark)
    })
}

/// The current time as the entries take it: `has_now`, and the time. They take no mark.
fn current(now: Option<Time>) -> (u8, Time) {
    match now {
        Some(time) => (1, time),
        None => (0, Time::new(0, 0)),
    }
}

/// Calls the entry of a reader that has no mark.
fn read(entry: impl FnOnce(&mut i64, &mut i32) -> u8) -> Result<Time, Refusal> {
    let mut time = Time::new(0, 0);
    let number = entry(&mut time.seconds, &mut time.offset);
    refusal::answer(number, time)
}

/// Calls the entry of a reader that stores a mark.
fn read_marked(entry: impl FnOnce(&mut i64, &mut i32, &mut u8) -> u8) -> Result<Time, Refusal> {
    let (mut time, mut mark) = (Time::new(0, 0), 0);
    let number = entry(&mut time.seconds, &mut time.offset, &mut mark);
    time.mark = mark != 0;
    refusal::answer(number, time)
}
