//! What gix-date answers, with the numbers of RULES 2.
//!
//! gix-date says "read" or "not read". The number of a text that is not read follows from the reader that failed and from
//! the current time. Whether it is 2 or 11 follows from the first word (RULES 5.9), and Rust's own reader of numbers says
//! whether that is too large. gix-date calls the same reader, and drops its reason.
//!
//! Five answers follow from the rules alone, because gix-date has nothing like them: 1 for a byte of 128 or more, 2 for a
//! number that names no rule, 2 for a text that is too long for the second reader of relative dates, 4 for a current time
//! out of range, 5 for more than 256 pairs.
//!
//! gix-date reads raw dates by rule 1 (RULES 5.7). By rule 2 the answers are those of its own code with the two limits
//! of that rule.
//!
//! gix-date has no mark. Readers that give one are held to gix-date in number, seconds and offset, like those that do not,
//! and in the mark to RULES 5.10, by `mark`. The header writer that takes one is held to gix-date but for offset 0 with the
//! mark, which is `-0000` (RULES 9.1).

use std::fmt;
use std::num::IntErrorKind;

use gix_date::Time;
use gix_date::parse::visible;
use gix_date::time::format::ISO8601_STRICT;
use jiff::tz::{Offset, OffsetRound};
use jiff::{RoundMode, Unit, Zoned};

use crate::mark;

/// The smallest and the largest second in range.
pub const MIN_SECONDS: i64 = -377705023201;
pub const MAX_SECONDS: i64 = 253402207200;
/// The widest offset of a current time.
pub const MAX_OFFSET: i32 = 93599;
/// The most pairs that are read.
pub const MAX_PAIRS: usize = 256;
/// The most bytes of a text that the second reader of relative dates takes (RULES 7.12).
pub const MAX_TURNS: usize = 4096;
/// The least number that "any" reads as seconds without an `@` before it.
pub const LEAST_PLAIN: i64 = 100_000_000;

/// A form of text. Each has its reader.
#[derive(Clone, Copy, PartialEq, Eq, Debug)]
pub enum Form {
    Header,
    /// A header with its mark.
    HeaderMarked,
    Raw,
    /// A raw date by the rule with this number.
    RawBy(u32),
    /// The same with its mark.
    RawMarked(u32),
    Iso,
    Relative,
    /// A relative date by the second reader, which takes turns (RULES 7.11).
    Turns,
    Any,
    /// A date in any form, with raw dates by the rule with this number.
    AnyBy(u32),
    /// The same with its mark.
    AnyMarked(u32),
}

/// The forms that a line of `whenread` can name. Their readers take no rule, and relative dates have the first reader.
pub const FORMS: [Form; 5] = [Form::Header, Form::Raw, Form::Iso, Form::Relative, Form::Any];

/// Its name. That of one of [`FORMS`] is its name in a line of `whenread`.
impl fmt::Display for Form {
    fn fmt(&self, f: &mut fmt::Formatter<'_>) -> fmt::Result {
        match self {
            Form::Header => f.write_str("header"),
            Form::HeaderMarked => f.write_str("header with mark"),
            Form::Raw => f.write_str("raw"),
            Form::RawBy(rule) => write!(f, "raw by rule {rule}"),
            Form::RawMarked(rule) => write!(f, "raw with mark by rule {rule}"),
            Form::Iso => f.write_str("iso"),
            Form::Relative => f.write_str("relative"),
            Form::Turns => f.write_str("relative by turns"),
            Form::Any => f.write_str("any"),
            Form::AnyBy(rule) => write!(f, "any by rule {rule}"),
            Form::AnyMarked(rule) => write!(f, "any with mark by rule {rule}"),
        }
    }
}

impl Form {
    /// Whether its reader takes the current time.
    pub fn takes_now(self) -> bool {
        matches!(self, Form::Relative | Form::Turns | Form::Any | Form::AnyBy(_) | Form::AnyMarked(_))
    }

    /// The same form with its mark, if there is a reader that gives it.
    pub fn with_mark(self) -> Option<Form> {
        match self {
            Form::Header => Some(Form::HeaderMarked),
            Form::RawBy(rule) => Some(Form::RawMarked(rule)),
            Form::AnyBy(rule) => Some(Form::AnyMarked(rule)),
            _ => None,
        }
    }

    /// Whether its reader gives the mark.
    pub fn has_mark(self) -> bool {
        matches!(self, Form::HeaderMarked | Form::RawMarked(_) | Form::AnyMarked(_))
    }
}

/// What a reader answers.
#[derive(Clone, Copy, PartialEq, Eq, Debug)]
pub struct Answer {
    pub number: u8,
    pub seconds: i64,
    pub offset: i32,
    /// 1 if the mark is set, and 0 if it is clear or if the reader gives none.
    pub mark: u8,
}

impl Answer {
    fn read(time: Time) -> Answer {
        Answer { number: 0, seconds: time.seconds, offset: time.offset, mark: 0 }
    }

    fn refused(number: u8) -> Answer {
        Answer { number, seconds: 0, offset: 0, mark: 0 }
    }
}

/// Where an answer comes from.
#[derive(Clone, Copy, PartialEq, Eq, Debug)]
pub enum By {
    /// gix-date, which by rule 2 has the limits of that rule: it read the text, or did not. The number for "did not" is
    /// derived, 11 like the others.
    Rust,
    /// The rules alone: they differ from gix-date on purpose (1, 5, and 2 for a text that is too long for the second
    /// reader of relative dates), or gix-date cannot be asked (4, and 2 for a number that names no rule).
    Rules,
}

/// What depends on the rule of raw dates: gix-date's readers of these and of "any".
#[derive(Clone, Copy)]
struct Readers {
    raw: fn(&str) -> Option<Time>,
    any: fn(&str, Option<Zoned>) -> Option<Time>,
}

const BY_RULE_1: Readers = Readers { raw: visible::raw, any: |text, now| visible::any(text, now).ok() };
const BY_RULE_2: Readers = Readers { raw: visible::raw_2, any: |text, now| visible::any_2(text, now).ok() };

/// The readers by the rule with this number, if it names one.
fn readers_by(rule: u32) -> Option<Readers> {
    match rule {
        1 => Some(BY_RULE_1),
        2 => Some(BY_RULE_2),
        _ => None,
    }
}

/// A current time, also in the form that gix-date takes.
#[derive(Clone)]
pub struct Now {
    /// Seconds and offset, unless it is missing.
    pub time: Option<(i64, i32)>,
    /// The same for gix-date, if it is not missing and in range.
    zoned: Option<Zoned>,
}

impl Now {
    pub fn missing() -> Now {
        Now { time: None, zoned: None }
    }

    pub fn at(seconds: i64, offset: i32) -> Now {
        Now { time: Some((seconds, offset)), zoned: Time::new(seconds, offset).to_zoned().ok() }
    }

    /// The number for a relative text that gives no time from here.
    fn refusal(&self) -> u8 {
        match (&self.time, &self.zoned) {
            (None, _) => 3,
            (Some(_), None) => 4,
            (Some(_), Some(_)) => 6,
        }
    }

    /// The current time as gix-date takes it: `None` if it is missing or out of range.
    pub fn zoned(&self) -> Option<Zoned> {
        self.zoned.clone()
    }
}

/// The right answer to `text`, and where it comes from.
pub fn wanted(form: Form, text: &[u8], now: &Now) -> (Answer, By) {
    let Some(text) = text.is_ascii().then(|| std::str::from_utf8(text).expect("ASCII is UTF-8")) else {
        return (Answer::refused(1), By::Rules);
    };
    match form {
        Form::Header => plain(gix_date::parse_header(text), || header_refusal(text)),
        Form::HeaderMarked => marked(form, text.as_bytes(), wanted(Form::Header, text.as_bytes(), now)),
        Form::Raw => raw(BY_RULE_1, text),
        Form::RawBy(rule) => readers_by(rule).map_or(NO_RULE, |readers| raw(readers, text)),
        Form::RawMarked(rule) => marked(form, text.as_bytes(), wanted(Form::RawBy(rule), text.as_bytes(), now)),
        Form::Iso => plain(visible::iso(text), || 2),
        Form::Relative => match visible::relative(text, now.zoned()) {
            None => (Answer::refused(2), By::Rust),
            Some(_) if has_too_many_pairs(text) => (Answer::refused(5), By::Rules),
            Some(Ok(zoned)) => (landed(&zoned), By::Rust),
            Some(Err(_)) => unread(now),
        },
        Form::Turns => by_turns(text.as_bytes(), wanted(Form::Relative, text.as_bytes(), now)),
        Form::Any => any(BY_RULE_1, text, now),
        Form::AnyBy(rule) => readers_by(rule).map_or(NO_RULE, |readers| any(readers, text, now)),
        Form::AnyMarked(rule) => marked(form, text.as_bytes(), wanted(Form::AnyBy(rule), text.as_bytes(), now)),
    }
}

/// The right answer of a reader that gives the mark, given that of the reader of the same form that gives none: the same,
/// with the mark of RULES 5.10. A refusal has none.
pub fn marked(form: Form, text: &[u8], plain: (Answer, By)) -> (Answer, By) {
    let (answer, by) = plain;
    // most texts end here: without a `-` or with another offset there is no mark
    if answer.number != 0 || answer.offset != 0 || !text.contains(&b'-') {
        return plain;
    }
    let text = std::str::from_utf8(text).expect("a text that is read is ASCII");
    let is_set = match form {
        Form::HeaderMarked => mark::of_header(text, answer.offset),
        Form::RawMarked(_) => mark::of_raw(text, answer.offset),
        Form::AnyMarked(rule) => {
            let readers = readers_by(rule).expect("what is read is read by a rule");
            read_as_raw(readers, text).is_some_and(|raw| mark::of_raw(raw, answer.offset))
        }
        _ => false,
    };
    (Answer { mark: u8::from(is_set), ..answer }, by)
}

/// The right answer of the second reader of relative dates, given that of the first: the same, or 2 if the text is too
/// long. A byte of 128 or more is 1 before that.
pub fn by_turns(text: &[u8], first: (Answer, By)) -> (Answer, By) {
    if text.len() > MAX_TURNS && first.0.number != 1 { (Answer::refused(2), By::Rules) } else { first }
}

/// The answer to every ASCII text if the number of the rule names none.
const NO_RULE: (Answer, By) = (Answer { number: 2, seconds: 0, offset: 0, mark: 0 }, By::Rules);

/// The answer of a reader that needs no current time. `refusal` is the number of a text that it does not read.
fn plain(time: Option<Time>, refusal: impl FnOnce() -> u8) -> (Answer, By) {
    (time.map_or_else(|| Answer::refused(refusal()), Answer::read), By::Rust)
}

/// The answer of the raw reader.
fn raw(readers: Readers, text: &str) -> (Answer, By) {
    plain((readers.raw)(text), || raw_refusal(text))
}

/// The answer of "any".
fn any(readers: Readers, text: &str, now: &Now) -> (Answer, By) {
    match (readers.any)(text, now.zoned()) {
        Some(_) if has_too_many_pairs(text) && is_read_as_relative(readers, text) => (Answer::refused(5), By::Rules),
        Some(time) => (Answer::read(time), By::Rust),
        None => match visible::relative(text, None) {
            // the last step reads the whole text as a raw date, and its refusal is the answer
            None => (Answer::refused(raw_refusal(text)), By::Rust),
            Some(_) if has_too_many_pairs(text) => (Answer::refused(5), By::Rules),
            Some(_) => unread(now),
        },
    }
}

/// The number for a header that is not read: 11 if its first word is too large, or else the digits that this opens with.
/// A `:` anywhere is 2 before that.
fn header_refusal(text: &str) -> u8 {
    let word = first_word(text);
    let too_large = is_too_large(word) || is_too_large(leading_digits(word));
    if too_large && !text.contains(':') { 11 } else { 2 }
}

/// The number for a raw date that is not read: 11 if its first word is too large, whatever follows.
fn raw_refusal(text: &str) -> u8 {
    if is_too_large(first_word(text)) { 11 } else { 2 }
}

/// The first word, empty if there is none. In ASCII, Rust's white space is that of RULES 4.1.
fn first_word(text: &str) -> &str {
    text.split_whitespace().next().unwrap_or_default()
}

/// The digits that a word opens with.
fn leading_digits(word: &str) -> &str {
    word.split(|c: char| !c.is_ascii_digit()).next().unwrap_or_default()
}

/// Whether a word is too large: an optional sign and then digits only, whose value does not fit 64 signed bits.
///
/// Rust's reader tells of the value before it has seen all bytes, so that they are digits is tested here.
fn is_too_large(word: &str) -> bool {
    let digits = word.strip_prefix(['+', '-']).unwrap_or(word);
    digits.bytes().all(|byte| byte.is_ascii_digit())
        && word
            .parse::<i64>()
            .is_err_and(|error| matches!(error.kind(), IntErrorKind::PosOverflow | IntErrorKind::NegOverflow))
}

/// The answer to a relative text that gives no time.
fn unread(now: &Now) -> (Answer, By) {
    let number = now.refusal();
    (Answer::refused(number), if number == 4 { By::Rules } else { By::Rust })
}

fn landed(zoned: &Zoned) -> Answer {
    Answer { number: 0, seconds: zoned.timestamp().as_second(), offset: zoned.offset().seconds(), mark: 0 }
}

/// Whether a relative text has more pairs than are read. The shortest such text is 257 times `1 x`, with a byte between.
fn has_too_many_pairs(text: &str) -> bool {
    const SHORTEST: usize = (MAX_PAIRS + 1) * 4 - 1;
    text.len() >= SHORTEST && visible::pairs(text).is_some_and(|count| count > MAX_PAIRS)
}

/// Whether "any" gets as far as the relative form. Only used for texts with many pairs.
fn is_read_as_relative(readers: Readers, text: &str) -> bool {
    !is_read_before_relative(readers, text) && visible::relative(text, None).is_some()
}

/// Whether one of the forms that "any" tries before the relative one reads the text (RULES 8).
fn is_read_before_relative(readers: Readers, text: &str) -> bool {
    let at = text.strip_prefix('@').is_some_and(|rest| (readers.raw)(rest).is_some() || rest.parse::<i64>().is_ok());
    let number = text.parse::<i64>().is_ok_and(|number| number >= LEAST_PLAIN);
    at || number || visible::iso(text).is_some()
}

/// The raw date that "any" reads in the text, if it reads one: what follows an `@`, or as the last form the whole text.
fn read_as_raw(readers: Readers, text: &str) -> Option<&str> {
    let behind_at = text.strip_prefix('@').filter(|rest| (readers.raw)(rest).is_some());
    let is_last = || !is_read_before_relative(readers, text) && visible::relative(text, None).is_none();
    behind_at.or_else(|| (is_last() && (readers.raw)(text).is_some()).then_some(text))
}

/// A form that is written.
#[derive(Clone, Copy, PartialEq, Eq, PartialOrd, Ord, Debug)]
pub enum Writer {
    Header,
    /// The header writer that takes the mark, with this byte for it.
    HeaderMarked(u8),
    Iso,
}

impl fmt::Display for Writer {
    fn fmt(&self, f: &mut fmt::Formatter<'_>) -> fmt::Result {
        match self {
            Writer::Header => f.write_str("header writer"),
            Writer::HeaderMarked(mark) => write!(f, "header writer, mark {mark}"),
            Writer::Iso => f.write_str("ISO writer"),
        }
    }
}

/// Bytes for the mark. A writer takes any but 0 for set.
pub const MARKS: [u8; 5] = [0, 1, 2, 128, 255];

/// The bytes of a time and how many they are, or the number of the refusal. The room is not considered.
pub enum Bytes {
    Written([u8; 32], usize),
    Refused(u8),
}

/// What the writer must write for a time.
///
/// A header with the mark is what gix-date writes, but for the sign of offset 0 (RULES 9.1).
///
/// An ISO line is what gix-date's format `ISO8601_STRICT` gives for the time at its cut offset (RULES 9.4); jiff cuts it.
/// Where the format fails, the seconds are out of range, which is 6. It also writes offsets of a day, which are 7 here, and
/// years below 0, which are 6. No year in range is above 9999.
pub fn written(writer: Writer, seconds: i64, offset: i32) -> Bytes {
    match writer {
        Writer::Header => {
            let mut bytes = [0; 32];
            let mut rest = &mut bytes[..];
            match Time::new(seconds, offset).write_to(&mut rest) {
                Ok(()) => {
                    let length = 32 - rest.len();
                    Bytes::Written(bytes, length)
                }
                Err(_) => Bytes::Refused(7),
            }
        }
        Writer::HeaderMarked(mark) => match written(Writer::Header, seconds, offset) {
            Bytes::Written(mut bytes, length) if offset == 0 && mark != 0 => {
                bytes[length - "+0000".len()] = b'-';
                Bytes::Written(bytes, length)
            }
            others => others,
        },
        Writer::Iso if offset.unsigned_abs() >= 86400 => Bytes::Refused(7),
        Writer::Iso => match Time::new(seconds, cut_to_minutes(offset)).format(ISO8601_STRICT) {
            Ok(line) if !line.starts_with('-') => {
                let mut bytes = [0; 32];
                bytes[..line.len()].copy_from_slice(line.as_bytes());
                Bytes::Written(bytes, line.len())
            }
            _ => Bytes::Refused(6),
        },
    }
}

/// An offset under a day cut toward zero to whole minutes, by jiff.
fn cut_to_minutes(offset: i32) -> i32 {
    let cut = OffsetRound::new().smallest(Unit::Minute).mode(RoundMode::Trunc);
    Offset::from_seconds(offset).and_then(|offset| offset.round(cut)).expect("less than a day").seconds()
}

/// What must be read back of a header that was written with this byte for the mark, at an offset that is written
/// (RULES 12.2).
pub fn read_back(seconds: i64, offset: i32, mark: u8) -> Answer {
    let is_set = if offset == 0 { mark != 0 } else { (-59..=-1).contains(&offset) };
    Answer { number: 0, seconds, offset: offset / 60 * 60, mark: u8::from(is_set) }
}

/// What `size` must answer.
pub fn size(seconds: i64, offset: i32) -> usize {
    Time::new(seconds, offset).size()
}
