//! Wrong sides: gix-date's own answers with one mistake each. A comparison that finds no difference says little unless
//! it would have found a mistake, so it must find each of these.

use std::num::IntErrorKind;

use jiff::ToSpan as _;

use crate::oracle::{self, Answer, Bytes, Form, MAX_PAIRS, MAX_SECONDS, MAX_TURNS, MIN_SECONDS, Now, Writer};
use crate::side::Side;
use crate::texts::{COUNTS, NAMES, UNITS, YEAR_0};

/// A side with one mistake.
pub struct Mistake {
    /// The mistake, as a sentence.
    pub name: &'static str,
    /// Whether it is a mistake of a writer or of `size`, and not of a reader.
    pub of_writers: bool,
    read: fn(Form, &[u8], &Now) -> Option<Answer>,
    size: fn(i64, i32) -> usize,
    write: fn(Writer, i64, i32, &mut [u8], &mut usize) -> u8,
    leaves_outputs: bool,
    leaves_mark: bool,
}

const RIGHT: Mistake = Mistake {
    name: "",
    of_writers: false,
    read: |_, _, _| None,
    size: oracle::size,
    write,
    leaves_outputs: false,
    leaves_mark: false,
};
const WRITERS: Mistake = Mistake { of_writers: true, ..RIGHT };

/// The mistakes: plausible shortcuts, misread rules, and programs that do no work at all.
pub const MISTAKES: &[Mistake] = &[
    Mistake { name: "everything is refused", read: |_, _, _| Some(refused(2)), ..RIGHT },
    Mistake { name: "every time is the same", read: |_, _, _| Some(time(0, 0)), ..RIGHT },
    Mistake { name: "only the first pair is applied", read: first_pair_only, ..RIGHT },
    Mistake { name: "31 May less a month is 30 April", read: last_day_of_shorter_month, ..RIGHT },
    Mistake { name: "all months are summed before they are applied", read: months_summed, ..RIGHT },
    Mistake { name: "months are stepped by the clock at offset 0", read: months_at_offset_0, ..RIGHT },
    Mistake { name: "byte 11 is no white space", read: byte_11_is_no_space, ..RIGHT },
    Mistake { name: "byte 31 is white space", read: byte_31_is_space, ..RIGHT },
    Mistake { name: "a bad offset refuses the header", read: bad_offset_refuses, ..RIGHT },
    Mistake { name: "signs inside two-byte fields are refused", read: no_signs_in_fields, ..RIGHT },
    Mistake { name: "`ago` counts only where it comes last", read: ago_only_last, ..RIGHT },
    Mistake { name: "257 pairs are read", read: no_bound_of_pairs, ..RIGHT },
    Mistake { name: "33 pairs are refused", read: refuses_pair_33, ..RIGHT },
    Mistake { name: "of more than 32 pairs the first 32 are the answer", read: first_32_pairs, ..RIGHT },
    Mistake { name: "the current time is looked at first", read: current_time_first, ..RIGHT },
    Mistake { name: "the first second is out of range", read: |f, t, n| range_less(f, t, n, MIN_SECONDS), ..RIGHT },
    Mistake { name: "the last second is out of range", read: |f, t, n| range_less(f, t, n, MAX_SECONDS), ..RIGHT },
    Mistake { name: "29 February 1900 exists", read: |f, t, _| reads_as(f, t, b"1900-02-29", time(0, 0)), ..RIGHT },
    Mistake { name: "year 0 has no 29 February", read: |f, t, _| reads_as(f, t, b"0000-02-29", refused(2)), ..RIGHT },
    Mistake { name: "second 60 is read", read: second_60, ..RIGHT },
    Mistake { name: "\"any\" trims", read: any_trims, ..RIGHT },
    Mistake { name: "\"any\" reads numbers from 99999999 on", read: any_reads_99999999, ..RIGHT },
    Mistake { name: "a refusal leaves what was in seconds and offset", leaves_outputs: true, ..RIGHT },
    Mistake { name: "rule 2 lets hours 24 through", read: hours_24, ..RIGHT },
    Mistake { name: "rule 2 lets minutes 60 through", read: minutes_60, ..RIGHT },
    Mistake { name: "rule 2 lets seconds through", read: offset_seconds, ..RIGHT },
    Mistake { name: "rule 2 refuses fields that open with `+`", read: no_plus_in_fields, ..RIGHT },
    Mistake { name: "rule 3 is read as rule 1", read: |f, t, n| taken_for(f, t, n, 3, 1), ..RIGHT },
    Mistake { name: "rule 0 is read as rule 1", read: |f, t, n| taken_for(f, t, n, 0, 1), ..RIGHT },
    Mistake { name: "rule 2 is read as rule 1", read: |f, t, n| taken_for(f, t, n, 2, 1), ..RIGHT },
    Mistake { name: "rule 1 is read as rule 2", read: |f, t, n| taken_for(f, t, n, 1, 2), ..RIGHT },
    Mistake { name: "only the low byte of a rule's number counts", read: low_byte_of_rule, ..RIGHT },
    Mistake { name: "calls without a rule keep to rule 2", read: unruled_by_rule_2, ..RIGHT },
    Mistake {
        name: "\"any\" keeps to its rule only after `@`",
        read: |f, t, n| any_by_rule_1(f, t, n, false),
        ..RIGHT
    },
    Mistake {
        name: "\"any\" keeps to its rule only without `@`",
        read: |f, t, n| any_by_rule_1(f, t, n, true),
        ..RIGHT
    },
    Mistake { name: "\"any\" reads `now` by rule 3", read: relative_without_rule, ..RIGHT },
    Mistake { name: "by rule 3, byte 128 is refused by 2", read: no_rule_before_1, ..RIGHT },
    Mistake { name: "a number that is too large is refused by 2", read: too_large_is_2, ..RIGHT },
    Mistake { name: "11 comes before the header's test for `:`", read: too_large_before_colon, ..RIGHT },
    Mistake { name: "11 comes before the test for byte 128", read: too_large_before_1, ..RIGHT },
    Mistake { name: "rule 3 gives 11 before 2", read: too_large_before_rule, ..RIGHT },
    Mistake { name: "by rule 2, a number that is too large is refused by 2", read: too_large_by_rule_1, ..RIGHT },
    Mistake {
        name: "by raw, a lone word that is too large is refused by 2",
        read: |f, t, n| raw_with_words(f, t, n, |count| count == 1),
        ..RIGHT
    },
    Mistake {
        name: "by raw, three words of which the first is too large are refused by 2",
        read: |f, t, n| raw_with_words(f, t, n, |count| count > 2),
        ..RIGHT
    },
    Mistake { name: "by raw, a later word with `:` is refused by 2 before 11", read: raw_with_colon, ..RIGHT },
    Mistake { name: "by raw, leading digits that are too large are 11", read: raw_falls_back, ..RIGHT },
    Mistake { name: "a header is 11 only by its whole first word", read: header_without_fallback, ..RIGHT },
    Mistake {
        name: "in a header, a signed number that is too large is 11 also with bytes behind it",
        read: signed_with_bytes_behind,
        ..RIGHT
    },
    Mistake { name: "9223372036854775808 with a minus sign is too large", read: smallest_is_too_large, ..RIGHT },
    Mistake { name: "twenty digits are too large, zeros in front too", read: twenty_digits_are_too_large, ..RIGHT },
    Mistake { name: "`@` and a number that is too large is 11", read: too_large_behind_at, ..RIGHT },
    Mistake { name: "\"any\" gives 11 before it tries the relative form", read: too_large_before_relative, ..RIGHT },
    Mistake {
        name: "a relative text that opens with a number that is too large is 11",
        read: relative_too_large,
        ..RIGHT
    },
    Mistake { name: "an ISO hour that is too large is 11", read: hour_too_large, ..RIGHT },
    Mistake { name: "by turns, `ago` counts only in front of an unknown unit", read: mark_only_in_front, ..RIGHT },
    Mistake { name: "by turns, pairs after the 256th are dropped", read: drops_pair_257, ..RIGHT },
    Mistake { name: "by turns, the count of pairs wraps at 256", read: pairs_wrap, ..RIGHT },
    Mistake { name: "by turns, a text of 4,097 bytes is read", read: |f, t, n| reads_length(f, t, n, 4097), ..RIGHT },
    Mistake { name: "by turns, a text of 4,096 bytes is refused", read: longest_is_refused, ..RIGHT },
    Mistake { name: "by turns, the length is counted after trimming", read: length_once_trimmed, ..RIGHT },
    Mistake { name: "by turns, a long text with byte 128 is refused by 2", read: too_long_before_1, ..RIGHT },
    Mistake { name: "by turns, a long text is 5 if it has too many pairs", read: pairs_before_length, ..RIGHT },
    Mistake { name: "by turns, `now` is not read", read: named_not_read, ..RIGHT },
    Mistake {
        name: "by turns, a number in the unit's place is also the next count",
        read: |f, t, n| unit_read_twice(f, t, n, is_count),
        ..RIGHT
    },
    Mistake {
        name: "by turns, `ago` in the unit's place sets the mark",
        read: |f, t, n| unit_read_twice(f, t, n, is_ago),
        ..RIGHT
    },
    Mistake { name: "by turns, pairs are applied from the last to the first", read: last_pair_first, ..RIGHT },
    Mistake { name: "by turns, a count at the end is seconds", read: count_at_end, ..RIGHT },
    Mistake { name: "by turns, the 257th pair is 5 whatever follows", read: pair_257_ends_reading, ..RIGHT },
    Mistake { name: "by turns, an unknown unit refuses only as the last unit", read: only_last_unit_known, ..RIGHT },
    Mistake { name: "by turns, 6 comes before 5", read: |f, t, n| range_before(f, t, n, 5), ..RIGHT },
    Mistake { name: "by turns, 6 comes before 2", read: |f, t, n| range_before(f, t, n, 2), ..RIGHT },
    Mistake { name: "by turns, the first pair looks at the current time", read: current_time_at_pair, ..RIGHT },
    Mistake { name: "a refusal leaves what was in the mark", leaves_mark: true, ..RIGHT },
    Mistake { name: "a header has the mark also with a third word", read: mark_with_third_word, ..RIGHT },
    Mistake { name: "`+0000` has the mark", read: mark_of_plus, ..RIGHT },
    Mistake { name: "every offset that opens with `-` has the mark", read: mark_of_minus, ..RIGHT },
    Mistake {
        name: "a second word that opens with `-` and is no offset has the mark",
        read: mark_of_no_offset,
        ..RIGHT
    },
    Mistake { name: "only offsets whose digits are all 0 have the mark", read: mark_of_zeros, ..RIGHT },
    Mistake { name: "an offset of seven bytes has no mark", read: no_mark_of_seven, ..RIGHT },
    Mistake { name: "the minus of the seconds is taken for the mark", read: mark_of_seconds, ..RIGHT },
    Mistake { name: "a header has the mark of a raw date too", read: mark_of_raw_in_header, ..RIGHT },
    Mistake { name: "by raw, `-+0+0` has no mark", read: no_mark_of_plus_fields, ..RIGHT },
    Mistake { name: "by rule 2 there is no mark", read: no_mark_by_rule_2, ..RIGHT },
    Mistake { name: "by rule 3 a refusal has the mark of rule 1", read: mark_by_rule_3, ..RIGHT },
    Mistake { name: "\"any\" gives no mark behind `@`", read: no_mark_behind_at, ..RIGHT },
    Mistake { name: "\"any\" gives a mark only behind `@`", read: mark_only_behind_at, ..RIGHT },
    Mistake { name: "\"any\" gives the mark of an ISO date", read: mark_of_iso, ..RIGHT },
    Mistake { name: "\"any\" gives the mark of a relative date", read: mark_of_relative, ..RIGHT },
    Mistake { name: "a mark that is set is stored as 255", read: mark_as_255, ..RIGHT },
    Mistake { name: "with the mark, a bad offset refuses the header", read: marked_refuses_bad_offset, ..RIGHT },
    Mistake { name: "with the mark, the offset of a header is cut to minutes", read: marked_cuts_offset, ..RIGHT },
    Mistake { name: "with the mark, a number that is too large is refused by 2", read: marked_too_large_is_2, ..RIGHT },
    Mistake { name: "with the mark, rule 2 is read as rule 1", read: marked_by_rule_1, ..RIGHT },
    Mistake { name: "with the mark, only the low byte of a rule's number counts", read: marked_low_byte, ..RIGHT },
    Mistake { name: "size is always 26", size: |_, _| 26, ..WRITERS },
    Mistake { name: "size miscounts 1000000000000000000", size: miscounts, ..WRITERS },
    Mistake { name: "the writer writes nothing", write: writes_nothing, ..WRITERS },
    Mistake { name: "the writer writes a byte beyond", write: writes_beyond, ..WRITERS },
    Mistake { name: "the writer writes before it refuses", write: writes_first, ..WRITERS },
    Mistake { name: "the smallest second is written as the largest", write: negates_smallest, ..WRITERS },
    Mistake { name: "headers have + for offsets under a minute", write: plus_under_a_minute, ..WRITERS },
    Mistake { name: "the ISO writer shows the clock at the full offset", write: clock_at_full_offset, ..WRITERS },
    Mistake { name: "the ISO writer writes -00:00 at offset -30", write: minus_for_zero, ..WRITERS },
    Mistake { name: "the ISO writer cuts offsets downward", write: cuts_downward, ..WRITERS },
    Mistake { name: "the ISO writer tests the year at the full offset", write: year_at_full_offset, ..WRITERS },
    Mistake { name: "the mark is ignored at offset 0", write: ignores_mark, ..WRITERS },
    Mistake { name: "`-0000` is written for offset 30 with the mark", write: minus_beside_mark, ..WRITERS },
    Mistake { name: "`+0000` is written for offset -30 with the mark", write: mark_turns_sign, ..WRITERS },
    Mistake { name: "`-0000` is written for offset 0 without the mark", write: always_marked, ..WRITERS },
    Mistake { name: "only the lowest bit of a mark counts", write: lowest_bit_of_mark, ..WRITERS },
    Mistake { name: "only 1 sets the mark", write: only_1_is_set, ..WRITERS },
];

impl Side for Mistake {
    fn read(&self, form: Form, text: &[u8], now: &Now, seconds: &mut i64, offset: &mut i32, mark: &mut u8) -> u8 {
        let answer = (self.read)(form, text, now).unwrap_or_else(|| right(form, text, now));
        if answer.number == 0 || !self.leaves_outputs {
            (*seconds, *offset) = (answer.seconds, answer.offset);
        }
        if answer.number == 0 || !self.leaves_mark {
            *mark = answer.mark;
        }
        answer.number
    }

    fn size(&self, seconds: i64, offset: i32) -> usize {
        (self.size)(seconds, offset)
    }

    fn write(&self, writer: Writer, seconds: i64, offset: i32, room: &mut [u8], length: &mut usize) -> u8 {
        (self.write)(writer, seconds, offset, room, length)
    }
}

fn right(form: Form, text: &[u8], now: &Now) -> Answer {
    oracle::wanted(form, text, now).0
}

fn refused(number: u8) -> Answer {
    Answer { number, seconds: 0, offset: 0, mark: 0 }
}

fn time(seconds: i64, offset: i32) -> Answer {
    Answer { number: 0, seconds, offset, mark: 0 }
}

fn is_relative(form: Form) -> bool {
    matches!(form, Form::Relative | Form::Any)
}

/// The words of a relative text.
fn words(text: &[u8]) -> Vec<String> {
    let words = text.split(|byte| !byte.is_ascii_alphanumeric()).filter(|word| !word.is_empty());
    words.map(|word| String::from_utf8_lossy(word).into_owned()).collect()
}

fn first_pair_only(form: Form, text: &[u8], now: &Now) -> Option<Answer> {
    let words = words(text);
    if !is_relative(form) || words.len() < 4 || right(form, text, now).number != 0 {
        return None;
    }
    let first = format!("{} {}", words[0], words[1]);
    Some(right(form, first.as_bytes(), now)).filter(|answer| answer.number == 0)
}

fn is_months(unit: &str) -> bool {
    unit.to_ascii_lowercase().starts_with("month")
}

fn last_day_of_shorter_month(form: Form, text: &[u8], now: &Now) -> Option<Answer> {
    let words = words(text);
    if !is_relative(form) || words.len() != 2 || !is_months(&words[1]) || right(form, text, now).number != 0 {
        return None;
    }
    let months: i32 = words[0].parse().ok()?;
    let zoned = now.zoned()?;
    let landed = zoned.checked_sub(months.months()).ok()?;
    Some(time(landed.timestamp().as_second(), landed.offset().seconds()))
}

fn months_summed(form: Form, text: &[u8], now: &Now) -> Option<Answer> {
    let words = words(text);
    if !is_relative(form) || words.len() < 4 || !words.chunks(2).all(|pair| pair.len() == 2 && is_months(&pair[1])) {
        return None;
    }
    let sum: i64 = words.iter().step_by(2).filter_map(|count| count.parse::<i64>().ok()).sum();
    Some(right(form, format!("{sum} months").as_bytes(), now))
}

fn months_at_offset_0(form: Form, text: &[u8], now: &Now) -> Option<Answer> {
    let (seconds, offset) = now.time?;
    if !is_relative(form) || right(form, text, now).number != 0 || !words(text).iter().any(|word| is_months(word)) {
        return None;
    }
    let answer = right(form, text, &Now::at(seconds, 0));
    Some(Answer { offset, ..answer }).filter(|answer| answer.number == 0)
}

fn byte_11_is_no_space(form: Form, text: &[u8], now: &Now) -> Option<Answer> {
    let text: Vec<u8> = text.iter().map(|byte| if *byte == 11 { 1 } else { *byte }).collect();
    Some(right(form, &text, now))
}

fn byte_31_is_space(form: Form, text: &[u8], now: &Now) -> Option<Answer> {
    let text: Vec<u8> = text.iter().map(|byte| if *byte == 31 { 32 } else { *byte }).collect();
    Some(right(form, &text, now))
}

/// The second of two words, which are separated by white space.
fn second_word(text: &[u8]) -> Option<&str> {
    let text = std::str::from_utf8(text).ok()?;
    let mut words = text.split_whitespace().skip(1);
    words.next().filter(|_| words.next().is_none())
}

fn bad_offset_refuses(form: Form, text: &[u8], now: &Now) -> Option<Answer> {
    let answer = right(form, text, now);
    let bad = form == Form::Header && answer.number == 0 && answer.offset == 0;
    let second = second_word(text).filter(|_| bad)?;
    (!second.starts_with("+00") && !second.starts_with("-00")).then_some(refused(2))
}

fn no_signs_in_fields(form: Form, text: &[u8], now: &Now) -> Option<Answer> {
    let second = second_word(text)?;
    let answer = right(form, text, now);
    if answer.number != 0 || !second.get(1..)?.contains(['+', '-']) {
        return None;
    }
    match form {
        Form::Header => Some(time(answer.seconds, 0)),
        Form::Raw => Some(refused(2)),
        _ => None,
    }
}

fn ago_only_last(form: Form, text: &[u8], now: &Now) -> Option<Answer> {
    let words = words(text);
    let is_ago = |word: &String| word.eq_ignore_ascii_case("ago");
    if !is_relative(form) || !words.iter().any(is_ago) || words.last().is_some_and(is_ago) {
        return None;
    }
    let without: Vec<&str> = words.iter().filter(|word| !is_ago(word)).map(String::as_str).collect();
    Some(right(form, without.join(" ").as_bytes(), now))
}

fn no_bound_of_pairs(form: Form, text: &[u8], now: &Now) -> Option<Answer> {
    if right(form, text, now).number != 5 {
        return None;
    }
    let text = std::str::from_utf8(text).ok()?;
    let landed = gix_date::parse::visible::relative(text, now.zoned())?.ok()?;
    Some(time(landed.timestamp().as_second(), landed.offset().seconds()))
}

/// The pairs of a text that the relative reader answers with a time, if they are more than 32.
fn many_pairs(form: Form, text: &[u8], now: &Now) -> Option<Relative> {
    let is_asked = form == Form::Relative && right(form, text, now).number == 0;
    is_asked.then(|| held_in(text)).filter(|held| held.pairs.len() > 32)
}

fn refuses_pair_33(form: Form, text: &[u8], now: &Now) -> Option<Answer> {
    many_pairs(form, text, now).map(|_| refused(5))
}

fn first_32_pairs(form: Form, text: &[u8], now: &Now) -> Option<Answer> {
    many_pairs(form, text, now).map(|held| right_of(&held.pairs[..32], held.marked, now))
}

fn current_time_first(form: Form, text: &[u8], now: &Now) -> Option<Answer> {
    (is_relative(form) && now.time.is_some() && now.zoned().is_none() && text.is_ascii()).then_some(refused(4))
}

fn range_less(form: Form, text: &[u8], now: &Now, end: i64) -> Option<Answer> {
    let answer = right(form, text, now);
    let number = if form == Form::Relative { 6 } else { 2 };
    (matches!(form, Form::Relative | Form::Iso) && answer.number == 0 && answer.seconds == end)
        .then_some(refused(number))
}

fn reads_as(form: Form, text: &[u8], start: &[u8], answer: Answer) -> Option<Answer> {
    (form == Form::Iso && text.starts_with(start)).then_some(answer)
}

fn second_60(form: Form, text: &[u8], now: &Now) -> Option<Answer> {
    let text = std::str::from_utf8(text).ok().filter(|text| form == Form::Iso && text.contains(":60"))?;
    let answer = right(form, text.replace(":60", ":59").as_bytes(), now);
    Some(answer).filter(|answer| answer.number == 0)
}

fn any_trims(form: Form, text: &[u8], now: &Now) -> Option<Answer> {
    (form == Form::Any).then(|| right(form, text.trim_ascii(), now))
}

fn any_reads_99999999(form: Form, text: &[u8], _: &Now) -> Option<Answer> {
    (form == Form::Any && text == b"99999999").then_some(time(99999999, 0))
}

/// The number of the rule, if the form has one.
fn rule_of(form: Form) -> Option<u32> {
    match form {
        Form::RawBy(rule) | Form::AnyBy(rule) => Some(rule),
        _ => None,
    }
}

/// By rule 2: the text with `field` at `place` of its offset replaced, if the offset has it there. Also the offset's sign.
fn replaced(form: Form, text: &[u8], place: usize, field: &str, instead: &str) -> Option<(i32, Vec<u8>)> {
    let offset = second_word(text).filter(|_| rule_of(form) == Some(2))?;
    if offset.get(place..place + 2)? != field {
        return None;
    }
    let mut changed = std::str::from_utf8(text).ok()?.to_string();
    let at = changed.rfind(offset)? + place;
    changed.replace_range(at..at + 2, instead);
    Some((if offset.starts_with('-') { -1 } else { 1 }, changed.into_bytes()))
}

/// The answer with `more` seconds in its offset, if it is a time.
fn wider(answer: Answer, more: i32) -> Option<Answer> {
    (answer.number == 0).then(|| time(answer.seconds, answer.offset + more))
}

fn hours_24(form: Form, text: &[u8], now: &Now) -> Option<Answer> {
    let (sign, text) = replaced(form, text, 1, "24", "23")?;
    wider(right(form, &text, now), sign * 3600)
}

fn minutes_60(form: Form, text: &[u8], now: &Now) -> Option<Answer> {
    let (sign, text) = replaced(form, text, 3, "60", "59")?;
    wider(right(form, &text, now), sign * 60)
}

fn offset_seconds(form: Form, text: &[u8], now: &Now) -> Option<Answer> {
    let (sign, text) = replaced(form, text, 5, "01", "00")?;
    wider(right(form, &text, now), sign)
}

fn no_plus_in_fields(form: Form, text: &[u8], now: &Now) -> Option<Answer> {
    let fields = second_word(text)?.get(1..)?;
    (form == Form::RawBy(2) && fields.contains('+') && right(form, text, now).number == 0).then_some(refused(2))
}

/// The form by another rule, if it has a rule.
fn with_rule(form: Form, rule: u32) -> Form {
    match form {
        Form::RawBy(_) => Form::RawBy(rule),
        Form::AnyBy(_) => Form::AnyBy(rule),
        _ => form,
    }
}

/// The right answer by rule `other` where `rule` was asked for.
fn taken_for(form: Form, text: &[u8], now: &Now, rule: u32, other: u32) -> Option<Answer> {
    (rule_of(form) == Some(rule)).then(|| right(with_rule(form, other), text, now))
}

fn low_byte_of_rule(form: Form, text: &[u8], now: &Now) -> Option<Answer> {
    rule_of(form).map(|rule| right(with_rule(form, rule & 255), text, now))
}

fn unruled_by_rule_2(form: Form, text: &[u8], now: &Now) -> Option<Answer> {
    match form {
        Form::Raw => Some(right(Form::RawBy(2), text, now)),
        Form::Any => Some(right(Form::AnyBy(2), text, now)),
        _ => None,
    }
}

/// "Any" by rule 1 where rule 2 was asked for: of texts that begin with `@`, or of those that do not.
fn any_by_rule_1(form: Form, text: &[u8], now: &Now, at: bool) -> Option<Answer> {
    (form == Form::AnyBy(2) && text.starts_with(b"@") == at).then(|| right(Form::AnyBy(1), text, now))
}

fn relative_without_rule(form: Form, text: &[u8], now: &Now) -> Option<Answer> {
    let answer = (form == Form::AnyBy(3)).then(|| right(Form::Relative, text, now))?;
    Some(answer).filter(|answer| answer.number == 0)
}

fn no_rule_before_1(form: Form, _: &[u8], _: &Now) -> Option<Answer> {
    (rule_of(form) == Some(3)).then_some(refused(2))
}

/// Whether the right number is 11.
fn is_11(form: Form, text: &[u8], now: &Now) -> bool {
    right(form, text, now).number == 11
}

/// Whether the right number is 2.
fn is_2(form: Form, text: &[u8], now: &Now) -> bool {
    right(form, text, now).number == 2
}

fn is_raw(form: Form) -> bool {
    matches!(form, Form::Raw | Form::RawBy(_))
}

/// The raw form with which "any" ends, by the same rule.
fn last_step(form: Form) -> Option<Form> {
    match form {
        Form::Any => Some(Form::Raw),
        Form::AnyBy(rule) => Some(Form::RawBy(rule)),
        _ => None,
    }
}

fn too_large_is_2(form: Form, text: &[u8], now: &Now) -> Option<Answer> {
    is_11(form, text, now).then_some(refused(2))
}

fn too_large_before_colon(form: Form, text: &[u8], now: &Now) -> Option<Answer> {
    let text: Vec<u8> = text.iter().map(|byte| if *byte == b':' { b'x' } else { *byte }).collect();
    (form == Form::Header && is_11(form, &text, now)).then_some(refused(11))
}

fn too_large_before_1(form: Form, text: &[u8], now: &Now) -> Option<Answer> {
    let text: Vec<u8> = text.iter().map(|byte| if byte.is_ascii() { *byte } else { b'x' }).collect();
    is_11(form, &text, now).then_some(refused(11))
}

fn too_large_before_rule(form: Form, text: &[u8], now: &Now) -> Option<Answer> {
    (rule_of(form) == Some(3) && is_11(with_rule(form, 1), text, now)).then_some(refused(11))
}

fn too_large_by_rule_1(form: Form, text: &[u8], now: &Now) -> Option<Answer> {
    (rule_of(form) == Some(2) && is_11(form, text, now)).then_some(refused(2))
}

/// By raw: 2 for 11 where the count of words is such.
fn raw_with_words(form: Form, text: &[u8], now: &Now, such: fn(usize) -> bool) -> Option<Answer> {
    let count = std::str::from_utf8(text).ok()?.split_whitespace().count();
    (is_raw(form) && such(count) && is_11(form, text, now)).then_some(refused(2))
}

fn raw_with_colon(form: Form, text: &[u8], now: &Now) -> Option<Answer> {
    (is_raw(form) && text.contains(&b':') && is_11(form, text, now)).then_some(refused(2))
}

fn raw_falls_back(form: Form, text: &[u8], now: &Now) -> Option<Answer> {
    let by_a_rule = matches!(form, Form::Raw | Form::RawBy(1 | 2));
    (by_a_rule && is_2(form, text, now) && is_11(Form::Header, text, now)).then_some(refused(11))
}

fn header_without_fallback(form: Form, text: &[u8], now: &Now) -> Option<Answer> {
    (form == Form::Header && is_11(form, text, now) && is_2(Form::Raw, text, now)).then_some(refused(2))
}

fn signed_with_bytes_behind(form: Form, text: &[u8], now: &Now) -> Option<Answer> {
    let unsigned = text.strip_prefix(b"-").or_else(|| text.strip_prefix(b"+"))?;
    let opens_with_digit = unsigned.first().is_some_and(u8::is_ascii_digit);
    (form == Form::Header && opens_with_digit && is_2(form, text, now) && is_11(form, unsigned, now))
        .then_some(refused(11))
}

fn smallest_is_too_large(form: Form, text: &[u8], now: &Now) -> Option<Answer> {
    let answer = right(form, text, now);
    let is_smallest = answer.number == 0 && answer.seconds == i64::MIN;
    (is_smallest && (form == Form::Header || is_raw(form))).then_some(refused(11))
}

fn twenty_digits_are_too_large(form: Form, text: &[u8], now: &Now) -> Option<Answer> {
    let word = std::str::from_utf8(text).ok()?.split_whitespace().next()?;
    let count = word.trim_start_matches(['+', '-']).bytes().take_while(u8::is_ascii_digit).count();
    let is_read = (form == Form::Header || is_raw(form)) && right(form, text, now).number == 0;
    (is_read && count >= 20).then_some(refused(11))
}

fn too_large_behind_at(form: Form, text: &[u8], now: &Now) -> Option<Answer> {
    let rest = text.strip_prefix(b"@")?;
    (is_11(last_step(form)?, rest, now) && is_2(form, text, now)).then_some(refused(11))
}

fn too_large_before_relative(form: Form, text: &[u8], now: &Now) -> Option<Answer> {
    is_11(last_step(form)?, text, now).then_some(refused(11))
}

fn relative_too_large(form: Form, text: &[u8], now: &Now) -> Option<Answer> {
    (form == Form::Relative && is_2(form, text, now) && is_11(Form::Raw, text, now)).then_some(refused(11))
}

/// 11 for an ISO text of which only the hour, at place 11, is too large for its 32 bits.
fn hour_too_large(form: Form, text: &[u8], now: &Now) -> Option<Answer> {
    let (date, time) = std::str::from_utf8(text).ok().filter(|_| form == Form::Iso)?.split_at_checked(11)?;
    let (hour, rest) = time.split_once(':')?;
    let too_large = hour.parse::<u32>().is_err_and(|error| *error.kind() == IntErrorKind::PosOverflow);
    let at_0 = format!("{date}00:{rest}");
    (too_large && right(form, at_0.as_bytes(), now).number == 0).then_some(refused(11))
}

fn is_ago(word: &str) -> bool {
    word.eq_ignore_ascii_case("ago")
}

/// Whether a word is a count (RULES 7.3).
fn is_count(word: &str) -> bool {
    word.parse::<i64>().is_ok() || COUNTS.iter().any(|count| word.eq_ignore_ascii_case(count))
}

/// Whether a word is a unit, with or without its final `s` (RULES 7.5).
fn is_unit(word: &str) -> bool {
    let word = word.strip_suffix(['s', 'S']).unwrap_or(word);
    UNITS.iter().any(|unit| word.eq_ignore_ascii_case(unit))
}

/// A pair of a relative text.
struct Pair {
    count: String,
    unit: String,
    /// Whether the mark was set in front of it.
    marked: bool,
}

/// What a relative text holds.
struct Relative {
    pairs: Vec<Pair>,
    /// Whether the mark was set anywhere.
    marked: bool,
    /// The count at the end of the text, which has no unit.
    last_count: Option<String>,
}

/// What the text holds, if the second reader of relative dates was asked and takes it.
fn by_turns(form: Form, text: &[u8]) -> Option<Relative> {
    let is_taken = form == Form::Turns && text.len() <= MAX_TURNS && text.is_ascii();
    is_taken.then(|| held_in(text))
}

/// What an ASCII text holds.
fn held_in(text: &[u8]) -> Relative {
    let mut held = Relative { pairs: Vec::new(), marked: false, last_count: None };
    for word in words(text) {
        match held.last_count.take() {
            Some(count) => held.pairs.push(Pair { count, unit: word, marked: held.marked }),
            None if is_ago(&word) => held.marked = true,
            None => held.last_count = Some(word).filter(|word| is_count(word)),
        }
    }
    held
}

/// The right answer to a text of these pairs, with the mark at its end if it is set.
fn right_of<'a>(pairs: impl IntoIterator<Item = &'a Pair>, marked: bool, now: &Now) -> Answer {
    let pairs: String = pairs.into_iter().map(|pair| format!("{} {} ", pair.count, pair.unit)).collect();
    right(Form::Relative, (pairs + if marked { "ago" } else { "" }).as_bytes(), now)
}

fn mark_only_in_front(form: Form, text: &[u8], _: &Now) -> Option<Answer> {
    let is_lost = |pair: &Pair| !pair.marked && !is_unit(&pair.unit);
    by_turns(form, text)?.pairs.iter().any(is_lost).then_some(refused(2))
}

fn drops_pair_257(form: Form, text: &[u8], now: &Now) -> Option<Answer> {
    let Relative { pairs, marked, .. } = by_turns(form, text)?;
    (right(form, text, now).number == 5).then(|| right_of(&pairs[..MAX_PAIRS], marked, now))
}

/// A count of eight bits: 256 pairs are none.
fn pairs_wrap(form: Form, text: &[u8], now: &Now) -> Option<Answer> {
    let count = by_turns(form, text)?.pairs.len();
    if count > 0 && count % 256 == 0 { Some(refused(2)) } else { no_bound_of_pairs(form, text, now) }
}

fn reads_length(form: Form, text: &[u8], now: &Now, len: usize) -> Option<Answer> {
    (form == Form::Turns && text.len() == len).then(|| right(Form::Relative, text, now))
}

fn longest_is_refused(form: Form, text: &[u8], _: &Now) -> Option<Answer> {
    by_turns(form, text).filter(|_| text.len() == MAX_TURNS).map(|_| refused(2))
}

fn length_once_trimmed(form: Form, text: &[u8], now: &Now) -> Option<Answer> {
    (form == Form::Turns && text.trim_ascii().len() <= MAX_TURNS).then(|| right(Form::Relative, text, now))
}

fn too_long_before_1(form: Form, text: &[u8], _: &Now) -> Option<Answer> {
    (form == Form::Turns && text.len() > MAX_TURNS).then_some(refused(2))
}

fn pairs_before_length(form: Form, text: &[u8], now: &Now) -> Option<Answer> {
    (form == Form::Turns && right(Form::Relative, text, now).number == 5).then_some(refused(5))
}

fn named_not_read(form: Form, text: &[u8], _: &Now) -> Option<Answer> {
    let is_named = NAMES.iter().any(|name| text.trim_ascii().eq_ignore_ascii_case(name.as_bytes()));
    (form == Form::Turns && is_named).then_some(refused(2))
}

/// Units that are such words are read again, where a count is awaited.
fn unit_read_twice(form: Form, text: &[u8], now: &Now, such: fn(&str) -> bool) -> Option<Answer> {
    by_turns(form, text)?;
    let (mut read, mut after_count, mut any_twice) = (Vec::new(), false, false);
    for word in words(text) {
        let twice = after_count && such(&word);
        // a unit that is read again may be a count itself
        after_count = is_count(&word) && (twice || !after_count);
        any_twice |= twice;
        read.extend(std::iter::repeat_n(word, 1 + usize::from(twice)));
    }
    any_twice.then(|| right(Form::Relative, read.join(" ").as_bytes(), now))
}

fn last_pair_first(form: Form, text: &[u8], now: &Now) -> Option<Answer> {
    let Relative { pairs, marked, .. } = by_turns(form, text)?;
    (pairs.len() > 1).then(|| right_of(pairs.iter().rev(), marked, now))
}

fn count_at_end(form: Form, text: &[u8], now: &Now) -> Option<Answer> {
    let Relative { mut pairs, marked, last_count } = by_turns(form, text)?;
    pairs.push(Pair { count: last_count?, unit: "seconds".to_string(), marked });
    Some(right_of(&pairs, marked, now))
}

fn pair_257_ends_reading(form: Form, text: &[u8], now: &Now) -> Option<Answer> {
    let count = by_turns(form, text)?.pairs.len();
    (count > MAX_PAIRS && is_2(form, text, now)).then_some(refused(5))
}

fn only_last_unit_known(form: Form, text: &[u8], now: &Now) -> Option<Answer> {
    let pairs = by_turns(form, text)?.pairs;
    (is_unit(&pairs.last()?.unit) && is_2(form, text, now)).then(|| right_of(&pairs, true, now))
}

/// 6 in place of `number` if the first pair leaves the range.
fn range_before(form: Form, text: &[u8], now: &Now, number: u8) -> Option<Answer> {
    let first = right_of(by_turns(form, text)?.pairs.first(), true, now);
    (first.number == 6 && right(form, text, now).number == number).then_some(first)
}

/// 3 or 4 for every text with a pair, before 2 and 5.
fn current_time_at_pair(form: Form, text: &[u8], now: &Now) -> Option<Answer> {
    let first = right_of(by_turns(form, text)?.pairs.first(), true, now);
    matches!(first.number, 3 | 4).then_some(first)
}

/// The right answer of a reader that gives the mark, if it reads the text.
fn marked(form: Form, text: &[u8], now: &Now) -> Option<Answer> {
    let answer = form.has_mark().then(|| right(form, text, now))?;
    Some(answer).filter(|answer| answer.number == 0)
}

/// The answer with the mark set.
fn set(answer: Answer) -> Answer {
    Answer { mark: 1, ..answer }
}

/// The answer with the mark clear.
fn clear(answer: Answer) -> Answer {
    Answer { mark: 0, ..answer }
}

/// The rule of a reader that gives the mark.
fn marked_rule(form: Form) -> Option<u32> {
    match form {
        Form::RawMarked(rule) | Form::AnyMarked(rule) => Some(rule),
        _ => None,
    }
}

/// The reader that gives the mark, by another rule if it has one.
fn marked_by(form: Form, rule: u32) -> Form {
    match form {
        Form::RawMarked(_) => Form::RawMarked(rule),
        Form::AnyMarked(_) => Form::AnyMarked(rule),
        _ => form,
    }
}

fn mark_with_third_word(form: Form, text: &[u8], now: &Now) -> Option<Answer> {
    let answer = marked(form, text, now).filter(|_| form == Form::HeaderMarked)?;
    let words: Vec<&str> = std::str::from_utf8(text).ok()?.split_whitespace().collect();
    let first_two = words.get(..2)?.join(" ");
    Some(Answer { mark: right(form, first_two.as_bytes(), now).mark, ..answer })
}

fn mark_of_plus(form: Form, text: &[u8], now: &Now) -> Option<Answer> {
    let answer = marked(form, text, now).filter(|answer| answer.offset == 0)?;
    second_word(text).filter(|word| *word == "+0000").map(|_| set(answer))
}

fn mark_of_minus(form: Form, text: &[u8], now: &Now) -> Option<Answer> {
    let answer = marked(form, text, now).filter(|answer| answer.offset < 0)?;
    second_word(text).filter(|word| word.starts_with('-')).map(|_| set(answer))
}

fn mark_of_no_offset(form: Form, text: &[u8], now: &Now) -> Option<Answer> {
    let answer = marked(form, text, now).filter(|answer| form == Form::HeaderMarked && answer.offset == 0)?;
    second_word(text).filter(|word| word.starts_with('-')).map(|_| set(answer))
}

fn mark_of_zeros(form: Form, text: &[u8], now: &Now) -> Option<Answer> {
    let answer = marked(form, text, now)?;
    second_word(text).filter(|word| word.contains(|c| ('1'..='9').contains(&c))).map(|_| clear(answer))
}

fn no_mark_of_seven(form: Form, text: &[u8], now: &Now) -> Option<Answer> {
    let answer = marked(form, text, now)?;
    second_word(text).filter(|word| word.len() == 7).map(|_| clear(answer))
}

fn mark_of_seconds(form: Form, text: &[u8], now: &Now) -> Option<Answer> {
    let answer = marked(form, text, now).filter(|answer| answer.offset == 0)?;
    text.trim_ascii_start().starts_with(b"-").then(|| set(answer))
}

fn mark_of_raw_in_header(form: Form, text: &[u8], now: &Now) -> Option<Answer> {
    let answer = marked(form, text, now).filter(|_| form == Form::HeaderMarked)?;
    (right(Form::RawMarked(2), text, now).mark == 1).then(|| set(answer))
}

fn no_mark_of_plus_fields(form: Form, text: &[u8], now: &Now) -> Option<Answer> {
    let answer = marked(form, text, now).filter(|_| matches!(form, Form::RawMarked(_)))?;
    second_word(text).filter(|word| word.contains('+')).map(|_| clear(answer))
}

fn no_mark_by_rule_2(form: Form, text: &[u8], now: &Now) -> Option<Answer> {
    (marked_rule(form) == Some(2)).then(|| clear(right(form, text, now)))
}

fn mark_by_rule_3(form: Form, text: &[u8], now: &Now) -> Option<Answer> {
    let mark = (marked_rule(form) == Some(3)).then(|| right(marked_by(form, 1), text, now).mark)?;
    Some(Answer { mark, ..right(form, text, now) })
}

fn no_mark_behind_at(form: Form, text: &[u8], now: &Now) -> Option<Answer> {
    marked(form, text, now).filter(|_| text.starts_with(b"@")).map(clear)
}

fn mark_only_behind_at(form: Form, text: &[u8], now: &Now) -> Option<Answer> {
    let is_any = matches!(form, Form::AnyMarked(_));
    marked(form, text, now).filter(|_| is_any && !text.starts_with(b"@")).map(clear)
}

fn mark_of_iso(form: Form, text: &[u8], now: &Now) -> Option<Answer> {
    let answer = marked(form, text, now).filter(|_| matches!(form, Form::AnyMarked(_)))?;
    let is_iso = right(Form::Iso, text, now).number == 0;
    (is_iso && (text.ends_with(b"-0000") || text.ends_with(b"-00:00"))).then(|| set(answer))
}

fn mark_of_relative(form: Form, text: &[u8], now: &Now) -> Option<Answer> {
    let answer = marked(form, text, now).filter(|answer| answer.offset == 0)?;
    let is_relative = matches!(form, Form::AnyMarked(_)) && right(Form::Relative, text, now).number == 0;
    second_word(text).filter(|word| is_relative && word.starts_with('-')).map(|_| set(answer))
}

fn mark_as_255(form: Form, text: &[u8], now: &Now) -> Option<Answer> {
    marked(form, text, now).filter(|answer| answer.mark == 1).map(|answer| Answer { mark: 255, ..answer })
}

fn marked_refuses_bad_offset(form: Form, text: &[u8], now: &Now) -> Option<Answer> {
    (form == Form::HeaderMarked).then(|| bad_offset_refuses(Form::Header, text, now))?
}

fn marked_cuts_offset(form: Form, text: &[u8], now: &Now) -> Option<Answer> {
    let answer = marked(form, text, now).filter(|_| form == Form::HeaderMarked)?;
    Some(Answer { offset: answer.offset / 60 * 60, ..answer })
}

fn marked_too_large_is_2(form: Form, text: &[u8], now: &Now) -> Option<Answer> {
    (form.has_mark() && is_11(form, text, now)).then_some(refused(2))
}

fn marked_by_rule_1(form: Form, text: &[u8], now: &Now) -> Option<Answer> {
    (marked_rule(form) == Some(2)).then(|| right(marked_by(form, 1), text, now))
}

fn marked_low_byte(form: Form, text: &[u8], now: &Now) -> Option<Answer> {
    marked_rule(form).map(|rule| right(marked_by(form, rule & 255), text, now))
}

fn miscounts(seconds: i64, offset: i32) -> usize {
    oracle::size(seconds, offset) - usize::from(seconds == 1_000_000_000_000_000_000)
}

/// Writes without a mistake.
fn write(writer: Writer, seconds: i64, offset: i32, room: &mut [u8], length: &mut usize) -> u8 {
    *length = 0;
    match oracle::written(writer, seconds, offset) {
        Bytes::Refused(number) => number,
        Bytes::Written(_, needed) if room.len() < needed => 8,
        Bytes::Written(bytes, needed) => {
            room[..needed].copy_from_slice(&bytes[..needed]);
            *length = needed;
            0
        }
    }
}

fn writes_nothing(writer: Writer, seconds: i64, offset: i32, room: &mut [u8], length: &mut usize) -> u8 {
    write(writer, seconds, offset, &mut room.to_vec(), length)
}

fn writes_beyond(writer: Writer, seconds: i64, offset: i32, room: &mut [u8], length: &mut usize) -> u8 {
    let number = write(writer, seconds, offset, room, length);
    if number == 0 && *length < room.len() {
        room[*length] = 0;
    }
    number
}

fn writes_first(writer: Writer, seconds: i64, offset: i32, room: &mut [u8], length: &mut usize) -> u8 {
    let number = write(writer, seconds, offset, room, length);
    if number == 8 && !room.is_empty() {
        room[0] = b'-';
    }
    number
}

fn negates_smallest(writer: Writer, seconds: i64, offset: i32, room: &mut [u8], length: &mut usize) -> u8 {
    let number = write(writer, seconds, offset, room, length);
    if number == 0 && seconds == i64::MIN {
        room[19] = b'7';
    }
    number
}

fn plus_under_a_minute(writer: Writer, seconds: i64, offset: i32, room: &mut [u8], length: &mut usize) -> u8 {
    write(writer, seconds, if (-59..0).contains(&offset) { 0 } else { offset }, room, length)
}

/// The clock at the full offset beside the cut one: the line of an instant that is off by the seconds that were cut.
fn clock_at_full_offset(writer: Writer, seconds: i64, offset: i32, room: &mut [u8], length: &mut usize) -> u8 {
    let cut = if writer == Writer::Iso { i64::from(offset % 60) } else { 0 };
    write(writer, seconds.saturating_add(cut), offset, room, length)
}

fn minus_for_zero(writer: Writer, seconds: i64, offset: i32, room: &mut [u8], length: &mut usize) -> u8 {
    let number = write(writer, seconds, offset, room, length);
    if number == 0 && writer == Writer::Iso && (-59..0).contains(&offset) {
        room[19] = b'-';
    }
    number
}

fn cuts_downward(writer: Writer, seconds: i64, offset: i32, room: &mut [u8], length: &mut usize) -> u8 {
    write(writer, seconds, if writer == Writer::Iso { offset.div_euclid(60) * 60 } else { offset }, room, length)
}

fn year_at_full_offset(writer: Writer, seconds: i64, offset: i32, room: &mut [u8], length: &mut usize) -> u8 {
    let years_below_0 = MIN_SECONDS..YEAR_0 - i64::from(offset);
    if writer == Writer::Iso && offset.unsigned_abs() < 86400 && years_below_0.contains(&seconds) {
        *length = 0;
        return 6;
    }
    write(writer, seconds, offset, room, length)
}

fn minus_beside_mark(writer: Writer, seconds: i64, offset: i32, room: &mut [u8], length: &mut usize) -> u8 {
    let is_marked = matches!(writer, Writer::HeaderMarked(1..));
    write(writer, seconds, if is_marked && (1..60).contains(&offset) { 0 } else { offset }, room, length)
}

fn mark_turns_sign(writer: Writer, seconds: i64, offset: i32, room: &mut [u8], length: &mut usize) -> u8 {
    let is_marked = matches!(writer, Writer::HeaderMarked(1..));
    write(writer, seconds, if is_marked && (-59..0).contains(&offset) { -offset } else { offset }, room, length)
}

/// Writes with the mark that `change` makes of the one that was passed.
fn with_other_mark(
    writer: Writer,
    seconds: i64,
    offset: i32,
    room: &mut [u8],
    length: &mut usize,
    change: fn(u8) -> u8,
) -> u8 {
    let writer = if let Writer::HeaderMarked(mark) = writer { Writer::HeaderMarked(change(mark)) } else { writer };
    write(writer, seconds, offset, room, length)
}

fn ignores_mark(writer: Writer, seconds: i64, offset: i32, room: &mut [u8], length: &mut usize) -> u8 {
    with_other_mark(writer, seconds, offset, room, length, |_| 0)
}

fn always_marked(writer: Writer, seconds: i64, offset: i32, room: &mut [u8], length: &mut usize) -> u8 {
    with_other_mark(writer, seconds, offset, room, length, |_| 1)
}

fn lowest_bit_of_mark(writer: Writer, seconds: i64, offset: i32, room: &mut [u8], length: &mut usize) -> u8 {
    with_other_mark(writer, seconds, offset, room, length, |mark| mark & 1)
}

fn only_1_is_set(writer: Writer, seconds: i64, offset: i32, room: &mut [u8], length: &mut usize) -> u8 {
    with_other_mark(writer, seconds, offset, room, length, |mark| u8::from(mark == 1))
}
