//! The second reader of relative dates (RULES 7.11, 7.12, 11.17, 12.8), beside the first: texts of 4,096 and 4,097 bytes,
//! and many short ones. The answers were worked out by hand from RULES 7 and 11, none by running the library. The short
//! texts of `examples.rs` are read by both readers too.

use chowderbell::Refusal::{self, *};
use chowderbell::{parse_relative, parse_relative_turns, Time, TURNS_MAX};

/// Noon of 31 May 2021 at offset 0.
const NOW: Time = Time::new(1622462400, 0);
const DAY: i64 = 86400;

type Answer = Result<i64, Refusal>;

/// Reads a text by both readers, and fails with the start of the text, wanted and got if an answer differs.
fn hold(text: &[u8], now: Option<Time>, first: Answer, second: Answer) {
    let offset = now.map_or(0, |now| now.offset);
    let wanted = [first, second].map(|answer| answer.map(|seconds| Time::new(seconds, offset)));
    let got = [parse_relative(text, now), parse_relative_turns(text, now)];
    let start = text[..text.len().min(60)].escape_ascii();
    assert_eq!(got, wanted, "{} bytes that begin with \"{start}\"", text.len());
}

/// The text with white space to this length: behind it, in front of it, on both sides, and behind its first word.
fn filled(text: &str, length: usize) -> [String; 4] {
    let more = length - text.len();
    let (word, rest) = text.split_at(text.find(' ').unwrap_or(0));
    [
        format!("{text}{}", " ".repeat(more)),
        format!("{}{text}", "\t".repeat(more)),
        format!("{}{text}{}", "\n".repeat(more / 2), " ".repeat(more - more / 2)),
        format!("{word}{}{rest}", " ".repeat(more)),
    ]
}

#[test]
fn the_longest_text_has_4096_bytes() {
    assert_eq!(TURNS_MAX, 4096);
    let now = Some(Time::new(NOW.seconds, 3600));
    // RULES 11.17
    hold(format!("now{}", " ".repeat(4093)).as_bytes(), now, Ok(NOW.seconds), Ok(NOW.seconds));
    hold(format!("now{}", " ".repeat(4094)).as_bytes(), now, Ok(NOW.seconds), Err(Form));

    let (most, more) = ("1 day ".repeat(256), "1 day ".repeat(257));
    let unknown = "1 x ".repeat(257);
    let rows = [
        ("now", Ok(NOW.seconds)),
        ("Today", Ok(NOW.seconds)),
        ("yesterday", Ok(NOW.seconds - DAY)),
        ("1 day ago", Ok(NOW.seconds - DAY)),
        ("two weeks", Ok(NOW.seconds - 14 * DAY)),
        // RULES 11.7; the local clock is an hour later, which changes no date here
        ("1 month ago", Ok(1619870400)),
        ("2 months", Ok(1617192000)),
        ("1 month 1 month", Ok(1617278400)),
        // RULES 11.8
        ("2 ago", Err(Form)),
        ("2 ago ago", Ok(NOW.seconds - 2)),
        ("5 6 days", Err(Form)),
        ("5 6 days ago", Ok(NOW.seconds - 5)),
        // RULES 11.9
        (&most, Ok(NOW.seconds - 256 * DAY)),
        (&more, Err(Pairs)),
        (&unknown, Err(Form)),
        ("9223372036854775807 weeks", Err(Range)),
        ("x", Err(Form)),
        ("", Err(Form)),
    ];
    for (text, answer) in rows {
        for length in [4095, 4096] {
            for text in filled(text, length) {
                hold(text.as_bytes(), now, answer, answer);
            }
        }
        // the last length has the low 16 bits of 4096
        for length in [4097, 4098, 8192, 65536 + 4096] {
            for text in filled(text, length) {
                hold(text.as_bytes(), now, answer, Err(Form));
            }
        }
    }
}

/// A text that is too long is 2 whatever the current time is. To one of 4,096 bytes both readers give the same answer.
#[test]
fn the_length_is_tested_before_the_current_time() {
    let first = Time::new(-377705023201, 0);
    for (text, now, answer) in [
        ("now", None, Err(Missing)),
        ("1 day", None, Err(Missing)),
        ("now", Some(Time::new(first.seconds - 1, 0)), Err(Current)),
        ("1 day", Some(Time::new(0, 93600)), Err(Current)),
        ("1 day", Some(Time::new(i64::MAX, i32::MIN)), Err(Current)),
        ("0 seconds", Some(first), Ok(first.seconds)),
        ("1 second", Some(first), Err(Range)),
        ("yesterday", Some(first), Err(Range)),
    ] {
        for text in filled(text, 4096) {
            hold(text.as_bytes(), now, answer, answer);
        }
        for text in filled(text, 4097) {
            hold(text.as_bytes(), now, answer, Err(Form));
        }
    }
}

/// 1 is tested before the length, and so before 2.
#[test]
fn a_byte_of_128_or_more_is_1_at_every_length() {
    for length in [1, 2, 3, 9, 4095, 4096, 4097, 4098, 10000, 65536 + 3] {
        for place in [0, 1, length / 2, 4095, 4096, length - 1].into_iter().filter(|place| *place < length) {
            for byte in [128, 255] {
                for word in ["now", "1 day ago"] {
                    // the byte is among the spaces, or in the word
                    let mut text = word.as_bytes().to_vec();
                    text.resize(length, b' ');
                    text[place] = byte;
                    for now in [Some(NOW), None, Some(Time::new(i64::MIN, 0))] {
                        hold(&text, now, Err(NotAscii), Err(NotAscii));
                    }
                }
            }
        }
    }
}

/// As many words as 4,096 bytes can have, so as many calls as there can be, and the longest words.
#[test]
fn many_words_and_long_words() {
    let day_ago = Ok(NOW.seconds - DAY);
    for (text, answer) in [
        // 2,048 words and no pair
        ("x ".repeat(2048), Err(Form)),
        (" x".repeat(2048), Err(Form)),
        // every second word is a count, and none has a unit that is known: 2, since `ago` is missing
        ("1 ".repeat(2048), Err(Form)),
        // with `ago`, in front or at the end, these are seconds, and 1,023 pairs are too many
        ("ago ".to_owned() + &"1 x ".repeat(1023), Err(Pairs)),
        ("1 x ".repeat(1023) + "ago ", Err(Pairs)),
        // `ago` first, 2,044 words passed over, then a pair
        ("ago ".to_owned() + &"x ".repeat(2044) + "1 x ", Ok(NOW.seconds - 1)),
        ("x ".repeat(2045) + " 1 day", day_ago),
        ("1 day ".to_owned() + &"x ".repeat(2045), day_ago),
        // a count at the end of the text is dropped
        ("1 day  ".to_owned() + &"x ".repeat(2044) + "1", day_ago),
        // 33 pairs, 256 and 257, behind words that are passed over
        ("x ".repeat(1949) + &"1 day ".repeat(33), Ok(NOW.seconds - 33 * DAY)),
        ("x ".repeat(1280) + &"1 day ".repeat(256), Ok(NOW.seconds - 256 * DAY)),
        ("x ".repeat(1277) + &"1 day ".repeat(257), Err(Pairs)),
        // leading zeros change no value, and digits that are too large are passed over
        ("0".repeat(4091) + "1 day", day_ago),
        ("9".repeat(4090) + " 1 day", day_ago),
        // a long unit is not known
        ("1 ".to_owned() + &"x".repeat(4094), Err(Form)),
        ("1 ".to_owned() + &"x".repeat(4090) + " ago", Ok(NOW.seconds - 1)),
        // no word at all
        ("-".repeat(4096), Err(Form)),
    ] {
        assert_eq!(text.len(), 4096);
        hold(text.as_bytes(), Some(NOW), answer, answer);
        hold((text + " ").as_bytes(), Some(NOW), answer, Err(Form));
    }
}

/// RULES 12.8: every text of one to four of these words, at four current times.
#[test]
fn both_readers_answer_alike() {
    let words = "ago AGO 0 1 ten last 9223372036854775807 9223372036854775808 day Months yearss s now x-y";
    let words: Vec<_> = words.split(' ').collect();
    let times = [None, Some(NOW), Some(Time::new(-377705023201, 93599)), Some(Time::new(0, 93600))];
    let mut texts = vec![String::new()];
    for _ in 0..4 {
        // the texts that have one word more
        texts = texts.iter().flat_map(|text| words.iter().map(move |word| format!("{text} {word}"))).collect();
        for text in &texts {
            for now in times {
                assert_eq!(parse_relative_turns(text, now), parse_relative(text, now), "{text:?} at {now:?}");
            }
        }
    }
}
