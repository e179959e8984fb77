//! The mark, which keeps the minus of `-0000` (RULES 1.4, 5.10, 9.1, 11.18, 12.2, 12.9). The answers were worked out by hand
//! from the rules, none by running the library.

use chowderbell::Refusal::{self, *};
use chowderbell::{entries, parse, parse_by, parse_header, parse_iso, parse_raw, parse_raw_by};
use chowderbell::{parse_relative, parse_relative_turns, Time, TimeBuf, HEADER_MAX, RULE_1, RULE_2};

/// Noon of 31 May 2021 at offset 0, with the mark, which no reader looks at.
const NOW: Time = Time::with_mark(1622462400, 0, true);
/// 2008-02-14 20:30:45.
const S: i64 = 1203021045;

type Answer = Result<Time, Refusal>;

/// The answer that is these seconds at offset 0 with the mark.
const fn set(seconds: i64) -> Answer {
    Ok(Time::with_mark(seconds, 0, true))
}

/// The answer that is these seconds and this offset with the mark clear.
const fn clear(seconds: i64, offset: i32) -> Answer {
    Ok(Time::new(seconds, offset))
}

/// Reads every row, prints those that differ with input, wanted and got, and fails if there are any.
fn hold(form: &str, rows: &[(&str, Answer)], read: impl Fn(&str) -> Answer) {
    let mut differ = 0;
    for (text, wanted) in rows {
        let got = read(text);
        if got != *wanted {
            println!("{form} {text:?}\n  wanted {wanted:?}\n  got    {got:?}");
            differ += 1;
        }
    }
    assert_eq!(differ, 0, "rows differ");
}

#[test]
fn header() {
    let rows = [
        ("5 -0000", set(5)),
        ("12abc -0000", set(12)),
        ("-5 -0000", set(-5)),
        ("-0 -0000", set(0)),
        (" 5\x0b-0000\n", set(5)),
        ("9223372036854775807 -0000", set(i64::MAX)),
        ("-9223372036854775808 -0000", set(i64::MIN)),
        ("5 -000000", set(5)),
        // the sum is 0: 0 hours, -1 minutes and 60 seconds
        ("5 -00-160", set(5)),
        ("5 -00-159", clear(5, 1)),
        ("5 -00-0", set(5)),
        ("5 -00+0", set(5)),
        ("5 -00-0-0", set(5)),
        ("5 -0000+0", set(5)),
        ("5 +0000", clear(5, 0)),
        ("5 +000000", clear(5, 0)),
        ("5 +00-160", clear(5, 0)),
        ("5 +00-0", clear(5, 0)),
        // the minus of the seconds is not the offset's
        ("-0 +0000", clear(0, 0)),
        ("-5", clear(-5, 0)),
        ("5", clear(5, 0)),
        // the offset is not 0
        ("5 -0001", clear(5, -60)),
        ("5 -000001", clear(5, -1)),
        ("5 -00-1", clear(5, 60)),
        ("5 -0100", clear(5, -3600)),
        // no offset is read: a third word, no digit behind the sign, too few or too many bytes, fields that are no numbers
        ("5 -0000 x", clear(5, 0)),
        ("5 -0000 -0000", clear(5, 0)),
        ("5 x -0000", clear(5, 0)),
        ("5 -+0+0", clear(5, 0)),
        ("5 --0-0", clear(5, 0)),
        ("5 -", clear(5, 0)),
        ("5 -0", clear(5, 0)),
        ("5 -000", clear(5, 0)),
        ("5 -00000", clear(5, 0)),
        ("5 -00000000", clear(5, 0)),
        ("5 -000x", clear(5, 0)),
        ("5 -0x00", clear(5, 0)),
        ("5 -00--", clear(5, 0)),
        ("5 -0000-", clear(5, 0)),
        ("5 -00000x", clear(5, 0)),
        ("5 0000-", clear(5, 0)),
        ("5\x1f-0000", clear(5, 0)),
        // one word, of which the leading digits are read
        ("5-0000", clear(5, 0)),
        ("5 -00:00", Err(Form)),
        ("-5x -0000", Err(Form)),
        ("99999999999999999999 -0000", Err(TooLarge)),
        ("5 -0000\u{e9}", Err(NotAscii)),
    ];
    hold("header", &rows, |text| parse_header(text));
    hold("Time", &rows, |text| text.parse());
}

#[test]
fn raw() {
    let rows = [
        ("5 -0000", set(5)),
        ("5 -+0+0", set(5)),
        ("5 -00+0", set(5)),
        ("5 -000000", set(5)),
        ("5 -+0+0+0", set(5)),
        ("-0 -0000", set(0)),
        (" 5\x0b-0000\n", set(5)),
        ("-9223372036854775808 -0000", set(i64::MIN)),
        ("5 +0000", clear(5, 0)),
        ("5 ++0+0", clear(5, 0)),
        ("-0 +0000", clear(0, 0)),
        ("-5 +000000", clear(-5, 0)),
        ("5 -0015", clear(5, -900)),
        ("5 -1400", clear(5, -50400)),
        ("5 -0000 x", Err(Form)),
        ("5 -00-160", Err(Form)),
        ("5 -00-0", Err(Form)),
        ("5 -000", Err(Form)),
        ("12abc -0000", Err(Form)),
        ("99999999999999999999 -0000", Err(TooLarge)),
        ("5 -0000\u{e9}", Err(NotAscii)),
    ];
    hold("raw", &rows, |text| parse_raw(text));
    hold("raw by rule 1", &rows, |text| parse_raw_by(RULE_1, text));
    hold("raw by rule 2", &rows, |text| parse_raw_by(RULE_2, text));
    hold("raw by rule 2", &[("5 -0001", clear(5, -60)), ("5 -0520", clear(5, -19200))], |text| parse_raw_by(2, text));
    // "any" carries the mark of a raw date, behind `@` too; a number that is too large is 2 there
    for now in [None, Some(NOW), Some(Time::with_mark(i64::MIN, 0, true))] {
        hold("any", &rows, |text| parse(text, now));
        hold("any by rule 1", &rows, |text| parse_by(RULE_1, text, now));
        hold("any by rule 2", &rows, |text| parse_by(RULE_2, text, now));
        let rows = rows.map(|(text, answer)| (text, if answer == Err(TooLarge) { Err(Form) } else { answer }));
        hold("any, behind @", &rows, |text| parse(format!("@{text}"), now));
        hold("any by rule 1, behind @", &rows, |text| parse_by(RULE_1, format!("@{text}"), now));
        hold("any by rule 2, behind @", &rows, |text| parse_by(RULE_2, format!("@{text}"), now));
    }
    for rule in [0, 3, 257, u32::MAX] {
        assert_eq!(parse_raw_by(rule, "5 -0000"), Err(Form), "raw by rule {rule}");
        assert_eq!(parse_by(rule, "@5 -0000", None), Err(Form), "any by rule {rule}");
    }
}

/// ISO and relative dates, and plain numbers, have no mark. That of the current time is not looked at.
#[test]
fn the_other_forms_have_no_mark() {
    let iso = [
        ("2008-02-14 20:30:45 -0000", clear(S, 0)),
        ("2008-02-14T20:30:45-00:00", clear(S, 0)),
        ("2008.02.14 20:30:45 -0000", clear(S, 0)),
        ("20080214T203045-0000", clear(S, 0)),
        ("2008-02-14 20:30:45 -00", clear(S, 0)),
        ("2008-02-14 20:30:45 --0", clear(S, 0)),
    ];
    hold("iso", &iso, |text| parse_iso(text));
    hold("any", &iso, |text| parse(text, Some(NOW)));
    hold("any by rule 2", &iso, |text| parse_by(RULE_2, text, Some(NOW)));

    let relative = [
        ("now", clear(NOW.seconds, 0)),
        ("today", clear(NOW.seconds, 0)),
        ("yesterday", clear(NOW.seconds - 86400, 0)),
        ("0 seconds", clear(NOW.seconds, 0)),
        ("1 month ago", clear(1619870400, 0)),
        // two words, of which the second opens with a minus and has five bytes
        ("1 -days", clear(NOW.seconds - 86400, 0)),
        ("5 -0000 ago", clear(NOW.seconds - 5, 0)),
    ];
    hold("relative", &relative, |text| parse_relative(text, Some(NOW)));
    hold("relative by turns", &relative, |text| parse_relative_turns(text, Some(NOW)));
    hold("any", &relative, |text| parse(text, Some(NOW)));
    hold("any by rule 2", &relative, |text| parse_by(RULE_2, text, Some(NOW)));

    let any = [("@-5", clear(-5, 0)), ("@-0", clear(0, 0)), ("100000000", clear(100000000, 0))];
    hold("any", &any, |text| parse(text, Some(NOW)));
    hold("any by rule 2", &any, |text| parse_by(RULE_2, text, Some(NOW)));
}

#[test]
fn written() {
    let mut buf = TimeBuf::default();
    for (seconds, offset, mark, wanted) in [
        (5, 0, true, Ok("5 -0000")),
        (5, 0, false, Ok("5 +0000")),
        (-1, 0, true, Ok("-1 -0000")),
        (i64::MIN, 0, true, Ok("-9223372036854775808 -0000")),
        (i64::MAX, 0, true, Ok("9223372036854775807 -0000")),
        // beside any other offset the mark is ignored
        (5, 1, true, Ok("5 +0000")),
        (5, 30, true, Ok("5 +0000")),
        (5, 59, true, Ok("5 +0000")),
        (5, 60, true, Ok("5 +0001")),
        (5, -1, true, Ok("5 -0000")),
        (5, -30, true, Ok("5 -0000")),
        (5, -30, false, Ok("5 -0000")),
        (5, -60, true, Ok("5 -0001")),
        (5, 7200, true, Ok("5 +0200")),
        (5, -359999, true, Ok("5 -9959")),
        (5, 360000, true, Err(Offset)),
        (5, i32::MIN, true, Err(Offset)),
    ] {
        let time = Time::with_mark(seconds, offset, mark);
        assert_eq!(time.to_str(&mut buf), wanted, "{time:?}");
        assert_eq!(time.size(), Time::new(seconds, offset).size(), "{time:?}");
        if let Ok(text) = wanted {
            assert_eq!(time.size(), text.len(), "{time:?}");
        }
        // an ISO line does not show it
        let (mut one, mut other) = (TimeBuf::default(), TimeBuf::default());
        assert_eq!(time.to_iso(&mut one), Time::new(seconds, offset).to_iso(&mut other), "{time:?}");
    }
    assert_eq!(Time::with_mark(5, 0, true).to_iso(&mut buf), Ok("1970-01-01T00:00:05+00:00"));
}

#[test]
fn rooms_of_every_length() {
    let header = b"-1745582210 -0000";
    for length in 0..=HEADER_MAX + 1 {
        let mut room = vec![b'.'; length];
        let wanted = if length < header.len() { Err(Room) } else { Ok(header.len()) };
        assert_eq!(Time::with_mark(-1745582210, 0, true).write_to(&mut room), wanted, "room of {length}");
        let written = wanted.unwrap_or(0);
        assert_eq!(room[..written], header[..written], "room of {length}");
        assert!(room[written..].iter().all(|byte| *byte == b'.'), "room of {length}: bytes beyond were written");
    }
}

/// RULES 12.9: every offset of a commit's own form, at some seconds.
#[test]
fn a_header_comes_back_byte_for_byte() {
    let mut buf = TimeBuf::default();
    for seconds in [i64::MIN, -1745582210, -1, 0, 5, 1745582210, i64::MAX] {
        for sign in ["+", "-"] {
            for (hours, minutes) in (0..100).flat_map(|hours| (0..60).map(move |minutes| (hours, minutes))) {
                let text = format!("{seconds} {sign}{hours:02}{minutes:02}");
                let time: Time = text.parse().unwrap();
                assert_eq!(time.to_str(&mut buf), Ok(text.as_str()));
                assert_eq!(time.mark, sign == "-" && hours == 0 && minutes == 0, "{text}");
            }
        }
    }
}

/// RULES 12.2: what is read back of a header, for every offset that is written and both marks.
#[test]
fn every_time_that_is_written_reads_back() {
    let mut buf = TimeBuf::default();
    for offset in -359_999_i32..=359_999 {
        let seconds = [0, -1, 1745582210, i64::MIN, i64::MAX][offset.unsigned_abs() as usize % 5];
        for mark in [false, true] {
            let time = Time::with_mark(seconds, offset, mark);
            let is_marked = offset == 0 && mark || (-59..=-1).contains(&offset);
            let back = Time::with_mark(seconds, offset - offset % 60, is_marked);
            let text = time.to_str(&mut buf).unwrap();
            assert_eq!(parse_header(text), Ok(back), "{time:?}, written {text}");
        }
    }
}

#[test]
fn any_byte_but_0_sets_the_mark() {
    for mark in 0..=255 {
        for (offset, set, clear) in [(0, "7 -0000", "7 +0000"), (30, "7 +0000", "7 +0000"), (-30, "7 -0000", "7 -0000")]
        {
            let (mut room, mut length) = ([b'.'; 9], 0);
            assert_eq!(entries::write_header_marked(7, offset, mark, &mut room, &mut length), 0);
            let wanted = if mark == 0 { clear } else { set };
            assert_eq!((length, &room[..7], &room[7..]), (7, wanted.as_bytes(), &b".."[..]), "mark {mark} at {offset}");
        }
    }
}

/// What an entry left: its number, seconds, offset and mark. Seconds and offset hold 77 before the call, the mark `before`.
fn called(before: u8, entry: impl FnOnce(&mut i64, &mut i32, &mut u8) -> u8) -> (u8, i64, i32, u8) {
    let (mut seconds, mut offset, mut mark) = (77, 77, before);
    let number = entry(&mut seconds, &mut offset, &mut mark);
    (number, seconds, offset, mark)
}

/// What the header entry with a mark left.
fn header_entry(before: u8, text: &[u8]) -> (u8, i64, i32, u8) {
    called(before, |seconds, offset, mark| entries::header_marked(text, seconds, offset, mark))
}

/// What the raw entry with a mark left.
fn raw_entry(before: u8, rule: u32, text: &[u8]) -> (u8, i64, i32, u8) {
    called(before, |seconds, offset, mark| entries::raw_marked(rule, text, seconds, offset, mark))
}

/// What the entry with a mark left that reads any form. The current time is `has_now`, seconds and offset.
fn any_entry(before: u8, rule: u32, text: &[u8], now: (u8, i64, i32)) -> (u8, i64, i32, u8) {
    called(before, |seconds, offset, mark| entries::any_marked(rule, text, now.0, now.1, now.2, seconds, offset, mark))
}

/// The readers store 0 or 1, whatever the variable held.
#[test]
fn a_mark_is_stored_as_0_or_1() {
    for before in [0, 1, 7, 255] {
        for (text, wanted) in [(b"5 -0000", (0, 5, 0, 1)), (b"5 +0000", (0, 5, 0, 0)), (b"5 -0100", (0, 5, -3600, 0))] {
            assert_eq!(header_entry(before, text), wanted, "header");
            for rule in [1, 2] {
                assert_eq!(raw_entry(before, rule, text), wanted, "raw by {rule}");
                assert_eq!(any_entry(before, rule, text, (0, 7, 7)), wanted, "any by {rule}");
            }
        }
    }
}

#[test]
fn a_refusal_stores_0() {
    for (text, number) in
        [("x -0000", 2), ("", 2), ("5 -00:00", 2), ("99999999999999999999 -0000", 11), ("5 -0000\u{e9}", 1)]
    {
        assert_eq!(header_entry(7, text.as_bytes()), (number, 0, 0, 0), "header {text:?}");
    }
    for (rule, text, number) in [
        (1, "5 -0000 x", 2),
        (2, "5 -00-160", 2),
        (1, "5 -0001", 2),
        (0, "5 -0000", 2),
        (3, "5 -0000", 2),
        (257, "5 -0000", 2),
        (2, "99999999999999999999 -0000", 11),
        (3, "99999999999999999999 -0000", 2),
        (1, "5 -0000\u{e9}", 1),
        (3, "5 -0000\u{e9}", 1),
    ] {
        assert_eq!(raw_entry(7, rule, text.as_bytes()), (number, 0, 0, 0), "raw by {rule} {text:?}");
        assert_eq!(any_entry(7, rule, text.as_bytes(), (1, 7, 7)), (number, 0, 0, 0), "any by {rule} {text:?}");
    }
    let pairs = "1 day ".repeat(257);
    for (text, now, number) in [
        ("now", (0, 1, 0), 3),
        ("now", (1, i64::MIN, 0), 4),
        (&pairs, (1, 1, 0), 5),
        ("9223372036854775807 weeks", (1, 1, 0), 6),
        ("@99999999999999999999 -0000", (1, 1, 0), 2),
    ] {
        assert_eq!(any_entry(7, 1, text.as_bytes(), now), (number, 0, 0, 0), "any {text:?}");
    }
    for (offset, room, number) in [(360000, 30, 7), (-360000, 30, 7), (0, 6, 8), (0, 0, 8)] {
        let (mut room, mut length) = (vec![b'.'; room], 77);
        assert_eq!(entries::write_header_marked(5, offset, 1, &mut room, &mut length), number, "offset {offset}");
        assert_eq!(length, 0, "offset {offset}");
        assert!(room.iter().all(|byte| *byte == b'.'), "offset {offset}: the room was changed");
    }
}

/// Number, seconds and offset of the entries with a mark are those of the entries without, for one text.
fn hold_alike(text: &[u8]) {
    // without a mark, which is then as it was: 0
    let plain = |entry: &dyn Fn(&mut i64, &mut i32) -> u8| called(0, |seconds, offset, _| entry(seconds, offset));
    let hold = |form: &str, plain: (u8, i64, i32, u8), marked: (u8, i64, i32, u8)| {
        assert_eq!((marked.0, marked.1, marked.2), (plain.0, plain.1, plain.2), "{form} \"{}\"", text.escape_ascii());
    };
    hold("header", plain(&|seconds, offset| entries::header(text, seconds, offset)), header_entry(7, text));
    hold("raw", plain(&|seconds, offset| entries::raw(text, seconds, offset)), raw_entry(7, 1, text));
    for rule in 0..=3 {
        let by = plain(&|seconds, offset| entries::raw_by(rule, text, seconds, offset));
        hold("raw by", by, raw_entry(7, rule, text));
    }
    for now in [(0, 7, 7), (1, NOW.seconds, 0), (1, i64::MIN, 0)] {
        let any = plain(&|seconds, offset| entries::any(text, now.0, now.1, now.2, seconds, offset));
        hold("any", any, any_entry(7, 1, text, now));
        for rule in 0..=3 {
            let by = plain(&|seconds, offset| entries::any_by(rule, text, now.0, now.1, now.2, seconds, offset));
            hold("any by", by, any_entry(7, rule, text, now));
        }
    }
}

#[test]
fn the_entries_without_a_mark_answer_alike() {
    for text in [
        "",
        "5",
        "12abc -0000",
        "99999999999999999999 -0000",
        "5 -0000 x",
        "5 -00:00",
        "2008-02-14 20:30:45 -0000",
        "now",
        "1 -days",
        "2 weeks ago",
        "9223372036854775807 weeks",
        "100000000",
        "@5",
        "@-0",
        "5 -0000\u{e9}",
    ] {
        hold_alike(text.as_bytes());
    }
    hold_alike("1 day ".repeat(257).as_bytes());
    // every second word of 5 bytes over these
    let bytes = b"-+0159 x";
    for n in 0..bytes.len().pow(5) {
        let word: Vec<u8> = (0..5).map(|place| bytes[n >> (3 * place) & 7]).collect();
        hold_alike(&[b"5 ", &word[..]].concat());
        hold_alike(&[b"@5 ", &word[..]].concat());
    }
    // the writer with the mark clear
    for offset in (-400_000..=400_000).step_by(7).chain(-400..=400) {
        let (mut one, mut other, mut lengths) = ([b'.'; 26], [b'.'; 26], (77, 78));
        let plain = entries::write_header(1745582210, offset, &mut one, &mut lengths.0);
        let marked = entries::write_header_marked(1745582210, offset, 0, &mut other, &mut lengths.1);
        assert_eq!((marked, other, lengths.1), (plain, one, lengths.0), "offset {offset}");
    }
}

/// Equality, order and hash take in the mark, and the times that are made without one have it clear.
#[test]
fn times_that_differ_in_the_mark() {
    let (clear, set) = (Time::new(5, 0), Time::with_mark(5, 0, true));
    assert!(!clear.mark && set.mark);
    assert_eq!(Time::with_mark(5, 0, false), clear);
    assert_ne!(clear, set);
    assert!(clear < set);
    assert!(set < Time::new(5, 1) && set < Time::new(6, -1));
    assert_eq!([set, clear, set].into_iter().collect::<std::collections::HashSet<_>>().len(), 2);
    // also where it means nothing
    assert_ne!(Time::with_mark(5, 60, true), Time::new(5, 60));
    assert!(!Time::MIN.mark && !Time::MAX.mark && !Time::default().mark);
    assert_eq!(Time::MIN, Time::with_mark(i64::MIN, -359_999, false));
    assert_eq!(Time::MAX, Time::with_mark(i64::MAX, 359_999, false));
}
