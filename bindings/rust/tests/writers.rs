//! The writers: bytes written, bytes not written, rooms of every length.

use chowderbell::Refusal::*;
use chowderbell::{entries, Refusal, Time, TimeBuf, UnknownNumber, HEADER_MAX, ISO_LENGTH, TURNS_MAX};

#[test]
fn header() {
    let mut buf = TimeBuf::default();
    for (seconds, offset, wanted) in [
        (1745582210, 7200, Ok("1745582210 +0200")),
        (0, 0, Ok("0 +0000")),
        (0, -30, Ok("0 -0000")),
        (-1, 359999, Ok("-1 +9959")),
        (5, 360000, Err(Offset)),
        (5, -360000, Err(Offset)),
        (5, i32::MIN, Err(Offset)),
        (i64::MIN, -359999, Ok("-9223372036854775808 -9959")),
        (i64::MAX, 359999, Ok("9223372036854775807 +9959")),
    ] {
        let time = Time::new(seconds, offset);
        assert_eq!(time.to_str(&mut buf), wanted, "{time:?}");
        if let Ok(text) = wanted {
            assert_eq!(time.size(), text.len(), "{time:?}");
        }
    }
    assert_eq!(Time::MIN.size(), HEADER_MAX);
    // size has an answer also if the offset is too wide
    assert_eq!(Time::new(10, i32::MIN).size(), 8);
}

#[test]
fn iso() {
    let mut buf = TimeBuf::default();
    for (seconds, offset, wanted) in [
        (1203039045, -18000, Ok("2008-02-14T20:30:45-05:00")),
        (-62167219200, 0, Ok("0000-01-01T00:00:00+00:00")),
        (-62167219201, 0, Err(Range)),
        // the offset is cut first: half a minute does not leave year 0, nor reach it
        (-62167219200, -30, Ok("0000-01-01T00:00:00+00:00")),
        (-62167219230, 30, Err(Range)),
        (0, -30, Ok("1970-01-01T00:00:00+00:00")),
        (0, 59, Ok("1970-01-01T00:00:00+00:00")),
        (0, -90, Ok("1969-12-31T23:59:00-00:01")),
        (253402207200, 86399, Ok("9999-12-31T21:59:00+23:59")),
        (253402207201, 0, Err(Range)),
        (0, 86400, Err(Offset)),
        (i64::MAX, 86400, Err(Offset)),
        (0, i32::MIN, Err(Offset)),
    ] {
        assert_eq!(Time::new(seconds, offset).to_iso(&mut buf), wanted, "{seconds} {offset}");
    }
}

#[test]
fn rooms_of_every_length() {
    let time = Time::new(-1745582210, -7200);
    for length in 0..=HEADER_MAX + 1 {
        let mut room = vec![b'.'; length];
        let header = b"-1745582210 -0200";
        let wanted = if length < header.len() { Err(Room) } else { Ok(header.len()) };
        assert_eq!(time.write_to(&mut room), wanted, "room of {length}");
        let written = wanted.unwrap_or(0);
        assert_eq!(room[..written], header[..written], "room of {length}");
        assert!(room[written..].iter().all(|byte| *byte == b'.'), "room of {length}: bytes beyond were written");

        let mut room = vec![b'.'; length];
        let iso = b"1914-09-08T10:03:10-02:00";
        let wanted = if length < ISO_LENGTH { Err(Room) } else { Ok(ISO_LENGTH) };
        assert_eq!(time.write_iso(&mut room), wanted, "room of {length}");
        let written = wanted.unwrap_or(0);
        assert_eq!(room[..written], iso[..written], "room of {length}");
        assert!(room[written..].iter().all(|byte| *byte == b'.'), "room of {length}: bytes beyond were written");
    }
}

#[test]
fn a_refusal_leaves_zeros() {
    let (mut seconds, mut offset, mut length) = (77, 77, 77);
    assert_eq!(entries::header(b"x", &mut seconds, &mut offset), 2);
    assert_eq!((seconds, offset), (0, 0));
    (seconds, offset) = (77, 77);
    assert_eq!(entries::relative(b"now", 0, 1, 1, &mut seconds, &mut offset), 3);
    assert_eq!((seconds, offset), (0, 0));
    (seconds, offset) = (77, 77);
    assert_eq!(entries::header(b"99999999999999999999 +0100", &mut seconds, &mut offset), 11);
    assert_eq!((seconds, offset), (0, 0));
    let longer = [b' '; TURNS_MAX + 1];
    for (text, has_now, number) in [(&b"now"[..], 0, 3), (b"x", 1, 2), (&longer, 1, 2), (b"\x80", 1, 1)] {
        (seconds, offset) = (77, 77);
        let turns = entries::relative_turns(text, has_now, 1, 1, &mut seconds, &mut offset);
        assert_eq!((turns, seconds, offset), (number, 0, 0), "relative by turns, {} bytes", text.len());
    }
    for (rule, text, number) in
        [(2, "5 +2400", 2), (2, "99999999999999999999 +0100", 11), (3, "5 +0100", 2), (3, "\u{80}", 1)]
    {
        (seconds, offset) = (77, 77);
        assert_eq!(entries::raw_by(rule, text.as_bytes(), &mut seconds, &mut offset), number, "raw by {rule} {text:?}");
        assert_eq!((seconds, offset), (0, 0), "raw by {rule} {text:?}");
        (seconds, offset) = (77, 77);
        let any = entries::any_by(rule, text.as_bytes(), 1, 1, 1, &mut seconds, &mut offset);
        assert_eq!((any, seconds, offset), (number, 0, 0), "any by {rule} {text:?}");
    }
    assert_eq!(entries::write_header(0, 360000, &mut [0; 30], &mut length), 7);
    assert_eq!(length, 0);
    // any value but 0 means that there is a current time
    assert_eq!(entries::relative(b"now", 255, 1, 2, &mut seconds, &mut offset), 0);
    assert_eq!((seconds, offset), (1, 2));
    assert_eq!(entries::relative_turns(b"now", 255, 5, 6, &mut seconds, &mut offset), 0);
    assert_eq!((seconds, offset), (5, 6));
    assert_eq!(entries::any_by(2, b"now", 255, 3, 4, &mut seconds, &mut offset), 0);
    assert_eq!((seconds, offset), (3, 4));
}

#[test]
fn refusals_have_numbers_and_words() {
    for (number, refusal) in [
        (1, NotAscii),
        (2, Form),
        (3, Missing),
        (4, Current),
        (5, Pairs),
        (6, Range),
        (7, Offset),
        (8, Room),
        (10, Book),
        (11, TooLarge),
        (12, Lists),
    ] {
        assert_eq!(refusal.number(), number);
        assert_eq!(Refusal::try_from(refusal.number()), Ok(refusal));
        assert!(!refusal.to_string().is_empty());
    }
    for number in [0, 9, 13, 255] {
        assert_eq!(Refusal::try_from(number), Err(UnknownNumber(number)));
        assert_eq!(UnknownNumber(number).to_string(), format!("{number} is not the number of a refusal"));
    }
}
