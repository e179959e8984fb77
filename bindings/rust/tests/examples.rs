//! The examples of RULES 11 and each refusal, through the safe calls. One row is one case. The mark is not looked at here: it
//! has its own tests, in `marks.rs`.

use chowderbell::Refusal::{self, *};
use chowderbell::{parse, parse_by, parse_header, parse_iso, parse_raw, parse_raw_by};
use chowderbell::{parse_relative, parse_relative_turns};
use chowderbell::{Time, PAIRS_MAX, RULE_1, RULE_2};

/// Noon of 31 May 2021 at offset 0.
const NOW: Time = Time::new(1622462400, 0);
/// 2008-02-14 20:30:45.
const S: i64 = 1203021045;

type Answer = Result<(i64, i32), Refusal>;

/// Reads every row, prints those that differ with input, wanted and got, and fails if there are any.
fn hold(form: &str, rows: &[(&str, Answer)], read: impl Fn(&str) -> Result<Time, Refusal>) {
    let mut differ = 0;
    for (text, wanted) in rows {
        let got = read(text).map(|time| (time.seconds, time.offset));
        if got != *wanted {
            println!("{form} {text:?}\n  wanted {wanted:?}\n  got    {got:?}");
            differ += 1;
        }
    }
    assert_eq!(differ, 0, "rows differ");
}

/// Reads every row by both readers of relative dates, which give the same answer to a text of at most 4096 bytes.
fn hold_relative(rows: &[(&str, Answer)], now: Option<Time>) {
    hold("relative", rows, |text| parse_relative(text, now));
    hold("relative by turns", rows, |text| parse_relative_turns(text, now));
}

#[test]
fn header() {
    let rows = [
        ("1745582210 +0200", Ok((1745582210, 7200))),
        ("12abc", Ok((12, 0))),
        ("12abc +0100", Ok((12, 3600))),
        ("-12abc", Err(Form)),
        ("5 +01:00", Err(Form)),
        ("5 +00-5", Ok((5, -300))),
        ("5 -01-5", Ok((5, -3300))),
        ("5 +0100 x", Ok((5, 0))),
        ("5 +9960", Ok((5, 360000))),
        ("5 +010203", Ok((5, 3723))),
        ("5\x0b+0100", Ok((5, 3600))),
        ("5\x1f+0100", Ok((5, 0))),
        ("0 -0000", Ok((0, 0))),
        ("-9223372036854775808 -0001", Ok((i64::MIN, -60))),
        ("9223372036854775808", Err(TooLarge)),
        ("", Err(Form)),
        ("5 \u{e9}", Err(NotAscii)),
    ];
    hold("header", &rows, |text| parse_header(text));
    hold("Time", &rows, |text| text.parse());
}

#[test]
fn raw() {
    let rows = [
        ("5 +1445", Ok((5, 53100))),
        ("5 -1445", Ok((5, -53100))),
        ("5 ++5+0", Ok((5, 18000))),
        ("5 +0100+0", Ok((5, 3600))),
        (" 5 +0100\n", Ok((5, 3600))),
        ("5 +1500", Err(Form)),
        ("5 +0010", Err(Form)),
        ("5 +01-0", Err(Form)),
        ("5", Err(Form)),
        ("12abc +0100", Err(Form)),
        ("\u{80}", Err(NotAscii)),
    ];
    hold("raw", &rows, |text| parse_raw(text));
    hold("raw by rule 1", &rows, |text| parse_raw_by(RULE_1, text));
}

#[test]
fn raw_by_rule_2() {
    let rows = [
        ("5 +0520", Ok((5, 19200))),
        ("5 -0520", Ok((5, -19200))),
        ("5 +2000", Ok((5, 72000))),
        ("5 +2359", Ok((5, 86340))),
        ("5 -2359", Ok((5, -86340))),
        ("5 +235900", Ok((5, 86340))),
        ("5 ++5+7", Ok((5, 18420))),
        ("5 +0001", Ok((5, 60))),
        (" 5\x0b+0520\n", Ok((5, 19200))),
        ("-9223372036854775808 +0520", Ok((i64::MIN, 19200))),
        ("5 +2400", Err(Form)),
        ("5 -2400", Err(Form)),
        ("5 +0060", Err(Form)),
        ("5 +2360", Err(Form)),
        ("5 +9999", Err(Form)),
        ("5 +010001", Err(Form)),
        ("5 +01-5", Err(Form)),
        ("5 0520", Err(Form)),
        ("5 +05:20", Err(Form)),
        ("5 +0520 x", Err(Form)),
        ("5", Err(Form)),
        ("9223372036854775808 +0520", Err(TooLarge)),
        ("12abc +0520", Err(Form)),
        ("", Err(Form)),
        ("\u{80}", Err(NotAscii)),
    ];
    hold("raw by rule 2", &rows, |text| parse_raw_by(RULE_2, text));
    // behind `@` "any" reads a raw date first; only a number that stands alone is read there too. A number that is too
    // large gives 2 there, since the whole text is no raw date
    let rows = rows.map(|(text, answer)| match answer {
        Err(TooLarge) => (text, Err(Form)),
        _ if text == "5" => (text, Ok((5, 0))),
        _ => (text, answer),
    });
    hold("any by rule 2, behind @", &rows, |text| parse_by(RULE_2, format!("@{text}"), None));
}

/// Every sign, hour and minute of two digits: which rule reads them, and as which offset.
#[test]
fn every_hour_and_minute() {
    for (sign, hours, minutes) in ["+", "-"].iter().flat_map(|sign| (0..10000).map(move |n| (sign, n / 100, n % 100))) {
        let text = format!("1745582210 {sign}{hours:02}{minutes:02}");
        let size = (hours * 60 + minutes) * 60;
        let time = Time::with_mark(1745582210, if *sign == "-" { -size } else { size }, *sign == "-" && size == 0);
        let by = |is_read| if is_read { Ok(time) } else { Err(Form) };
        let (one, two) = (by(hours <= 14 && minutes % 15 == 0 && minutes <= 45), by(hours < 24 && minutes < 60));
        let got = [parse_raw(&text), parse_raw_by(RULE_1, &text), parse_raw_by(RULE_2, &text)];
        assert_eq!(got, [one, one, two], "raw {text:?}");
        let got = [parse(&text, None), parse_by(RULE_1, &text, None), parse_by(RULE_2, &text, None)];
        assert_eq!(got, [one, one, two], "any {text:?}");
    }
}

#[test]
fn no_such_rule() {
    let rows = [
        ("now", Err(Form)),
        ("5 +0100", Err(Form)),
        ("@5", Err(Form)),
        ("", Err(Form)),
        ("99999999999999999999 +0100", Err(Form)),
        ("\u{80}", Err(NotAscii)),
    ];
    // a number of which only the low bytes are 1 or 2 names no rule either
    for rule in [0, 3, 4, 255, 256, 257, 258, 65537, 65538, 1 << 31, (1 << 31) + 1, u32::MAX - 1, u32::MAX] {
        hold(&format!("raw by rule {rule}"), &rows, |text| parse_raw_by(rule, text));
        for now in [None, Some(NOW), Some(Time::new(i64::MIN, 0))] {
            hold(&format!("any by rule {rule}"), &rows, |text| parse_by(rule, text, now));
        }
    }
}

/// RULES 5.9, 11.15 and 11.16: the first word or else, in a header, its leading digits are beyond 64 bits.
#[test]
fn too_large() {
    let header = [
        ("9223372036854775807", Ok((i64::MAX, 0))),
        ("9223372036854775807x", Ok((i64::MAX, 0))),
        ("-9223372036854775808", Ok((i64::MIN, 0))),
        ("9223372036854775808", Err(TooLarge)),
        ("9223372036854775808x", Err(TooLarge)),
        ("-9223372036854775809", Err(TooLarge)),
        ("99999999999999999999", Err(TooLarge)),
        ("+99999999999999999999", Err(TooLarge)),
        ("-99999999999999999999", Err(TooLarge)),
        // digits lead this word, and none the next two
        ("99999999999999999999x", Err(TooLarge)),
        ("-99999999999999999999x", Err(Form)),
        ("x99999999999999999999", Err(Form)),
        (" 99999999999999999999 +0100\n", Err(TooLarge)),
        ("99999999999999999999 +0100 x", Err(TooLarge)),
        ("99999999999999999999 +01x0", Err(TooLarge)),
        // a `:` and a byte of 128 or more are tested first
        ("99999999999999999999 +01:00", Err(Form)),
        ("99999999999999999999 x:", Err(Form)),
        ("99999999999999999999 \u{e9}", Err(NotAscii)),
        // the value decides, not the count of digits
        ("000000000000000000000000000005", Ok((5, 0))),
        ("000000000099999999999999999999", Err(TooLarge)),
        // a later word may be of any size
        ("5 99999999999999999999", Ok((5, 0))),
    ];
    hold("header", &header, |text| parse_header(text));
    hold("Time", &header, |text| text.parse());

    let raw = [
        ("9223372036854775807 +0100", Ok((i64::MAX, 3600))),
        ("-9223372036854775808 +0100", Ok((i64::MIN, 3600))),
        ("9223372036854775808 +0100", Err(TooLarge)),
        ("-9223372036854775809 +0100", Err(TooLarge)),
        ("99999999999999999999 +0100", Err(TooLarge)),
        ("+99999999999999999999 +0100", Err(TooLarge)),
        ("-99999999999999999999 +0100", Err(TooLarge)),
        // whatever words follow
        ("99999999999999999999", Err(TooLarge)),
        (" 99999999999999999999\n", Err(TooLarge)),
        ("99999999999999999999 x", Err(TooLarge)),
        ("99999999999999999999 +2400", Err(TooLarge)),
        ("99999999999999999999 +01:00", Err(TooLarge)),
        ("99999999999999999999 +0100 x", Err(TooLarge)),
        ("99999999999999999999 \u{e9}", Err(NotAscii)),
        // no sign and digits alone
        ("99999999999999999999x", Err(Form)),
        ("99999999999999999999x +0100", Err(Form)),
        ("99999999999999999999:5", Err(Form)),
        ("@99999999999999999999 +0100", Err(Form)),
        ("5 99999999999999999999", Err(Form)),
        ("000000000099999999999999999999 +0100", Err(TooLarge)),
    ];
    hold("raw", &raw, |text| parse_raw(text));
    hold("raw by rule 1", &raw, |text| parse_raw_by(RULE_1, text));
    hold("raw by rule 2", &raw, |text| parse_raw_by(RULE_2, text));
    // "any" ends in a raw date, and none of these is of another form
    for now in [None, Some(NOW), Some(Time::new(i64::MIN, 0))] {
        hold("any", &raw, |text| parse(text, now));
        hold("any by rule 1", &raw, |text| parse_by(RULE_1, text, now));
        hold("any by rule 2", &raw, |text| parse_by(RULE_2, text, now));
    }
}

/// "Any" tries the raw date last, so other forms answer first. ISO and relative dates never give 11.
#[test]
fn too_large_beside_other_forms() {
    let pairs = "99999999999999999999 ".to_owned() + &"1 day ".repeat(257);
    let now = Some(Time::new(NOW.seconds, 3600));
    let rows: [(&str, Answer, Answer); 11] = [
        // text, relative, any
        ("99999999999999999999", Err(Form), Err(TooLarge)),
        ("99999999999999999999 days ago", Err(Form), Err(TooLarge)),
        ("99999999999999999999 now", Err(Form), Err(TooLarge)),
        ("99999999999999999999 5", Err(Form), Err(TooLarge)),
        ("99999999999999999999x 5", Err(Form), Err(Form)),
        ("@99999999999999999999", Err(Form), Err(Form)),
        ("@-99999999999999999999", Err(Form), Err(Form)),
        ("@99999999999999999999 days ago", Err(Form), Err(Form)),
        // the number is passed over, and a count with its unit follows
        ("99999999999999999999 1 day ago", Ok((NOW.seconds - 86400, 3600)), Ok((NOW.seconds - 86400, 3600))),
        ("99999999999999999999 5 x ago", Ok((NOW.seconds - 5, 3600)), Ok((NOW.seconds - 5, 3600))),
        (&pairs, Err(Pairs), Err(Pairs)),
    ];
    let relative = rows.map(|(text, relative, _)| (text, relative));
    let any = rows.map(|(text, _, any)| (text, any));
    hold_relative(&relative, now);
    hold("any", &any, |text| parse(text, now));
    hold("any by rule 1", &any, |text| parse_by(RULE_1, text, now));
    hold("any by rule 2", &any, |text| parse_by(RULE_2, text, now));
    let missing = [("99999999999999999999 1 day ago", Err(Missing)), ("99999999999999999999 days ago", Err(TooLarge))];
    hold("any", &missing, |text| parse(text, None));

    let iso = [
        ("99999999999999999999", Err(Form)),
        ("2008-02-14 99999999999:30", Err(Form)),
        ("2008-02-14 20:30:45:99999999999999999999", Ok((S, 0))),
    ];
    hold("iso", &iso, |text| parse_iso(text));
    hold("any", &iso[1..], |text| parse(text, None));
}

#[test]
fn iso() {
    let rows = [
        ("20080214T203045.019-04:00", Ok((S + 14400, -14400))),
        ("2008.02.14 20:30:45 -0500", Ok((S + 18000, -18000))),
        ("2008-02-14 20:30:45 +-5", Ok((S + 18000, -18000))),
        ("2008-02-14 20:30:45:99", Ok((S, 0))),
        ("2008-02-14 20:30:60", Err(Form)),
        ("9999-12-31 00:00:00 +02:00", Ok((253402207200, 7200))),
        ("9999-12-31 00:00:00 +01:59", Err(Form)),
        ("2008-02-29 00", Ok((1204243200, 0))),
        ("2100-02-29 00", Err(Form)),
        ("2008-02-14 20:30:45\t+-5", Err(Form)),
        ("2008-02-14", Err(Form)),
        ("", Err(Form)),
        ("2008-02-14 20:30:45 \u{e9}", Err(NotAscii)),
    ];
    hold("iso", &rows, |text| parse_iso(text));
}

/// RULES 11.7 and 11.8, and the named days.
#[test]
fn relative() {
    let rows = [
        ("now", Ok((NOW.seconds, 0))),
        (" ToDay\t", Ok((NOW.seconds, 0))),
        ("yesterday", Ok((NOW.seconds - 86400, 0))),
        ("1 month ago", Ok((1619870400, 0))),
        ("2 months", Ok((1617192000, 0))),
        ("1 month 1 month", Ok((1617278400, 0))),
        ("2 ago", Err(Form)),
        ("2 ago ago", Ok((NOW.seconds - 2, 0))),
        ("5 6 days", Err(Form)),
        ("5 6 days ago", Ok((NOW.seconds - 5, 0))),
        ("last week", Ok((NOW.seconds - 604800, 0))),
        ("9223372036854775807 weeks", Err(Range)),
        ("", Err(Form)),
        ("1 day \u{e9}", Err(NotAscii)),
    ];
    hold_relative(&rows, Some(NOW));
    hold("any", &rows, |text| parse(text, Some(NOW)));
    hold("any by rule 1", &rows, |text| parse_by(RULE_1, text, Some(NOW)));
    hold("any by rule 2", &rows, |text| parse_by(RULE_2, text, Some(NOW)));
    // 29 February 2020: the 29th day of February 2019 is 1 March
    hold_relative(&[("1 year", Ok((1551398400, 0)))], Some(Time::new(1582934400, 0)));
}

/// RULES 11.9, the range.
#[test]
fn relative_at_the_ends_of_the_range() {
    let first = Time::new(-377705023201, 93599);
    let rows = [
        ("now", Ok((first.seconds, first.offset))),
        ("0 seconds", Ok((first.seconds, first.offset))),
        ("1 second", Err(Range)),
        ("yesterday", Err(Range)),
    ];
    hold_relative(&rows, Some(first));
    let last = Time::new(253402207200, -93599);
    hold_relative(&[("now", Ok((last.seconds, last.offset)))], Some(last));
    for now in [
        Time::new(first.seconds - 1, 0),
        Time::new(last.seconds + 1, 0),
        Time::new(0, 93600),
        Time::new(0, -93600),
        Time::new(i64::MIN, i32::MIN),
        Time::new(i64::MAX, i32::MAX),
    ] {
        hold_relative(&[("now", Err(Current)), ("x", Err(Form))], Some(now));
        hold("any", &[("now", Err(Current)), ("@5", Ok((5, 0)))], |text| parse(text, Some(now)));
    }
}

/// RULES 11.9, the bound of pairs.
#[test]
fn relative_with_many_pairs() {
    assert_eq!(PAIRS_MAX, 256);
    let (most, more) = ("1 day ".repeat(256), "1 day ".repeat(257));
    let out = Some(Time::new(i64::MIN, 0));
    let rows: [(&str, Answer); 2] = [(&most, Ok((NOW.seconds - 256 * 86400, 0))), (&more, Err(Pairs))];
    hold_relative(&rows, Some(NOW));
    hold_relative(&[(&most, Err(Missing)), (&more, Err(Pairs))], None);
    hold_relative(&[(&most, Err(Current)), (&more, Err(Pairs))], out);
    // 2 is tested before 5, so the whole text is read even if it has too many pairs
    let unknown = "1 x ".repeat(257);
    hold_relative(&[(&unknown, Err(Form)), (&(unknown.clone() + "ago"), Err(Pairs))], Some(NOW));
    // more than 32 pairs were 5 once; all of them count
    for count in [33, 100, 255] {
        let text = "1 day ".repeat(count);
        hold_relative(&[(&text, Ok((NOW.seconds - count as i64 * 86400, 0)))], Some(NOW));
    }
}

#[test]
fn any() {
    let rows = [
        ("100000000", Ok((100000000, 0))),
        ("99999999", Err(Form)),
        (" 100000000", Err(Form)),
        ("-100000000", Err(Form)),
        ("@-5", Ok((-5, 0))),
        (" @5", Err(Form)),
        ("@5 days", Err(Missing)),
        ("@5 +0100", Ok((5, 3600))),
        ("5 +0100", Ok((5, 3600))),
        ("2008-02-14T20:30:45Z", Ok((S, 0))),
        ("now", Err(Missing)),
        ("", Err(Form)),
        ("\u{e9}", Err(NotAscii)),
    ];
    hold("any", &rows, |text| parse(text, None));
    hold("any by rule 1", &rows, |text| parse_by(RULE_1, text, None));
}

#[test]
fn any_by_rule_2() {
    let rows = [
        ("@5 +0520", Ok((5, 19200))),
        ("5 +0520", Ok((5, 19200))),
        ("@5 -2000", Ok((5, -72000))),
        ("@5 +0100", Ok((5, 3600))),
        ("@5 +2400", Err(Form)),
        ("5 +2400", Err(Form)),
        ("@5", Ok((5, 0))),
        ("100000000", Ok((100000000, 0))),
        ("2008-02-14T20:30:45Z", Ok((S, 0))),
        ("yesterday", Ok((NOW.seconds - 86400, 0))),
        // read as a relative date, which comes before a raw one
        ("5 +0520 ago", Ok((NOW.seconds - 5, 0))),
        ("", Err(Form)),
        ("\u{e9}", Err(NotAscii)),
    ];
    hold("any by rule 2", &rows, |text| parse_by(RULE_2, text, Some(NOW)));
    let without = [("now", Err(Missing)), ("5 +0520", Ok((5, 19200))), ("@5 +0520", Ok((5, 19200)))];
    hold("any by rule 2", &without, |text| parse_by(RULE_2, text, None));
    let out = Some(Time::new(i64::MIN, 0));
    hold("any by rule 2", &[("now", Err(Current)), ("5 +0520", Ok((5, 19200)))], |text| parse_by(RULE_2, text, out));
    let by_rule_1 = [("@5 +0520", Err(Form)), ("5 +0520", Err(Form)), ("5 +2000", Err(Form))];
    hold("any by rule 1", &by_rule_1, |text| parse_by(RULE_1, text, Some(NOW)));
}
