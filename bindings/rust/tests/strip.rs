//! Strips of months. The facts about weekdays and ISO weeks are those of published calendars, none was made by running the
//! library. All 239,988 months are held to the leap rule and to the definition of an ISO week.

use chowderbell::strip::{Strip, LENGTH};
use chowderbell::{entries, Refusal};

const MONDAY: u8 = 1;
const TUESDAY: u8 = 2;
const WEDNESDAY: u8 = 3;
const THURSDAY: u8 = 4;
const FRIDAY: u8 = 5;
const SATURDAY: u8 = 6;
const SUNDAY: u8 = 7;

fn is_leap(year: i64) -> bool {
    year % 4 == 0 && year % 100 != 0 || year % 400 == 0
}

fn length_of(year: i64, month: i64) -> u8 {
    match month {
        2 if is_leap(year) => 29,
        2 => 28,
        4 | 6 | 9 | 11 => 30,
        _ => 31,
    }
}

fn days_of(year: i64) -> i64 {
    365 + i64::from(is_leap(year))
}

/// What an entry leaves: its number, the length, and the room, which held dots.
fn entry(year: i64, month: i64, room: usize) -> (u8, usize, Vec<u8>) {
    let (mut room, mut length) = (vec![b'.'; room], 77);
    let number = entries::strip(year, month, &mut room, &mut length);
    (number, length, room)
}

#[test]
fn january_2021() {
    let strip = Strip::of_month(2021, 1).unwrap();
    assert_eq!((strip.length, strip.weekday), (31, FRIDAY));
    assert_eq!(strip.weeks, [53, 1, 2, 3, 4, 0]);
    let days = [
        [0, 0, 0, 0, 1, 2, 3],
        [4, 5, 6, 7, 8, 9, 10],
        [11, 12, 13, 14, 15, 16, 17],
        [18, 19, 20, 21, 22, 23, 24],
        [25, 26, 27, 28, 29, 30, 31],
        [0, 0, 0, 0, 0, 0, 0],
    ];
    assert_eq!(strip.days, days);

    // the same from the entry, byte by byte
    let mut wanted = vec![31, 5, 53, 1, 2, 3, 4, 0];
    wanted.extend(days.concat());
    assert_eq!(entry(2021, 1, LENGTH), (0, LENGTH, wanted));
}

/// One row is one month: its length, the weekday of its first day, and its weeks.
#[test]
fn known_months() {
    for (year, month, length, weekday, weeks) in [
        // four rows, five, and six
        (2021, 2, 28, MONDAY, [5, 6, 7, 8, 0, 0]),
        (2021, 3, 31, MONDAY, [9, 10, 11, 12, 13, 0]),
        (2021, 5, 31, SATURDAY, [17, 18, 19, 20, 21, 22]),
        // 1 January 1970 was a Thursday, so it is in week 1
        (1970, 1, 31, THURSDAY, [1, 2, 3, 4, 5, 0]),
        // 2004 had 53 weeks: 31 December was a Friday, and 1 January 2005 is in 2004-W53
        (2004, 12, 31, WEDNESDAY, [49, 50, 51, 52, 53, 0]),
        (2005, 1, 31, SATURDAY, [53, 1, 2, 3, 4, 5]),
        // 1 January 2006 is in 2005-W52
        (2006, 1, 31, SUNDAY, [52, 1, 2, 3, 4, 5]),
        // 2007 began on a Monday and ended on one, in 2008-W01
        (2007, 1, 31, MONDAY, [1, 2, 3, 4, 5, 0]),
        (2007, 12, 31, SATURDAY, [48, 49, 50, 51, 52, 1]),
        // 28 December 2008 is in 2008-W52, 29 December in 2009-W01
        (2008, 12, 31, MONDAY, [49, 50, 51, 52, 1, 0]),
        // 2009 had 53 weeks: 3 January 2010 is in 2009-W53
        (2009, 12, 31, TUESDAY, [49, 50, 51, 52, 53, 0]),
        (2010, 1, 31, FRIDAY, [53, 1, 2, 3, 4, 0]),
        // leap days: none in 1900, one in 2000 and in 2024
        (1900, 2, 28, THURSDAY, [5, 6, 7, 8, 9, 0]),
        (2000, 2, 29, TUESDAY, [5, 6, 7, 8, 9, 0]),
        (2024, 2, 29, THURSDAY, [5, 6, 7, 8, 9, 0]),
        // the first and the last month; the calendar of year -9999 is that of year 1, whose 1 January is a Monday
        (-9999, 1, 31, MONDAY, [1, 2, 3, 4, 5, 0]),
        (1, 1, 31, MONDAY, [1, 2, 3, 4, 5, 0]),
        (9999, 12, 31, WEDNESDAY, [48, 49, 50, 51, 52, 0]),
        // year 0 is as the year 2000, and year -1 as 1999
        (0, 2, 29, TUESDAY, [5, 6, 7, 8, 9, 0]),
        (0, 1, 31, SATURDAY, [52, 1, 2, 3, 4, 5]),
        (-1, 1, 31, FRIDAY, [53, 1, 2, 3, 4, 0]),
    ] {
        let strip = Strip::of_month(year, month).unwrap();
        let got = (strip.length, strip.weekday, strip.weeks);
        assert_eq!(got, (length, weekday, weeks), "year {year}, month {month}");
    }
}

/// Each month begins on the weekday behind the end of the month before. Its days are 1 to its length, in order. The week of a
/// row is that of its Thursday, by seven days from 1 January of the Thursday's year.
#[test]
fn every_month() {
    let mut weekday = MONDAY;
    for year in -9999..=9999 {
        let mut before = 0; // days of the year that are before this month
        for month in 1..=12 {
            let strip = Strip::of_month(year, month).unwrap();
            let length = length_of(year, month);
            assert_eq!((strip.length, strip.weekday), (length, weekday), "year {year}, month {month}");

            let mut wanted = [0; 42];
            for (day, place) in (1..=length).zip(usize::from(weekday) - 1..) {
                wanted[place] = day;
            }
            assert_eq!(strip.days.as_flattened(), wanted, "year {year}, month {month}");

            for (row, (week, days)) in (0..).zip(strip.weeks.into_iter().zip(strip.days)) {
                // counted from 0 for 1 January of this year
                let thursday = before - i64::from(weekday - MONDAY) + 7 * row + 3;
                let of_its_year = match thursday {
                    ..=-1 => thursday + days_of(year - 1),
                    _ if thursday >= days_of(year) => thursday - days_of(year),
                    _ => thursday,
                };
                let wanted = if days == [0; 7] { 0 } else { of_its_year / 7 + 1 };
                assert_eq!(i64::from(week), wanted, "year {year}, month {month}, row {row}");
            }
            weekday = (weekday + length - 1) % 7 + 1;
            before += i64::from(length);
        }
    }
    // 31 December 9999 is a Friday
    assert_eq!(weekday, SATURDAY);
}

/// The calendar repeats after 400 years.
#[test]
fn years_repeat() {
    for year in (-9999..=9599).step_by(7) {
        for month in 1..=12 {
            assert_eq!(Strip::of_month(year, month), Strip::of_month(year + 400, month), "year {year}, month {month}");
        }
    }
}

#[test]
fn refusals() {
    let far = [i64::MIN, i64::MIN + 1, -(1 << 32) + 1, -65536, 65536, (1 << 32) + 1, i64::MAX - 1, i64::MAX];
    let years = [-10001, -10000, 10000, 10001, (1 << 32) + 2021, (1 << 16) + 2021].into_iter().chain(far);
    let months = [-12, -1, 0, 13, 14, 257, (1 << 32) + 12].into_iter().chain(far);
    let pairs = years.clone().flat_map(|year| (1..=12).chain(months.clone()).map(move |month| (year, month)));
    let good_years = [-9999, -1, 0, 1, 2021, 9999];
    let pairs = pairs.chain(good_years.into_iter().flat_map(|year| months.clone().map(move |month| (year, month))));
    for (year, month) in pairs {
        assert_eq!(Strip::of_month(year, month), Err(Refusal::Range), "year {year}, month {month}");
        // the room does not matter
        for room in [0, 1, 49, 50, 51] {
            assert_eq!(
                entry(year, month, room),
                (6, 0, vec![b'.'; room]),
                "year {year}, month {month}, room of {room}"
            );
        }
    }
    assert_eq!(Refusal::Range.to_string(), "the time or the month is out of range");
}

#[test]
fn rooms_of_every_length() {
    for (year, month) in [(-9999, 1), (0, 2), (2021, 1), (2021, 5), (9999, 12)] {
        let (_, _, strip) = entry(year, month, LENGTH);
        for length in 0..=2 * LENGTH + 1 {
            let (number, written, room) = entry(year, month, length);
            let wanted = if length < LENGTH { (8, 0) } else { (0, LENGTH) };
            assert_eq!((number, written), wanted, "year {year}, month {month}, room of {length}");
            assert_eq!(room[..written], strip[..written], "year {year}, month {month}, room of {length}");
            assert!(
                room[written..].iter().all(|byte| *byte == b'.'),
                "year {year}, month {month}, room of {length}: bytes beyond were written"
            );
        }
    }
}

/// Strips are compared and copied as values.
#[test]
fn equal_strips() {
    // 2021 and 2027 both begin on a Friday, and neither is a leap year
    let (one, other) = (Strip::of_month(2021, 6).unwrap(), Strip::of_month(2027, 6).unwrap());
    let copy = one;
    assert_eq!((one, copy), (other, one));
    assert_ne!(one, Strip::of_month(2022, 6).unwrap());
    assert_eq!([one, other, copy].into_iter().collect::<std::collections::HashSet<_>>().len(), 1);
}
