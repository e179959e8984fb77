//! Suites for the ISO reader.

use super::{Size, every, joined};
use crate::ledger::Ledger;
use crate::oracle::{Form, MAX_SECONDS, Now};
use crate::rng::Rng;
use crate::texts::{NOON, month_length, seconds_of};

/// The ways to spell a year in four bytes.
fn year_fields(year: i64) -> Vec<String> {
    match year {
        ..0 => vec![format!("-{:03}", -year)],
        0 => vec!["0000".into(), "+000".into(), "-000".into()],
        1..=999 => vec![format!("{year:04}"), format!("+{year:03}")],
        _ => vec![format!("{year:04}")],
    }
}

pub(super) fn days(ledger: &mut Ledger, size: Size) {
    let mut rng = Rng::new(size.seed, "iso-days");
    let missing = Now::missing();
    for year in -999..=9999 {
        for field in year_fields(year) {
            for month in 0..=13 {
                // to the second day past the month's end, and one that no month has
                let last = month_length(year, month) + 2;
                for day in (0..=last).chain([99]) {
                    let clock = rng.below(86400);
                    let (hour, minute, second) = (clock / 3600, clock / 60 % 60, clock % 60);
                    let offset = rng.pick(&["", "Z", " -0500", "+2359", "-23:59", " +0001"]);
                    let kind = (day + month) % 3;
                    let text = match kind {
                        0 => format!("{field}-{month:02}-{day:02} {hour:02}:{minute:02}:{second:02}{offset}"),
                        1 => format!("{field}{month:02}{day:02}T{hour:02}{minute:02}{second:02}{offset}"),
                        _ => format!("{field}.{month:02}.{day:02} {hour:02}:{minute:02}:{second:02}{offset}"),
                    };
                    ledger.ask(Form::Iso, text.as_bytes(), &missing);
                    // the ends of each month and their neighbours in all three forms
                    if day <= 1 || day >= month_length(year, month) {
                        for text in [
                            format!("{field}-{month:02}-{day:02}T23:59:59{offset}"),
                            format!("{field}{month:02}{day:02}T00{offset}"),
                            format!("{field}.{month:02}.{day:02} 00:00:00{offset}"),
                        ] {
                            ledger.ask(Form::Iso, text.as_bytes(), &missing);
                        }
                        ledger.ask(Form::Any, text.as_bytes(), &missing);
                    }
                }
            }
        }
        if ledger.is_over() {
            return;
        }
    }
}

pub(super) fn fields(ledger: &mut Ledger, _: Size) {
    let missing = Now::missing();
    let mut ask = |text: &[u8]| ledger.ask(Form::Iso, text, &missing);
    const ALPHABET: &[u8] = b"0123456789+-: .TZax\t";
    every(ALPHABET, 2, |field| {
        for text in [
            "2008-02-14 20:30:45 +0000",
            "20080214T203045+0000",
            "2008.02.14 20:30:45 +0000",
            "2008-02-14 203045Z",
            "2008-02-29T00:00:00",
        ] {
            for place in 0..text.len() - 1 {
                let mut changed = text.as_bytes().to_vec();
                changed[place..place + 2].copy_from_slice(field);
                ask(&changed);
            }
        }
    });
    every(b"0129+-. T", 4, |year| {
        for rest in ["-02-29 20:30", ".02.29 20:30", "0229T2030", "-12-31T23:59:59 -23:59"] {
            ask(&[year, rest.as_bytes()].concat());
        }
    });
    // every clock, with colons and without
    for hour in 0..=25 {
        for minute in 0..=61 {
            for second in 0..=61 {
                ask(format!("2008-02-14 {hour:02}:{minute:02}:{second:02}").as_bytes());
                ask(format!("20080214T{hour:02}{minute:02}{second:02}").as_bytes());
            }
        }
    }
    // every offset of hours and minutes, in its spellings
    for hour in 0..=99 {
        for minute in 0..=99 {
            for sign in ['+', '-'] {
                ask(format!("2008-02-14 20:30:45 {sign}{hour:02}{minute:02}").as_bytes());
                ask(format!("2008-02-14 20:30:45{sign}{hour:02}:{minute:02}").as_bytes());
                ask(format!("9999-12-31T21:00:00{sign}{hour:02}:{minute:02}").as_bytes());
            }
        }
    }
}

pub(super) fn tails(ledger: &mut Ledger, size: Size) {
    let now = Now::at(NOON, 0);
    let mut text = Vec::new();
    let heads: [&[u8]; 7] = [
        b"2008-02-14 ",
        b"2008-02-14T20:30",
        b"2008-02-14 20:30:45",
        b"2008-02-14 20:30:45 ",
        b"2008-02-14 20:30:45.5",
        b"20080214T20",
        b"2008.02.14 20:30",
    ];
    let longest = if size.times > 1 { 6 } else { 5 };
    for len in 0..=longest {
        every(b"025:.+- ZT\t", len, |tail| {
            for head in heads {
                ledger.ask(Form::Iso, joined(&mut text, head, tail), &now);
            }
        });
    }
    for len in 0..=3 {
        every(b"025:.+- ZT\t\x0bx", len, |tail| {
            for head in heads {
                ledger.ask_all(joined(&mut text, head, tail), &now);
                ledger.ask_all(joined(&mut text, tail, head), &now);
            }
        });
    }
}

/// ISO dates around the last second of the range: at some offsets for over an hour, at every offset for a few seconds.
pub(super) fn around_the_last_second(ledger: &mut Ledger) {
    let missing = Now::missing();
    let mut ask_iso = |seconds: i64, minutes: i64| {
        let local = seconds + minutes * 60;
        let sign = if minutes < 0 { '-' } else { '+' };
        let offset = format!("{sign}{:02}:{:02}", minutes.abs() / 60, minutes.abs() % 60);
        let day = (local - seconds_of(9999, 12, 1)).div_euclid(86400) + 1;
        let clock = local.rem_euclid(86400);
        let (hour, minute, second) = (clock / 3600, clock / 60 % 60, clock % 60);
        for text in [
            format!("9999-12-{day:02} {hour:02}:{minute:02}:{second:02} {offset}"),
            format!("999912{day:02}T{hour:02}{minute:02}{second:02}{offset}"),
        ] {
            ledger.ask(Form::Iso, text.as_bytes(), &missing);
            ledger.ask(Form::Any, text.as_bytes(), &missing);
        }
    };
    for minutes in [-1439, -1438, -60, -1, 0, 1, 60, 120, 1438, 1439] {
        for delta in -4000..=4000 {
            ask_iso(MAX_SECONDS + delta, minutes);
        }
    }
    for minutes in -1439..=1439 {
        for delta in -2..=2 {
            ask_iso(MAX_SECONDS + delta, minutes);
        }
    }
}
