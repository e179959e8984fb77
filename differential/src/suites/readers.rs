//! Suites that ask every reader.

use super::{Size, every, seeded};
use crate::ledger::Ledger;
use crate::oracle::{MAX_OFFSET, MAX_PAIRS, MAX_SECONDS, MIN_SECONDS, Now};
use crate::texts::{self, NOON, TELLING, every_edge};

/// Current times of every kind.
pub(super) fn some_nows() -> Vec<Now> {
    let mut nows = vec![Now::missing()];
    for (seconds, offset) in [
        (NOON, 0),
        // 29 February 2020
        (1582934400, -12345),
        (0, MAX_OFFSET),
        (-1, -MAX_OFFSET),
        (MIN_SECONDS, 0),
        (MAX_SECONDS, 0),
        (MIN_SECONDS - 1, 0),
        (MAX_SECONDS + 1, 0),
        (NOON, MAX_OFFSET + 1),
        (NOON, -MAX_OFFSET - 1),
        (i64::MIN, i32::MIN),
        (i64::MAX, i32::MAX),
    ] {
        nows.push(Now::at(seconds, offset));
    }
    nows
}

pub(super) fn telling(ledger: &mut Ledger, _: Size) {
    for text in TELLING {
        for now in some_nows() {
            ledger.ask_all(text.as_bytes(), &now);
        }
    }
    for count in (30..=35).chain(MAX_PAIRS - 2..=MAX_PAIRS + 3) {
        for (pair, tail) in [("1 day ", ""), ("1 x ", ""), ("1 x ", "ago"), ("1 day ", "7"), ("1 month ", "ago")] {
            for now in some_nows() {
                let text = pair.repeat(count) + tail;
                ledger.ask_all(text.as_bytes(), &now);
                // "any" reads this as an ISO date, before it tries the relative form
                ledger.ask_all(format!("2008-02-14 20:30:45.{text}").as_bytes(), &now);
                ledger.ask_all(format!("@{text}").as_bytes(), &now);
            }
        }
    }
}

pub(super) fn short(ledger: &mut Ledger, size: Size) {
    const ALPHABET: &[u8] = b"01259+-:. \t\n\x0b\x1fTZ@adgnoswytAGONW,x\0\x7f\x80\xff";
    let now = Now::at(NOON, 3600);
    for len in 0..=4 {
        every(ALPHABET, len, |text| ledger.ask_all(text, &now));
    }
    if size.times > 1 {
        every(b"0159+-:. \x0bTZ@agoNow", 5, |text| ledger.ask_all(text, &now));
    }
}

pub(super) fn bytes(ledger: &mut Ledger, _: Size) {
    let now = Now::at(NOON, -3600);
    for text in TELLING {
        for place in 0..=text.len() {
            for byte in 0..=255 {
                let mut changed = text.as_bytes().to_vec();
                changed.insert(place, byte);
                ledger.ask_all(&changed, &now);
                if place < text.len() {
                    changed.remove(place + 1);
                    ledger.ask_all(&changed, &now);
                }
            }
        }
    }
}

pub(super) fn numbers(ledger: &mut Ledger, _: Size) {
    let nows = [Now::missing(), Now::at(MAX_SECONDS, 0)];
    for edge in every_edge() {
        for delta in -130..=130 {
            let value = edge + delta;
            for number in [
                value.to_string(),
                (-value).to_string(),
                format!("+{}", value.abs()),
                format!("-+{}", value.abs()),
                format!("000000{}", value.abs()),
                format!("-00000000000000000000{}", value.abs()),
                format!("{value}x"),
                format!("{value}+"),
            ] {
                for (before, after) in [
                    ("", ""),
                    ("@", ""),
                    ("", " +0100"),
                    ("@", " -1200"),
                    (" ", "\n"),
                    ("", " seconds"),
                    ("", " years ago"),
                ] {
                    let text = format!("{before}{number}{after}");
                    for now in &nows {
                        ledger.ask_all(text.as_bytes(), now);
                    }
                }
            }
        }
    }
}

pub(super) fn random(ledger: &mut Ledger, size: Size) {
    let mut text = Vec::new();
    seeded(ledger, size, "random", 3_000_000, |ledger, rng| {
        text.clear();
        texts::good(rng, &mut text);
        ledger.ask_all(&text, &texts::now(rng));
    });
}

pub(super) fn damaged(ledger: &mut Ledger, size: Size) {
    let mut text = Vec::new();
    seeded(ledger, size, "damaged", 5_000_000, |ledger, rng| {
        text.clear();
        texts::good(rng, &mut text);
        texts::damage(rng, &mut text);
        ledger.ask_all(&text, &texts::now(rng));
    });
}

pub(super) fn long(ledger: &mut Ledger, size: Size) {
    let mut text = Vec::new();
    seeded(ledger, size, "long", 20_000, |ledger, rng| {
        text.clear();
        texts::good(rng, &mut text);
        for _ in 0..=rng.below(3) {
            let at = rng.below(text.len() + 1);
            let count = 1 << rng.below(12);
            let filler: &[u8] = rng.pick(&[
                b" ", b"0", b"\x0b", b":", b".", b"+", b"-5", b"x ", b"ago ", b" 1 x", b"Z", b"T", b"@", b"+0", b"now ",
            ]);
            text.splice(at..at, filler.repeat(count));
        }
        text.truncate(20_000);
        ledger.ask_all(&text, &texts::now(rng));
    });
}
