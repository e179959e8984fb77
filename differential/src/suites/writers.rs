//! Suites for both writers and `size`.

use super::{Size, seeded};
use crate::ledger::Ledger;
use crate::oracle::{MARKS, MAX_SECONDS, MIN_SECONDS, Writer};
use crate::texts::{YEAR_0, every_edge};

/// The seconds of a commit of 2025, ten digits as in most commits.
const USUAL: i64 = 1_745_582_210;
/// 29 February 2000 at offset 0.
const LEAP_DAY: i64 = 951_782_400;

pub(super) fn offsets(ledger: &mut Ledger, _: Size) {
    for offset in -400_000_i32..=400_000 {
        let seconds = [0, -1, USUAL, i64::MIN, i64::MAX, YEAR_0][(offset.unsigned_abs() % 6) as usize];
        ledger.ask_rooms(Writer::Header, seconds, offset);
        ledger.ask_size(seconds, offset);
        ledger.ask_write(Writer::Header, USUAL, offset, 16);
        // where year 0 begins at the full offset and at the cut one
        let full = YEAR_0 - i64::from(offset);
        let cut = YEAR_0 - i64::from(offset - offset % 60);
        for seconds in [0, LEAP_DAY, YEAR_0, full, cut, cut - 1, MIN_SECONDS, MAX_SECONDS] {
            ledger.ask_write(Writer::Iso, seconds, offset, 25);
        }
        if offset % 60 == 0 || !(100..86_300).contains(&offset.abs()) && offset.abs() < 90_000 {
            ledger.ask_rooms(Writer::Iso, LEAP_DAY, offset);
        }
        if ledger.is_over() {
            return;
        }
    }
    for offset in [i32::MIN, i32::MIN + 1, i32::MAX - 1, i32::MAX] {
        for seconds in [0, USUAL, i64::MIN, i64::MAX] {
            ledger.ask_size(seconds, offset);
            ledger.ask_rooms(Writer::Header, seconds, offset);
            ledger.ask_rooms(Writer::Iso, seconds, offset);
        }
    }
}

pub(super) fn seconds(ledger: &mut Ledger, _: Size) {
    let offsets = [
        0, 1, -1, 59, -59, 60, -60, -30, 3599, 3600, -3600, 7200, 86340, 86399, -86399, 86400, -86400, 359_999,
        -359_999, 360_000, -360_000,
    ];
    for edge in every_edge() {
        for delta in -130..=130 {
            for value in [edge + delta, -edge + delta] {
                let Ok(seconds) = i64::try_from(value) else { continue };
                for offset in offsets {
                    ledger.ask_size(seconds, offset);
                    ledger.ask_rooms(Writer::Header, seconds, offset);
                    ledger.ask_rooms(Writer::Iso, seconds, offset);
                }
            }
        }
    }
    // each count of bits, since `size` estimates the digits by it
    for bits in 0..=63 {
        for delta in -3..=3 {
            for value in [(1_i128 << bits) + delta, delta - (1_i128 << bits)] {
                if let Ok(seconds) = i64::try_from(value) {
                    ledger.ask_size(seconds, 0);
                }
            }
        }
    }
    // both ends of the range and of the years that are written, second by second over two days
    for edge in [MIN_SECONDS, MAX_SECONDS, YEAR_0, 0] {
        for delta in -90_000..=90_000 {
            for offset in [0, -1, 1, 86399, -86399, -62, 3600] {
                ledger.ask_write(Writer::Iso, edge + delta, offset, 25);
            }
        }
    }
    // the first and the last second of every day of the years that are written
    for day in YEAR_0 / 86400..=MAX_SECONDS / 86400 {
        ledger.ask_write(Writer::Iso, day * 86400, 0, 25);
        ledger.ask_write(Writer::Iso, day * 86400 - 1, 0, 26);
    }
}

pub(super) fn random(ledger: &mut Ledger, size: Size) {
    seeded(ledger, size, "write-random", 1_000_000, |ledger, rng| {
        let seconds = match rng.below(4) {
            0 => rng.bits() as i64,
            1 => (rng.bits() >> rng.below(64)) as i64,
            2 => rng.within(MIN_SECONDS, MAX_SECONDS),
            _ => rng.within(YEAR_0, MAX_SECONDS),
        };
        let offset = match rng.below(4) {
            0 => rng.bits() as i32,
            1 => rng.within(-400_000, 400_000) as i32,
            _ => rng.within(-86_400, 86_400) as i32,
        };
        ledger.ask_size(seconds, offset);
        let room = rng.below(28);
        ledger.ask_write(Writer::Header, seconds, offset, room);
        ledger.ask_write(Writer::Iso, seconds, offset, room);
        ledger.ask_write(Writer::Header, seconds, offset, 27);
        ledger.ask_write(Writer::Iso, seconds, offset, 26);
    });
}

pub(super) fn marks(ledger: &mut Ledger, _: Size) {
    for offset in -400_000_i32..=400_000 {
        let seconds = [0, -1, USUAL, i64::MIN, i64::MAX][(offset.unsigned_abs() % 5) as usize];
        for mark in MARKS {
            ledger.ask_write(Writer::HeaderMarked(mark), seconds, offset, 26);
            if offset.unsigned_abs() < 360_000 {
                ledger.ask_back(seconds, offset, mark);
            }
        }
        if ledger.is_over() {
            return;
        }
    }
    // every byte, and every room, where the mark could matter and where the offset becomes too wide
    for offset in (-130..=130).chain(359_900..=360_100).chain(-360_100..=-359_900).chain([i32::MIN, i32::MAX]) {
        for seconds in [0, 7, -1, USUAL, i64::MIN, i64::MAX] {
            for mark in 0..=255 {
                ledger.ask_write(Writer::HeaderMarked(mark), seconds, offset, 26);
            }
            for mark in MARKS {
                ledger.ask_rooms(Writer::HeaderMarked(mark), seconds, offset);
            }
        }
    }
}
