//! What is compared: whole sets of inputs first, then random ones.
//!
//! A suite asks the same questions in every run with the same seed and size.

mod header;
mod iso;
mod marks;
mod readers;
mod relative;
mod rules;
mod too_large;
mod turns;
mod writers;

use crate::ledger::Ledger;
use crate::rng::Rng;

/// How much to ask.
#[derive(Clone, Copy)]
pub struct Size {
    pub seed: u64,
    /// The random suites are this many times as long. From 2 on, the sets of short texts go one byte further.
    pub times: usize,
}

/// A set of questions.
pub struct Suite {
    pub name: &'static str,
    /// What the set holds, for `compare --list`.
    pub about: &'static str,
    /// Asks the questions.
    pub run: fn(&mut Ledger, Size),
}

const fn suite(name: &'static str, about: &'static str, run: fn(&mut Ledger, Size)) -> Suite {
    Suite { name, about, run }
}

/// The suites, in the order in which they run.
pub const SUITES: &[Suite] = &[
    suite("telling", "texts that a plausible mistake gets wrong, each reader", readers::telling),
    suite("rule-offsets", "every offset of two-byte fields, some seconds, by each rule", rules::offsets),
    suite("rule-numbers", "numbers of rules: 0 to 1000, around each power of two", rules::numbers_of_rules),
    suite("too-large", "numbers around 64 bits between fronts and tails, each reader", too_large::too_large),
    suite("turns", "the second relative reader: long texts, many pairs, many words", turns::turns),
    suite("marks", "second words around -0000: header, raw and any, with their marks", marks::marks),
    suite("short", "every text of up to 4 bytes over 37 bytes, each reader", readers::short),
    suite("bytes", "every byte at every place of telling texts, each reader", readers::bytes),
    suite("offsets-5", "every offset of 5 bytes over sign, digits, space, letter", header::offsets_5),
    suite("offsets-7", "every second word of 7 bytes over a small alphabet", header::offsets_7),
    suite("numbers", "numbers around every power of ten and every width", readers::numbers),
    suite("iso-days", "every day of every year that a field can name", iso::days),
    suite("iso-fields", "every two-byte field over signs, digits, space, letter", iso::fields),
    suite("iso-tails", "every ending of up to 5 bytes after a date, after a clock", iso::tails),
    suite("month-ends", "month ends of 400 years, 0 to 4,800 months, 0 to 400 years", relative::month_ends),
    suite("words", "every relative text of up to 5 words over 13", relative::words),
    suite("spellings", "every letter case of every relative word", relative::spellings),
    suite("range", "both ends of the range, second by second", relative::range),
    suite("pairs", "relative texts of 1 to 258 pairs, at random", relative::pairs),
    suite("random", "good texts at random, each reader", readers::random),
    suite("damaged", "damaged copies of good texts, each reader", readers::damaged),
    suite("long", "texts of up to 20,000 bytes, each reader", readers::long),
    suite("write-offsets", "both writers, every offset from -400000 to 400000", writers::offsets),
    suite("write-seconds", "both writers, seconds around every edge, all rooms", writers::seconds),
    suite("write-random", "both writers, times at random", writers::random),
    suite("write-marks", "headers with each mark, every offset, also read back", writers::marks),
];

/// Calls `ask` with every text of `len` bytes over `alphabet`.
fn every(alphabet: &[u8], len: usize, mut ask: impl FnMut(&[u8])) {
    let mut places = vec![0; len];
    let mut text = vec![alphabet[0]; len];
    loop {
        ask(&text);
        let mut at = len;
        loop {
            if at == 0 {
                return;
            }
            at -= 1;
            places[at] += 1;
            if places[at] < alphabet.len() {
                text[at] = alphabet[places[at]];
                break;
            }
            places[at] = 0;
            text[at] = alphabet[0];
        }
    }
}

/// `first` followed by `second`, in `buffer`.
fn joined<'a>(buffer: &'a mut Vec<u8>, first: &[u8], second: &[u8]) -> &'a [u8] {
    buffer.clear();
    buffer.extend_from_slice(first);
    buffer.extend_from_slice(second);
    buffer
}

/// Runs `count` rounds, as many times as `size` asks for, and stops early once the ledger is over.
///
/// The rounds share a generator that depends on the seed and on `name` alone.
fn seeded(ledger: &mut Ledger, size: Size, name: &str, count: usize, mut round: impl FnMut(&mut Ledger, &mut Rng)) {
    let mut rng = Rng::new(size.seed, name);
    for _ in 0..count * size.times {
        round(ledger, &mut rng);
        if ledger.is_over() {
            return;
        }
    }
}
