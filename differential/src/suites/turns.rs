//! The suite for the second reader of relative dates, which takes turns (RULES 7.11, 7.12).
//!
//! Every suite that asks for relative dates asks this reader too, mostly on short texts. Here are texts around the longest
//! that it takes, texts of many pairs, and texts of many words. Both readers are compared with gix-date, and the second
//! also with the first.

use super::readers::some_nows;
use super::{Size, every, seeded};
use crate::ledger::Ledger;
use crate::oracle::{Form, MAX_PAIRS, MAX_TURNS, Now};
use crate::rng::Rng;
use crate::texts::{self, NOON, SEPARATORS};

/// The lengths that texts are padded to: around the longest that is read, and some beyond it.
const LENGTHS: [usize; 7] = [MAX_TURNS - 2, MAX_TURNS - 1, MAX_TURNS, MAX_TURNS + 1, MAX_TURNS + 2, 5000, 20_000];

/// Asks both readers, and whether they answer alike.
fn ask(ledger: &mut Ledger, text: &[u8], now: &Now) {
    ledger.ask(Form::Relative, text, now);
    ledger.ask_alike(text, now);
}

pub(super) fn turns(ledger: &mut Ledger, size: Size) {
    let nows = some_nows();
    let mut ask_at_all = |text: &[u8]| {
        for now in &nows {
            ask(ledger, text, now);
        }
    };
    padded(&mut ask_at_all);
    filled(&mut ask_at_all);
    spread(&mut ask_at_all);
    not_ascii(&mut ask_at_all);
    which_refusal(&mut ask_at_all);
    counts_of_pairs(ledger);
    orders(ledger);
    random_words(ledger, size);
}

/// `front` and `back` with `byte` between them, as often as makes `len` bytes.
fn between(front: &str, byte: u8, back: &str, len: usize) -> Vec<u8> {
    let count = len - front.len() - back.len();
    [front.as_bytes(), &[byte].repeat(count), back.as_bytes()].concat()
}

/// `part` repeated and cut, then `tail`, so that there are `len` bytes.
fn repeated(part: &str, tail: &str, len: usize) -> Vec<u8> {
    let bytes = part.bytes().cycle().take(len - tail.len());
    bytes.chain(tail.bytes()).collect()
}

/// Short texts with padding behind, in front, on both sides and in the middle.
fn padded(ask: &mut impl FnMut(&[u8])) {
    for len in LENGTHS {
        for name in ["now", "today", "Yesterday"] {
            // bytes 8, 14 and 31 are no white space
            for space in [b'\t', b'\n', 11, 12, b'\r', b' ', 8, 14, 31, b'.', 0] {
                ask(&between(name, space, "", len));
                ask(&between("", space, name, len));
                ask(&between(&format!("   {name}"), space, "   ", len));
            }
            ask(&between(name, b' ', name, len));
            ask(&between(name, b' ', ".", len));
        }
        for text in ["5 days", "1 month ago", "5 x", "5 x ago", "ago 5 x", "5 6 days", "5 ago ago", "5", "ago", ""] {
            for byte in [b' ', b'.', b'x', b'0', b'9', 0] {
                ask(&between(text, byte, "", len));
                ask(&between("", byte, text, len));
                ask(&between(text, byte, " ago", len));
                ask(&between("ago ", byte, text, len));
                ask(&between(text, byte, text, len));
            }
        }
        // one word or one number of nearly all bytes, as a count and as a unit
        for byte in [b'0', b'1', b'9', b's', b'S', b'x', b'.'] {
            for (front, back) in [
                ("", "5 days"),
                ("", " days"),
                ("5 ", ""),
                ("5 ", " ago"),
                ("5 day", ""),
                ("5 day", " ago"),
                ("5", "days"),
            ] {
                ask(&between(front, byte, back, len));
            }
        }
    }
}

/// Texts of one part, over and over: up to 2,048 words, up to 1,024 pairs.
fn filled(ask: &mut impl FnMut(&[u8])) {
    for len in LENGTHS {
        for part in [
            "x ",
            "1 ",
            "1x ",
            "5 x ",
            "5 xs ",
            "5 day ",
            "1 month ",
            "5 ago ",
            "ago ",
            "x 5 ",
            "5 6 x ",
            "now ",
            "one ",
            "last ten ",
            "99999999999999999999 ",
            "99999999999999999999 5 ",
            " ",
            ".",
            "x",
            "1",
            "5 x.",
            "\t5\0x",
        ] {
            for tail in ["", "ago", " ago", " AGO ", " 5", " 5 x", " 5 days", " now"] {
                ask(&repeated(part, tail, len));
            }
        }
    }
}

/// Around 256 pairs, and around 32, with words between them that are passed over, as many as make the length.
fn spread(ask: &mut impl FnMut(&[u8])) {
    for len in LENGTHS {
        for count in [1, 2, 32, 33, MAX_PAIRS - 1, MAX_PAIRS, MAX_PAIRS + 1, MAX_PAIRS + 2] {
            for pair in ["1 day", "1 month", "1 x", "1 second"] {
                for filler in [" and", " x", " 99999999999999999999", ".", " now", " ago"] {
                    for tail in ["", " ago", " 5"] {
                        let each = (len - tail.len()) / count - pair.len() - 1;
                        let words = filler.repeat(each / filler.len());
                        let mut text = format!("{pair}{words} ").repeat(count).into_bytes();
                        text.resize(len - tail.len(), b' ');
                        text.extend(tail.bytes());
                        ask(&text);
                    }
                }
            }
        }
    }
}

/// Long texts with a byte of 128 or more in front, at the end, and at places between.
fn not_ascii(ask: &mut impl FnMut(&[u8])) {
    for len in LENGTHS {
        for text in [between("now", b' ', "", len), repeated("5 x ", "ago", len), repeated("x ", "", len)] {
            for place in [0, 1, 3, len / 2, MAX_TURNS - 3, len - 2, len - 1] {
                for byte in [127, 128, 255] {
                    let mut text = text.clone();
                    text[place] = byte;
                    ask(&text);
                }
            }
        }
    }
}

/// Texts to which more than one refusal applies, so that their order shows: first a pair that leaves the range, then up to
/// 257 others, then unknown units with and without the mark.
fn which_refusal(ask: &mut impl FnMut(&[u8])) {
    for front in ["", "ago ", "999999 years ", "9223372036854775807 weeks ", "9223372036854775807 x ", "300000 months "]
    {
        for count in [0, 1, 32, 33, MAX_PAIRS - 2, MAX_PAIRS - 1, MAX_PAIRS, MAX_PAIRS + 1] {
            for pair in ["1 day ", "1 month ", "1 x "] {
                for tail in ["", "5", "5 x", "5 x 5", "ago", "5 ago", "5 x ago", "5 ago ago", "999999 years"] {
                    ask(format!("{front}{}{tail}", pair.repeat(count)).as_bytes());
                }
            }
        }
    }
}

/// Every count of pairs that fits. A count that is kept in few bits would come around. "Any" is asked too.
fn counts_of_pairs(ledger: &mut Ledger) {
    let nows = [Now::missing(), Now::at(NOON, 3600), Now::at(NOON, i32::MIN)];
    for (pair, tail) in [("1 x ", ""), ("1 x ", "ago"), ("1 day ", ""), ("1 month ", "ago"), ("7 ", "ago")] {
        for count in 0..=(MAX_TURNS + 1) / pair.len() {
            let text = pair.repeat(count) + tail;
            for now in &nows {
                ask(ledger, text.as_bytes(), now);
                ledger.ask(Form::Any, text.as_bytes(), now);
            }
        }
    }
}

/// Every text of up to 8 words over five: in which order the mark, counts and units follow each other.
fn orders(ledger: &mut Ledger) {
    const WORDS: [&str; 5] = ["ago", "6", "x", "month", "weeks"];
    let now = Now::at(NOON, 3600);
    let places: Vec<u8> = (0..WORDS.len() as u8).collect();
    for len in 0..=8 {
        every(&places, len, |chosen| {
            let chosen: Vec<&str> = chosen.iter().map(|place| WORDS[usize::from(*place)]).collect();
            ask(ledger, chosen.join(" ").as_bytes(), &now);
        });
    }
}

/// The words of random texts: the mark, counts, units, names, words that are none of these, and numbers around 64 bits.
const WORDS: [&str; 48] = [
    "ago",
    "ago",
    "AGO",
    "agos",
    "0",
    "1",
    "2",
    "7",
    "31",
    "400",
    "007",
    "130000",
    "one",
    "Two",
    "ten",
    "last",
    "zero",
    "eleven",
    "second",
    "seconds",
    "minute",
    "minutes",
    "hour",
    "hourS",
    "day",
    "days",
    "dayss",
    "week",
    "weeks",
    "month",
    "MONTHS",
    "monthss",
    "year",
    "years",
    "yearsS",
    "x",
    "and",
    "s",
    "ss",
    "3days",
    "fortnight",
    "now",
    "today",
    "yesterday",
    "9223372036854775807",
    "9223372036854775808",
    "99999999999999999999",
    "00000000000000000000000000000009",
];

/// Texts of up to 80 words. Each draws from a few words of its own, so that some have unknown units and some have none.
fn random_words(ledger: &mut Ledger, size: Size) {
    let mut text = Vec::new();
    seeded(ledger, size, "turns", 300_000, |ledger, rng| {
        let few: Vec<&str> = (0..=rng.below(12)).map(|_| rng.pick(&WORDS)).collect();
        let separators: &[&str] = if rng.once_in(2) { &[" "] } else { &SEPARATORS };
        text.clear();
        push_words(rng, &mut text, &few, separators);
        ask(ledger, &text, &texts::now(rng));
    });
}

/// Appends up to 80 of the words. Some texts have a separator in front or behind.
fn push_words(rng: &mut Rng, text: &mut Vec<u8>, words: &[&str], separators: &[&str]) {
    let count = if rng.once_in(2) { rng.below(81) } else { rng.below(12) };
    if rng.once_in(8) {
        text.extend(rng.pick(separators).bytes());
    }
    for place in 0..count {
        if place > 0 {
            text.extend(rng.pick(separators).bytes());
        }
        text.extend(rng.pick(words).bytes());
    }
    if rng.once_in(8) {
        text.extend(rng.pick(separators).bytes());
    }
}
