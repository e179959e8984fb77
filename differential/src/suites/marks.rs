//! The suite of the mark (RULES 5.10): second words that are offsets of 0, and others that are nearly so.
//!
//! Every suite that asks for headers, raw dates or "any" asks for their marks too. Few of its texts have one.

use super::too_large::ask as ask_all;
use super::{Size, every};
use crate::ledger::Ledger;
use crate::mark;
use crate::oracle::{Form, Now};
use crate::texts::NOON;

/// The examples of RULES 11.18, texts beside them, and texts of other forms that a plausible mistake marks.
const TEXTS: [&str; 78] = [
    // header, raw
    "5 -0000",
    "12abc -0000",
    "5 -000000",
    "5 -00-160",
    "5 -+0+0",
    "5 +0000",
    "5 -0000 x",
    "5 -0001",
    "5 -000",
    "5 -00-159",
    "5 -00-161",
    "5 +00-160",
    "5 -00-0",
    "5 -00+0",
    "5 --0-0",
    "5 --000",
    "5 -+000",
    "5 -+0+0+0",
    "5 ++0+0",
    "5 -00-0-0",
    "5 -0000-0",
    "5 -0000+0",
    "5 -000001",
    "5 -000059",
    "5 -00000x",
    "5 -0000 -0000",
    "5 x -0000",
    "5 -",
    "5 -0",
    "5 -00",
    "5 -00000",
    "5 -00000000",
    "5 -x",
    "5 -000x",
    "5 -x000",
    "5 x0000",
    "5 0000-",
    "5 -00:00",
    "5",
    "-5",
    "-0",
    "-0 +0000",
    "-0 -0000",
    "-5 +0000",
    "-5x -0000",
    "+5 -0000",
    "5-0000",
    "-0000",
    "-0000 5",
    "-0000 -0000",
    "\t5\x0b-0000\n",
    "5\x1f-0000",
    "5 -0000\x1f",
    "5 -0000\0",
    "99999999999999999999 -0000",
    "9223372036854775807 -0000",
    "-9223372036854775808 -0000",
    "9223372036854775808 -0000",
    "100000000 -0000",
    // behind `@`, a number alone, white space between, two of them
    "@5",
    "@-0",
    "@ -0000",
    "@ 5 -0000",
    " @5 -0000",
    "@@5 -0000",
    "5 @-0000",
    // ISO
    "2008-02-14 20:30:45 -0000",
    "2008-02-14T20:30:45 -0000",
    "2008-02-14T20:30:45-00:00",
    "20080214T203045-0000",
    "20080214T203045 -0000",
    "2008.02.14 20:30:45 -0000",
    // relative: of two words, the second has 5 bytes or 7 and opens with `-`; and one with `-0000`
    "1 -days",
    "1 -year",
    "1 -months",
    "5 -minute",
    "5 -0000 ago",
    "now -0000",
];

/// Asks the readers of header, raw and "any"; the last two also by rules 0 to 3.
fn ask(ledger: &mut Ledger, text: &[u8], now: &Now) {
    ledger.ask(Form::Header, text, now);
    for (plain, by) in [(Form::Raw, Form::RawBy as fn(u32) -> Form), (Form::Any, Form::AnyBy)] {
        ledger.ask(plain, text, now);
        ledger.ask(by(0), text, now);
        ledger.ask(by(3), text, now);
    }
}

/// Whether gix-date takes a word of 5 or 7 bytes for the offset of a header. It does not say so: a word that it passes over
/// gives 0, as `-0000` does. With 99 hours in place of its own, and with 99 minutes, an offset is not 0.
fn is_offset_by_gix_date(word: &str) -> bool {
    [1, 3].into_iter().all(|place| {
        let mut header = format!("0 {word}");
        header.replace_range(2 + place..4 + place, "99");
        gix_date::parse_header(&header).is_some_and(|time| time.offset != 0)
    })
}

/// The word as a second word: behind three first ones, with and without a third, with and without white space in front,
/// with and without `@` in front of all.
fn ask_second_word(ledger: &mut Ledger, word: &[u8], now: &Now) {
    let word = std::str::from_utf8(word).expect("ASCII");
    if !word.contains(' ') {
        // what `mark` says of the word is what gix-date does with it
        assert_eq!(mark::is_offset(word), is_offset_by_gix_date(word), "{word:?}");
    }
    for first in ["5", "12abc", "-0"] {
        for (front, tail) in [("", ""), ("", " x"), (" ", ""), ("  ", " -0000")] {
            let text = format!("@{front}{first} {word}{tail}");
            ask(ledger, &text.as_bytes()[1..], now);
            ledger.ask(Form::Any, text.as_bytes(), now);
        }
    }
}

pub(super) fn marks(ledger: &mut Ledger, size: Size) {
    let nows = [Now::missing(), Now::at(NOON, 0), Now::at(NOON, 3600), Now::at(i64::MIN, 0)];
    for text in TEXTS {
        for now in &nows {
            ask_all(ledger, text.as_bytes(), now);
            ask_all(ledger, format!("@{text}").as_bytes(), now);
            ask_all(ledger, format!("{text} ").as_bytes(), now);
            ask_all(ledger, &[text.as_bytes(), b"\x80"].concat(), now);
        }
        // each byte in the place of each other
        for place in 0..text.len() {
            for byte in 0..=255 {
                let mut changed = text.as_bytes().to_vec();
                changed[place] = byte;
                ask_all(ledger, &changed, &nows[1]);
            }
        }
    }
    every(b"-+0159 x", 5, |word| ask_second_word(ledger, word, &nows[1]));
    let alphabet: &[u8] = if size.times > 1 { b"-+016x " } else { b"-+016" };
    every(alphabet, 7, |word| ask_second_word(ledger, word, &nows[1]));
}
