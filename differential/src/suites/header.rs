//! Suites of offsets, for the header and raw readers; "any" and ISO read most of them too.

use super::{Size, every, joined};
use crate::ledger::Ledger;
use crate::oracle::{Form, Now};

pub(super) fn offsets_5(ledger: &mut Ledger, _: Size) {
    let now = Now::missing();
    let mut text = Vec::new();
    every(b"0123456789+- a", 5, |word| {
        ledger.ask(Form::Header, joined(&mut text, b"5 ", word), &now);
        ledger.ask(Form::Raw, joined(&mut text, b"5 ", word), &now);
        ledger.ask(Form::Any, joined(&mut text, b"@5 ", word), &now);
        ledger.ask(Form::Any, joined(&mut text, b"100000000 ", word), &now);
        ledger.ask(Form::Iso, joined(&mut text, b"2008-02-14 20:30:45", word), &now);
        ledger.ask(Form::Iso, joined(&mut text, b"2008-02-14 20:30:45 ", word), &now);
        ledger.ask(Form::Iso, joined(&mut text, b"20080214T203045", word), &now);
    });
}

pub(super) fn offsets_7(ledger: &mut Ledger, size: Size) {
    let now = Now::missing();
    let mut text = Vec::new();
    let alphabet: &[u8] = if size.times > 1 { b"+-013459 xZ" } else { b"+-01345 x" };
    every(alphabet, 7, |word| {
        ledger.ask(Form::Header, joined(&mut text, b"5 ", word), &now);
        ledger.ask(Form::Raw, joined(&mut text, b"5 ", word), &now);
    });
    every(b"+-:0259 Z", 6, |word| {
        ledger.ask(Form::Iso, joined(&mut text, b"2008-02-14 20:30:45", word), &now);
        ledger.ask(Form::Iso, joined(&mut text, b"2008-02-14 20:30:45 ", word), &now);
    });
}
