//! Compares answers, counts them, and prints what differs.

use std::fmt;
use std::io::{IsTerminal, Write as _};
use std::time::{Duration, Instant};

use crate::fence::Fence;
use crate::oracle::{self, Answer, By, Bytes, FORMS, Form, MARKS, MAX_TURNS, Now, Writer};
use crate::side::Side;

/// The longest text that is asked.
pub const LONGEST: usize = 1 << 16;
/// How many differences of a row are printed as they are found. The rest are only counted.
const PRINTED: u64 = 3;
/// How many bytes in front of a room are checked after a call.
const IN_FRONT: usize = 32;
/// The longest text of which every run of bytes is tried when it is cut down.
const EVERY_RUN: usize = 512;
/// The longest part of a text that is printed once if it is repeated, and how many bytes such repeats must have.
const REPEATED: usize = 24;
const LEAST_REPEATS: usize = 64;
/// What outputs and rooms hold before a call, so that a byte that was written can be recognised.
const SECONDS_BEFORE: i64 = 0x5a5a_5a5a_5a5a_5a5a;
const OFFSET_BEFORE: i32 = 0x5a5a_5a5a;
const MARK_BEFORE: u8 = 0x5a;
const LENGTH_BEFORE: usize = 0x5a5a;
const ROOM_BEFORE: u8 = 0xa5;
/// Numbers that name no rule. A text is asked by one of them, by its length.
const NO_RULES: [u32; 4] = [0, 3, 4, u32::MAX];

/// What a side was asked. `Alike` asks whether both readers of relative dates answer alike, `Back` for a header that was
/// written with this byte for the mark.
#[derive(Clone, PartialEq, Eq)]
pub enum Question {
    Read { form: Form, text: Vec<u8>, now: Option<(i64, i32)> },
    Alike { text: Vec<u8>, now: Option<(i64, i32)> },
    Size { seconds: i64, offset: i32 },
    Write { writer: Writer, seconds: i64, offset: i32, room: usize },
    Back { seconds: i64, offset: i32, mark: u8 },
}

impl Question {
    /// The order by size: short texts come first, then little room, then small numbers.
    fn rank(&self) -> (usize, u64, u32, Vec<u8>) {
        match self {
            Question::Read { text, now, .. } | Question::Alike { text, now } => {
                let (seconds, offset) = now.unwrap_or((0, 0));
                (text.len(), seconds.unsigned_abs(), offset.unsigned_abs(), text.clone())
            }
            Question::Size { seconds, offset } => (0, seconds.unsigned_abs(), offset.unsigned_abs(), Vec::new()),
            Question::Write { seconds, offset, room, .. } => {
                (*room, seconds.unsigned_abs(), offset.unsigned_abs(), Vec::new())
            }
            Question::Back { seconds, offset, mark } => (0, seconds.unsigned_abs(), offset.unsigned_abs(), vec![*mark]),
        }
    }
}

impl fmt::Display for Question {
    fn fmt(&self, f: &mut fmt::Formatter<'_>) -> fmt::Result {
        match self {
            Question::Read { form, text, now } => {
                write!(f, "{form} {}", quoted(text))?;
                match now {
                    Some((seconds, offset)) if form.takes_now() => write!(f, ", current time {seconds} {offset}"),
                    _ => Ok(()),
                }
            }
            Question::Alike { text, now } => {
                write!(f, "relative by turns as by the first reader {}", quoted(text))?;
                now.map_or(Ok(()), |(seconds, offset)| write!(f, ", current time {seconds} {offset}"))
            }
            Question::Size { seconds, offset } => write!(f, "size of {seconds} {offset}"),
            Question::Write { writer, seconds, offset, room } => {
                write!(f, "{writer}, {seconds} {offset}, room of {room}")
            }
            Question::Back { seconds, offset, mark } => {
                write!(f, "header of {seconds} {offset} and mark {mark}, written and read back")
            }
        }
    }
}

/// A question with both answers, ready to print.
#[derive(Clone)]
pub struct Difference {
    pub question: Question,
    pub wanted: String,
    pub got: String,
}

impl fmt::Display for Difference {
    fn fmt(&self, f: &mut fmt::Formatter<'_>) -> fmt::Result {
        write!(f, "{}\n  wanted {}\n  got    {}", self.question, self.wanted, self.got)
    }
}

/// The counts of one reader or writer.
#[derive(Default)]
pub struct Row {
    pub compared: u64,
    /// Answered 0.
    pub accepted: u64,
    /// Answered with the mark set.
    pub marked: u64,
    /// Answers that follow from the rules alone, see [`By::Rules`].
    pub by_rules: u64,
    pub differ: u64,
    pub smallest: Option<Difference>,
}

/// The rows of the summary. A reader by a rule has one for each rule, and one for all numbers that name none. In the row
/// "turns as first" the second reader of relative dates is compared with the first, and in the row "read back" what was
/// written is read; gix-date is not asked for either.
const ROW_NAMES: [&str; 25] = [
    "header",
    "header with mark",
    "raw",
    "raw by 1",
    "raw by 2",
    "raw by no rule",
    "raw with mark by 1",
    "raw with mark by 2",
    "raw with mark by none",
    "iso",
    "relative",
    "relative turns",
    "turns as first",
    "any",
    "any by 1",
    "any by 2",
    "any by no rule",
    "any with mark by 1",
    "any with mark by 2",
    "any with mark by none",
    "size",
    "header writer",
    "writer with mark",
    "read back",
    "ISO writer",
];
const ROWS: usize = ROW_NAMES.len();
const ALIKE_ROW: usize = 12;
const SIZE_ROW: usize = 20;
const BACK_ROW: usize = 23;

/// The row of a reader.
fn row_of(form: Form) -> usize {
    match form {
        Form::Header => 0,
        Form::HeaderMarked => 1,
        Form::Raw => 2,
        Form::RawBy(1) => 3,
        Form::RawBy(2) => 4,
        Form::RawBy(_) => 5,
        Form::RawMarked(1) => 6,
        Form::RawMarked(2) => 7,
        Form::RawMarked(_) => 8,
        Form::Iso => 9,
        Form::Relative => 10,
        Form::Turns => 11,
        Form::Any => 13,
        Form::AnyBy(1) => 14,
        Form::AnyBy(2) => 15,
        Form::AnyBy(_) => 16,
        Form::AnyMarked(1) => 17,
        Form::AnyMarked(2) => 18,
        Form::AnyMarked(_) => 19,
    }
}

/// The row of a writer.
fn writer_row(writer: Writer) -> usize {
    match writer {
        Writer::Header => 21,
        Writer::HeaderMarked(_) => 22,
        Writer::Iso => 24,
    }
}

/// Everything that was compared.
pub struct Ledger<'a> {
    side: &'a dyn Side,
    fence: Fence,
    /// Whether the last text of each reader lay at the upper fence, by its row. Its next text lies at the other fence.
    at_last: [bool; ROWS],
    rows: [Row; ROWS],
    /// Ask nothing more after the first difference.
    stop_at_first: bool,
    /// The suite that is running, and when it began.
    suite: String,
    begun: Instant,
    /// Whether to print anything.
    show: bool,
    /// When progress was last printed, and how many questions to ask before looking at the clock again.
    printed: Instant,
    until_look: u32,
}

impl<'a> Ledger<'a> {
    pub fn new(side: &'a dyn Side) -> Ledger<'a> {
        Ledger {
            side,
            fence: Fence::new(LONGEST),
            at_last: [false; ROWS],
            rows: Default::default(),
            stop_at_first: false,
            suite: String::new(),
            begun: Instant::now(),
            show: true,
            printed: Instant::now(),
            until_look: 0,
        }
    }

    /// A ledger for a side that is known to be wrong. It stops at the first difference and prints nothing.
    pub fn until_first(side: &'a dyn Side) -> Ledger<'a> {
        Ledger { stop_at_first: true, show: false, ..Ledger::new(side) }
    }

    /// Whether to stop: a difference was found, and the first is enough.
    pub fn is_over(&self) -> bool {
        self.stop_at_first && self.differ() > 0
    }

    pub fn compared(&self) -> u64 {
        self.rows.iter().map(|row| row.compared).sum()
    }

    pub fn differ(&self) -> u64 {
        self.rows.iter().map(|row| row.differ).sum()
    }

    /// Begins a suite.
    pub fn begin(&mut self, suite: String) {
        self.suite = suite;
        self.begun = Instant::now();
        self.print_progress();
    }

    /// Ends a suite and prints a line for it.
    pub fn end(&mut self, compared: u64) {
        if self.show {
            self.clear();
            let seconds = self.begun.elapsed().as_secs_f64();
            println!("{:<34} {:>13} compared  {seconds:>6.1} s", self.suite, grouped(compared));
        }
    }

    /// Asks every reader.
    pub fn ask_all(&mut self, text: &[u8], now: &Now) {
        for form in FORMS {
            self.ask(form, text, now);
        }
    }

    /// Asks the reader of a form. Raw and "any" are also asked by rule 1, by rule 2 and by a number that names no rule.
    /// Where there is a reader of the form with its mark, it is asked too, and held to the same answer of gix-date; so is
    /// the second reader of a relative date.
    pub fn ask(&mut self, form: Form, text: &[u8], now: &Now) {
        if self.is_over() {
            return;
        }
        let wanted = oracle::wanted(form, text, now);
        self.ask_one(form, text, now, wanted);
        if let Some(with_mark) = form.with_mark() {
            self.ask_one(with_mark, text, now, oracle::marked(with_mark, text, wanted));
        }
        let by: fn(u32) -> Form = match form {
            Form::Raw => Form::RawBy,
            Form::Any => Form::AnyBy,
            Form::Relative => return self.ask_one(Form::Turns, text, now, oracle::by_turns(text, wanted)),
            _ => return,
        };
        for rule in [1, 2, NO_RULES[text.len() % NO_RULES.len()]] {
            self.ask(by(rule), text, now);
        }
    }

    /// Asks one reader, and compares number, seconds, offset and the mark if there is one. On a refusal all but the number
    /// must be 0.
    fn ask_one(&mut self, form: Form, text: &[u8], now: &Now, (wanted, by): (Answer, By)) {
        if self.is_over() {
            return;
        }
        let got = self.read(form, text, now);
        let row = &mut self.rows[row_of(form)];
        row.compared += 1;
        row.accepted += u64::from(wanted.number == 0);
        row.marked += u64::from(wanted.mark);
        row.by_rules += u64::from(by == By::Rules);
        if got != wanted {
            let question = Question::Read { form, text: text.to_vec(), now: now.time };
            self.note(row_of(form), question, shown(form, wanted), shown(form, got));
        }
        self.tick();
    }

    /// Asks both readers of relative dates, and compares the second with the first.
    pub fn ask_alike(&mut self, text: &[u8], now: &Now) {
        if self.is_over() {
            return;
        }
        let (wanted, got) = self.both(text, now);
        let row = &mut self.rows[ALIKE_ROW];
        row.compared += 1;
        row.accepted += u64::from(wanted.number == 0);
        if got != wanted {
            let question = Question::Alike { text: text.to_vec(), now: now.time };
            self.note(ALIKE_ROW, question, shown(Form::Turns, wanted), shown(Form::Turns, got));
        }
        self.tick();
    }

    /// What the second reader of relative dates should answer, by the side's own first reader, and what it does answer.
    fn both(&mut self, text: &[u8], now: &Now) -> (Answer, Answer) {
        let first = self.read(Form::Relative, text, now);
        let (wanted, _) = oracle::by_turns(text, (first, By::Rules));
        (wanted, self.read(Form::Turns, text, now))
    }

    /// Asks `size`.
    pub fn ask_size(&mut self, seconds: i64, offset: i32) {
        if self.is_over() {
            return;
        }
        let (wanted, got) = (oracle::size(seconds, offset), self.side.size(seconds, offset));
        let row = &mut self.rows[SIZE_ROW];
        row.compared += 1;
        row.accepted += 1;
        if got != wanted {
            self.note(SIZE_ROW, Question::Size { seconds, offset }, wanted.to_string(), got.to_string());
        }
        self.tick();
    }

    /// Asks a writer, with rooms of every length from 0 to one more than it needs.
    pub fn ask_rooms(&mut self, writer: Writer, seconds: i64, offset: i32) {
        let longest = match oracle::written(writer, seconds, offset) {
            Bytes::Written(_, length) => length + 1,
            Bytes::Refused(_) => 28,
        };
        for room in 0..=longest {
            self.ask_write(writer, seconds, offset, room);
        }
    }

    /// Asks a writer. The header writer is also asked with one of [`MARKS`], by the length of the room.
    pub fn ask_write(&mut self, writer: Writer, seconds: i64, offset: i32, room: usize) {
        self.ask_one_write(writer, seconds, offset, room);
        if writer == Writer::Header {
            self.ask_one_write(Writer::HeaderMarked(MARKS[room % MARKS.len()]), seconds, offset, room);
        }
    }

    /// Asks one writer, and compares number, length and every byte of the room and in front of it.
    fn ask_one_write(&mut self, writer: Writer, seconds: i64, offset: i32, room: usize) {
        if self.is_over() {
            return;
        }
        let at_row = writer_row(writer);
        let (mut bytes, mut number, mut length) = ([ROOM_BEFORE; 64], 0, 0);
        match oracle::written(writer, seconds, offset) {
            Bytes::Refused(refusal) => number = refusal,
            Bytes::Written(_, needed) if room < needed => number = 8,
            Bytes::Written(written, needed) => {
                length = needed;
                bytes[IN_FRONT..][..length].copy_from_slice(&written[..length]);
            }
        }
        // the room ends at the fence
        let memory = self.fence.last(IN_FRONT + room);
        memory.fill(ROOM_BEFORE);
        let mut got_length = LENGTH_BEFORE;
        let got = self.side.write(writer, seconds, offset, &mut memory[IN_FRONT..], &mut got_length);
        let row = &mut self.rows[at_row];
        row.compared += 1;
        row.accepted += u64::from(number == 0);
        if got != number || got_length != length || memory != &bytes[..IN_FRONT + room] {
            let wanted = format!("{number} {length} \"{}\"", bytes[IN_FRONT..IN_FRONT + room].escape_ascii());
            let got = format!("{got} {got_length} \"{}\"", memory[IN_FRONT..].escape_ascii());
            self.note(at_row, Question::Write { writer, seconds, offset, room }, wanted, got);
        }
        self.tick();
    }

    /// Has a header written with this byte for the mark and read back, at an offset that is written.
    pub fn ask_back(&mut self, seconds: i64, offset: i32, mark: u8) {
        if self.is_over() {
            return;
        }
        let wanted = oracle::read_back(seconds, offset, mark);
        let (mut room, mut length) = ([0; 32], 0);
        let number = self.side.write(Writer::HeaderMarked(mark), seconds, offset, &mut room, &mut length);
        let got = match number {
            0 => self.read(Form::HeaderMarked, &room[..length.min(room.len())], &Now::missing()),
            _ => Answer { number, seconds: 0, offset: 0, mark: 0 },
        };
        let row = &mut self.rows[BACK_ROW];
        row.compared += 1;
        row.accepted += 1;
        row.marked += u64::from(wanted.mark);
        if got != wanted {
            let [wanted, got] = [wanted, got].map(|answer| shown(Form::HeaderMarked, answer));
            self.note(BACK_ROW, Question::Back { seconds, offset, mark }, wanted, got);
        }
        self.tick();
    }

    /// What the side answers. The text lies next to a fence, and the call must not change it.
    fn read(&mut self, form: Form, text: &[u8], now: &Now) -> Answer {
        let at_last = &mut self.at_last[row_of(form)];
        *at_last = !*at_last;
        let memory = if *at_last { self.fence.last(text.len()) } else { self.fence.first(text.len()) };
        memory.copy_from_slice(text);
        let (mut seconds, mut offset, mut mark) = (SECONDS_BEFORE, OFFSET_BEFORE, MARK_BEFORE);
        let number = self.side.read(form, memory, now, &mut seconds, &mut offset, &mut mark);
        assert!(memory == text, "{form} changed its text \"{}\"", text.escape_ascii());
        Answer { number, seconds, offset, mark: if form.has_mark() { mark } else { 0 } }
    }

    /// Counts a difference, keeps it if it is the smallest so far, and prints it if it is among the first.
    fn note(&mut self, row: usize, question: Question, wanted: String, got: String) {
        let difference = Difference { question, wanted, got };
        let row = &mut self.rows[row];
        row.differ += 1;
        let print = self.show && row.differ <= PRINTED;
        if row.smallest.as_ref().is_none_or(|smallest| difference.question.rank() < smallest.question.rank()) {
            row.smallest = Some(difference.clone());
        }
        if print {
            self.clear();
            println!("differs: {difference}");
        }
    }

    /// Prints progress, a few times a second.
    fn tick(&mut self) {
        if self.until_look > 0 {
            self.until_look -= 1;
            return;
        }
        self.until_look = 1 << 12;
        if self.printed.elapsed() > Duration::from_millis(200) {
            self.print_progress();
        }
    }

    fn print_progress(&mut self) {
        self.printed = Instant::now();
        if self.show && std::io::stderr().is_terminal() {
            eprint!("\r\x1b[K{}: {} compared, {} differ", self.suite, grouped(self.compared()), grouped(self.differ()));
            let _ = std::io::stderr().flush();
        }
    }

    /// Clears the line with the progress.
    fn clear(&self) {
        if std::io::stderr().is_terminal() {
            eprint!("\r\x1b[K");
        }
    }

    /// The smallest difference. Its text is cut down as far as the answers still differ.
    pub fn smallest(&mut self) -> Option<Difference> {
        (0..ROWS).filter_map(|row| self.smallest_of(row)).min_by_key(|difference| difference.question.rank())
    }

    fn smallest_of(&mut self, row: usize) -> Option<Difference> {
        let difference = self.rows[row].smallest.clone()?;
        let (form, text, now) = match difference.question {
            Question::Read { form, text, now } => (Some(form), text, now),
            Question::Alike { text, now } => (None, text, now),
            _ => return Some(difference),
        };
        let current = now.map_or(Now::missing(), |(seconds, offset)| Now::at(seconds, offset));
        let text = self.cut_down(form, text, &current);
        let (wanted, got) = self.answers(form, &text, &current);
        let [wanted, got] = [wanted, got].map(|answer| shown(form.unwrap_or(Form::Turns), answer));
        let question = match form {
            Some(form) => Question::Read { form, text, now },
            None => Question::Alike { text, now },
        };
        Some(Difference { question, wanted, got })
    }

    /// What the reader of a form should answer, and what it does answer. Without a form, the same of [`Self::both`].
    fn answers(&mut self, form: Option<Form>, text: &[u8], now: &Now) -> (Answer, Answer) {
        match form {
            Some(form) => (oracle::wanted(form, text, now).0, self.read(form, text, now)),
            None => self.both(text, now),
        }
    }

    /// Removes runs of bytes, long ones first, wherever the answers still differ without them.
    ///
    /// A text of more than [`EVERY_RUN`] bytes is first cut by runs that lie side by side and are half as long each time.
    /// To try every run of it would take too long.
    fn cut_down(&mut self, form: Option<Form>, mut text: Vec<u8>, now: &Now) -> Vec<u8> {
        let mut run = text.len();
        while run > 0 && text.len() > EVERY_RUN {
            self.remove_runs(form, &mut text, now, run, run);
            run /= 2;
        }
        if text.len() <= EVERY_RUN {
            for run in (1..=text.len()).rev() {
                self.remove_runs(form, &mut text, now, run, 1);
            }
        }
        text
    }

    /// Removes runs of `run` bytes wherever the answers still differ, and goes on by `step` bytes where they do not.
    fn remove_runs(&mut self, form: Option<Form>, text: &mut Vec<u8>, now: &Now, run: usize, step: usize) {
        let mut at = 0;
        while at + run <= text.len() {
            let mut shorter = text.clone();
            shorter.drain(at..at + run);
            let (wanted, got) = self.answers(form, &shorter, now);
            if wanted == got {
                at += step;
            } else {
                *text = shorter;
            }
        }
    }

    /// Prints the summary: a row for each reader and writer, and the smallest difference of each.
    pub fn summary(&mut self) {
        println!();
        println!(
            "{:<21} {:>14} {:>14} {:>14} {:>14} {:>14} {:>8}",
            "", "compared", "accepted", "refused", "mark set", "rules alone", "differ"
        );
        for (name, row) in ROW_NAMES.iter().zip(&self.rows) {
            println!(
                "{name:<21} {:>14} {:>14} {:>14} {:>14} {:>14} {:>8}",
                grouped(row.compared),
                grouped(row.accepted),
                grouped(row.compared - row.accepted),
                grouped(row.marked),
                grouped(row.by_rules),
                grouped(row.differ)
            );
        }
        println!("{:<21} {:>14} {:>68}", "all", grouped(self.compared()), grouped(self.differ()));
        println!(
            "\"rules alone\": answers that gix-date cannot give (4; 2 by a number that names no rule), or that differ"
        );
        println!("from its own on purpose (1; 5; 2 by turns for a text of more than {MAX_TURNS} bytes). By rule 2 the");
        println!(
            "others are gix-date's with the limits of that rule. gix-date has no mark: that is held to the rules, and"
        );
        println!(
            "number, seconds and offset beside it to gix-date. \"turns as first\" and \"read back\" do not ask gix-date."
        );
        for (row, name) in ROW_NAMES.iter().enumerate() {
            if let Some(difference) = self.smallest_of(row) {
                println!("\nsmallest of {name}: {difference}");
            }
        }
    }
}

/// The answer of a reader of this form.
fn shown(form: Form, answer: Answer) -> String {
    let mark = if form.has_mark() { format!(" mark {}", answer.mark) } else { String::new() };
    format!("{} {} {}{mark}", answer.number, answer.seconds, answer.offset)
}

/// A text in quotes. In long texts, repeats are printed as in Python: `"now" + " " * 4094`.
fn quoted(text: &[u8]) -> String {
    let (mut parts, mut plain, mut rest) = (Vec::new(), Vec::new(), text);
    while let Some((first, after)) = rest.split_first() {
        let repeats = (1..=REPEATED.min(rest.len())).find_map(|len| {
            let (part, count) = (&rest[..len], rest.chunks(len).take_while(|chunk| *chunk == &rest[..len]).count());
            (count > 1 && count * len >= LEAST_REPEATS).then_some((part, count))
        });
        if let Some((part, count)) = repeats {
            if !plain.is_empty() {
                parts.push(format!("\"{}\"", plain.escape_ascii()));
                plain.clear();
            }
            parts.push(format!("\"{}\" * {count}", part.escape_ascii()));
            rest = &rest[part.len() * count..];
        } else {
            plain.push(*first);
            rest = after;
        }
    }
    if !plain.is_empty() || parts.is_empty() {
        parts.push(format!("\"{}\"", plain.escape_ascii()));
    }
    parts.join(" + ")
}

/// A number with a comma after every third digit from the right.
pub fn grouped(number: u64) -> String {
    let digits = number.to_string();
    let mut out = String::new();
    for (place, digit) in digits.chars().enumerate() {
        if place > 0 && (digits.len() - place).is_multiple_of(3) {
            out.push(',');
        }
        out.push(digit);
    }
    out
}
