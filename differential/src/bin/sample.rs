//! Writes a fixed sample of gix-date's answers as lines of `whenread`: `gix-date.in` and `gix-date.out`.
//!
//! Only answers that gix-date itself determines are taken: ASCII texts of at most 256 pairs, with a current time that is
//! missing or in range. gix-date says only "read" or "not read", so the number of a refusal follows from what refused:
//! - 2 if the text is not of the form, which for a relative text means that `relative::parse` returns `None`;
//! - 11 in place of 2 if the number that opens a header or a raw date is too large, also where "any" ends with a raw date;
//! - 3 if the text is relative and there is no current time, provided that gix-date reads it from some current time;
//! - 6 if the text is relative and there is a current time.

use std::collections::HashSet;
use std::io::Write as _;
use std::path::Path;
use std::process::ExitCode;

use differential::oracle::{self, Answer, By, FORMS, Form, MAX_OFFSET, MAX_SECONDS, MIN_SECONDS, Now};
use differential::rng::Rng;
use differential::texts::{self, NOON, TELLING};

const HELP: &str = "\
Usage: sample FOLDER
Write FOLDER/gix-date.in, lines for whenread, and FOLDER/gix-date.out, the answers of gix-date 0.18.1 to them.";

/// How many lines to take for each form and each number, besides the telling texts. 11 is counted as 2.
const QUOTAS: [(Form, &[(u8, usize)]); 5] = [
    (Form::Header, &[(0, 360), (2, 300)]),
    (Form::Raw, &[(0, 400), (2, 260)]),
    (Form::Iso, &[(0, 400), (2, 260)]),
    (Form::Relative, &[(0, 380), (2, 110), (3, 70), (6, 100)]),
    (Form::Any, &[(0, 380), (2, 160), (3, 50), (6, 70)]),
];

/// The number by which a quota counts an answer. gix-date does not tell 11 from 2, and so a quota does not either.
fn counted_as(number: u8) -> u8 {
    if number == 11 { 2 } else { number }
}

/// The most bytes of a text: with the fields in front of it a line has at most 4,096.
const LONGEST: usize = 4000;

/// The lines, each of them once.
struct Sample {
    lines: Vec<(String, Answer)>,
    seen: HashSet<String>,
}

impl Sample {
    /// The answer, if gix-date determines it and the text fits into a line.
    fn determined(form: Form, text: &[u8], now: &Now) -> Option<Answer> {
        let fits = text.iter().all(|byte| (1..128).contains(byte) && *byte != b'\n') && text.len() <= LONGEST;
        if !fits {
            return None;
        }
        let (answer, by) = oracle::wanted(form, text, now);
        let from_somewhere = || oracle::wanted(form, text, &Now::at(MAX_SECONDS, 0)).0.number == 0;
        (by == By::Rust && (answer.number != 3 || from_somewhere())).then_some(answer)
    }

    /// Adds a line. Returns whether it is new.
    fn add(&mut self, form: Form, text: &[u8], now: &Now, answer: Answer) -> bool {
        let current = match now.time {
            Some((seconds, offset)) => format!("{seconds}\t{offset}"),
            None => "-\t-".to_string(),
        };
        let line = format!("{form}\t{current}\t{}", std::str::from_utf8(text).expect("ASCII"));
        let is_new = self.seen.insert(line.clone());
        if is_new {
            self.lines.push((line, answer));
        }
        is_new
    }
}

/// A text of the form, good or damaged.
fn text_for(form: Form, rng: &mut Rng) -> Vec<u8> {
    let mut text = Vec::new();
    match form {
        Form::Header | Form::HeaderMarked | Form::Raw | Form::RawBy(_) | Form::RawMarked(_) => {
            texts::header(rng, &mut text)
        }
        Form::Iso => texts::iso(rng, &mut text),
        Form::Relative | Form::Turns => texts::relative(rng, &mut text),
        Form::Any | Form::AnyBy(_) | Form::AnyMarked(_) => texts::good(rng, &mut text),
    }
    if rng.once_in(3) {
        texts::damage(rng, &mut text);
    }
    text
}

/// A current time for which gix-date has an answer; often one near the ends of the range.
fn now_for(form: Form, rng: &mut Rng) -> Now {
    if !matches!(form, Form::Relative | Form::Any) && rng.below(8) > 0 {
        return Now::missing();
    }
    if rng.once_in(8) {
        let offset = rng.one_of(&[0, MAX_OFFSET, -MAX_OFFSET, 3600]);
        return Now::at(MIN_SECONDS + rng.within(0, 200_000_000) / rng.one_of(&[1, 2000, 100_000_000]), offset);
    }
    texts::now(rng)
}

fn sample() -> Vec<(String, Answer)> {
    let mut sample = Sample { lines: Vec::new(), seen: HashSet::new() };
    let mut rng = Rng::new(1, "sample");
    let noon = Now::at(NOON, 3600);
    for form in FORMS {
        for text in TELLING {
            let now = if matches!(form, Form::Relative | Form::Any) { noon.clone() } else { Now::missing() };
            if let Some(answer) = Sample::determined(form, text.as_bytes(), &now) {
                sample.add(form, text.as_bytes(), &now, answer);
            }
        }
    }
    // up to the most pairs that are read, also with a count after them, which is dropped
    for form in [Form::Relative, Form::Any] {
        for (pair, count, tail) in [
            ("1 day ", 31, ""),
            ("1 day ", 32, ""),
            ("1 x ", 32, "ago"),
            ("1 month ", 32, "7"),
            ("2 ", 64, "ago"),
            ("1 day ", 33, ""),
            ("1 day ", 255, ""),
            ("1 day ", 256, ""),
            ("1 x ", 256, "ago"),
            ("1 month ", 256, "7"),
            ("2 ", 512, "ago"),
        ] {
            let text = pair.repeat(count) + tail;
            if let Some(answer) = Sample::determined(form, text.as_bytes(), &noon) {
                sample.add(form, text.as_bytes(), &noon, answer);
            }
        }
    }
    for (form, quotas) in QUOTAS {
        let mut left: Vec<(u8, usize)> = quotas.to_vec();
        while left.iter().any(|(_, count)| *count > 0) {
            let (text, now) = (text_for(form, &mut rng), now_for(form, &mut rng));
            let Some(answer) = Sample::determined(form, &text, &now) else { continue };
            let number = counted_as(answer.number);
            let Some((_, count)) = left.iter_mut().find(|(of, count)| *of == number && *count > 0) else { continue };
            if sample.add(form, &text, &now, answer) {
                *count -= 1;
            }
        }
    }
    sample.lines
}

fn main() -> ExitCode {
    let words: Vec<String> = std::env::args().skip(1).collect();
    let [folder] = words.as_slice() else {
        eprintln!("{HELP}");
        return ExitCode::from(2);
    };
    let lines = sample();
    let (mut input, mut output) = (Vec::new(), Vec::new());
    for (line, answer) in &lines {
        writeln!(input, "{line}").expect("memory");
        writeln!(output, "{}\t{}\t{}", answer.number, answer.seconds, answer.offset).expect("memory");
    }
    for (name, bytes) in [("gix-date.in", &input), ("gix-date.out", &output)] {
        let path = Path::new(folder).join(name);
        if let Err(error) = std::fs::write(&path, bytes) {
            eprintln!("sample: {}: {error}", path.display());
            return ExitCode::FAILURE;
        }
    }
    for form in FORMS {
        let of_form: Vec<&Answer> = lines
            .iter()
            .filter(|(line, _)| line.split('\t').next() == Some(&form.to_string()))
            .map(|(_, answer)| answer)
            .collect();
        let count = |number: u8| of_form.iter().filter(|answer| answer.number == number).count();
        let counts: Vec<String> =
            [0, 2, 3, 6, 11].iter().map(|number| format!("{} of {number}", count(*number))).collect();
        println!("{:<9} {:>5} lines: {}", form.to_string(), of_form.len(), counts.join(", "));
    }
    println!("{:<9} {:>5} lines", "all", lines.len());
    ExitCode::SUCCESS
}
