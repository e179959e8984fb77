//! Measures the proved library and gix-date 0.18.1 in one process, on the same inputs. See `--help`.

use std::hint::black_box;
use std::process::ExitCode;
use std::time::Instant;

use chowderbell::entries;
use differential::oracle::{self, Form, Now};
use differential::side::Ours;
use differential::texts::NOON;
use gix_date::parse::{TimeBuf, visible};
use gix_date::time::format::ISO8601_STRICT;

const HELP: &str = "\
Usage: bench [--rounds N] [WORD...]
       bench --names
       bench --run ours|gix-date N NAME
Measure the proved library and gix-date 0.18.1 in one process, on the same inputs. Prints tables in Markdown:
nanoseconds for one call, the best of N rounds (default 40), in which the two sides take turns.

  WORD      measure only what has this word in its name
  --names   the rows of the first table
  --run     make N passes over the 64 inputs of a row by one side and print nothing: for counting instructions";

/// The current time: seconds and offset.
const NOW: (i64, i32) = (NOON, 3600);
/// How many nanoseconds one round of one side should take.
const ROUND: f64 = 2e6;
/// How many inputs a row has. They differ, so that the processor cannot learn the branches of one input.
const INPUTS: i64 = 64;

/// One pass of one side over all inputs of a row.
type Pass<'a> = Box<dyn FnMut() + 'a>;

/// A measurement: both sides, on the same inputs.
struct Row<'a> {
    name: String,
    inputs: usize,
    gix: Pass<'a>,
    ours: Pass<'a>,
}

impl Row<'_> {
    /// Nanoseconds for one call, of gix-date and of ours: the best of `rounds`. The sides take turns.
    fn measure(&mut self, rounds: u32) -> (f64, f64) {
        let counts = (passes(&mut self.gix), passes(&mut self.ours));
        let mut least = (f64::MAX, f64::MAX);
        for _ in 0..rounds {
            least.0 = least.0.min(time_of(counts.0, &mut self.gix));
            least.1 = least.1.min(time_of(counts.1, &mut self.ours));
        }
        (least.0 / self.inputs as f64, least.1 / self.inputs as f64)
    }
}

/// How many passes make a round.
fn passes(pass: &mut Pass) -> u64 {
    let once = time_of(3, pass).max(1.0);
    ((ROUND / once) as u64).clamp(1, 1_000_000)
}

/// The nanoseconds of one pass, the mean over `count` passes.
fn time_of(count: u64, pass: &mut Pass) -> f64 {
    let start = Instant::now();
    for _ in 0..count {
        pass();
    }
    start.elapsed().as_nanos() as f64 / count as f64
}

/// The proved library's answer.
fn our_answer(form: Form, text: &[u8]) -> (u8, i64, i32) {
    let (mut seconds, mut offset) = (0, 0);
    let (now, zone) = black_box(NOW);
    let number = Ours::call(form, text, (1, now, zone), &mut seconds, &mut offset);
    (number, seconds, offset)
}

/// The same with the mark.
#[cfg(feature = "marks")]
fn our_marked_answer(form: Form, text: &[u8]) -> (u8, i64, i32, u8) {
    let (mut seconds, mut offset, mut mark) = (0, 0, 0);
    let (now, zone) = black_box(NOW);
    let number = Ours::call_marked(form, text, (1, now, zone), &mut seconds, &mut offset, &mut mark);
    (number, seconds, offset, mark)
}

/// One pass of ours over some texts. The answers must be right.
fn our_pass<'a>(form: Form, texts: Vec<String>) -> Pass<'a> {
    let current = Now::at(NOW.0, NOW.1);
    let wanted = |text: &str| oracle::wanted(form, text.as_bytes(), &current).0;
    #[cfg(feature = "marks")]
    if form.has_mark() {
        for text in &texts {
            let (wanted, got) = (wanted(text), our_marked_answer(form, text.as_bytes()));
            assert_eq!(got, (wanted.number, wanted.seconds, wanted.offset, wanted.mark), "{form} {text:?}");
        }
        return Box::new(move || {
            for text in &texts {
                black_box(our_marked_answer(form, black_box(text.as_bytes())));
            }
        });
    }
    for text in &texts {
        let (wanted, got) = (wanted(text), our_answer(form, text.as_bytes()));
        assert_eq!(got, (wanted.number, wanted.seconds, wanted.offset), "{form} {text:?}");
    }
    Box::new(move || {
        for text in &texts {
            black_box(our_answer(form, black_box(text.as_bytes())));
        }
    })
}

/// A reader on some texts. Both sides must give the same answers. gix-date gives no mark.
fn reader<'a>(name: &str, form: Form, texts: Vec<String>) -> Row<'a> {
    let now = Now::at(NOW.0, NOW.1).zoned().expect("a current time in range");
    let ours = our_pass(form, texts.clone());
    Row {
        name: name.to_string(),
        inputs: texts.len(),
        gix: Box::new(move || {
            for text in &texts {
                let text = black_box(text.as_str());
                match form {
                    Form::Header | Form::HeaderMarked => drop(black_box(gix_date::parse_header(text))),
                    Form::Raw | Form::RawBy(1) | Form::RawMarked(1) => drop(black_box(visible::raw(text))),
                    Form::RawBy(_) | Form::RawMarked(_) => drop(black_box(visible::raw_2(text))),
                    Form::Iso => drop(black_box(visible::iso(text))),
                    // the current time is taken by value
                    Form::Relative | Form::Turns => drop(black_box(visible::relative(text, Some(now.clone())))),
                    Form::Any | Form::AnyBy(1) | Form::AnyMarked(1) => {
                        drop(black_box(visible::any(text, Some(now.clone()))))
                    }
                    Form::AnyBy(_) | Form::AnyMarked(_) => drop(black_box(visible::any_2(text, Some(now.clone())))),
                }
            }
        }),
        ours,
    }
}

/// The readers on common texts.
fn readers<'a>() -> Vec<Row<'a>> {
    let seconds = |k: i64| 1745582210 - k * 12_345_678;
    let offset = |k: i64| ["+0200", "-0500", "+0000", "+0530"][(k % 4) as usize];
    let date = |k: i64| format!("{}-{:02}-{:02}", 1990 + k % 40, 1 + k % 12, 1 + k % 28);
    let clock = |k: i64| format!("{:02}:{:02}:{:02}", k % 24, k % 60, (k * 7) % 60);
    let unit = |k: i64| ["seconds", "minutes", "hours", "days", "weeks"][(k % 5) as usize];
    let header = |k: i64| format!("{} {}", seconds(k), offset(k));
    let flexible = |k: i64| format!("{} {} {}", date(k), clock(k), offset(k));
    let compact = |k: i64| format!("{}T{}{}", date(k).replace('-', ""), clock(k).replace(':', ""), offset(k));
    let ago = |k: i64| format!("{} {} ago", 1 + k % 30, unit(k));
    let of_seconds =
        |k: i64, pairs| (0..pairs).map(|p| format!("{} {} ", 1 + (k + p) % 9, unit(k + p))).collect::<String>();
    let with_months = |k: i64, pairs| {
        (0..pairs)
            .map(|p| format!("{} {} ", 1 + (k + p) % 3, ["months", "days"][((k + p) % 2) as usize]))
            .collect::<String>()
    };
    let row =
        |name: &str, form: Form, text: &dyn Fn(i64) -> String| reader(name, form, (0..INPUTS).map(text).collect());
    // the same texts for both readers of relative dates
    let relative = |name: &str, form: Form| {
        let row = |about: &str, text: &dyn Fn(i64) -> String| row(&format!("{name}, {about}"), form, text);
        [
            row("`now`", &|k| ["now", "today", "yesterday", "Now"][(k % 4) as usize].to_string()),
            row("seconds only", &ago),
            row("one month", &|k| format!("{} months ago", 1 + k % 30)),
            row("one year", &|k| format!("{} years ago", 1 + k % 30)),
            row("month and days", &|k| format!("{} months {} days ago", 1 + k % 12, 1 + k % 30)),
            row("32 pairs of seconds", &|k| of_seconds(k, 32)),
            row("32 pairs with months", &|k| with_months(k, 32)),
            row("33 pairs of seconds", &|k| of_seconds(k, 33)),
            row("33 pairs with months", &|k| with_months(k, 33)),
            row("100 pairs of seconds", &|k| of_seconds(k, 100)),
            row("100 pairs with months", &|k| with_months(k, 100)),
            row("256 pairs of seconds", &|k| of_seconds(k, 256)),
            row("256 pairs with months", &|k| with_months(k, 256)),
            row("1,000 words passed over", &|k| format!("{} days{} ago", 1 + k % 30, " and".repeat(1000))),
            row("refused", &|k| format!("{} things", 1 + k % 30)),
        ]
    };
    let mut rows = vec![
        row("header", Form::Header, &header),
        row("header, no offset", Form::Header, &|k| seconds(k).to_string()),
        row("raw", Form::Raw, &header),
        row("raw, refused", Form::Raw, &|k| format!("{} +{:02}20", seconds(k), k % 24)),
        row("ISO flexible", Form::Iso, &flexible),
        row("ISO flexible, `T` and `Z`", Form::Iso, &|k| format!("{}T{}Z", date(k), clock(k))),
        row("ISO dotted", Form::Iso, &|k| format!("{} {} {}", date(k).replace('-', "."), clock(k), offset(k))),
        row("ISO compact", Form::Iso, &compact),
        row("ISO, refused", Form::Iso, &|k| format!("{} {} x", date(k), clock(k))),
    ];
    rows.extend(relative("relative", Form::Relative));
    if cfg!(feature = "turns") {
        rows.extend(relative("relative by turns", Form::Turns));
    }
    // the same texts without the mark and with it
    let any = |name: &str, form: Form| {
        let row = |about: &str, text: &dyn Fn(i64) -> String| row(&format!("{name}, {about}"), form, text);
        [
            row("`@` and seconds", &|k| format!("@{}", seconds(k))),
            row("seconds", &|k| seconds(k).to_string()),
            row("ISO", &flexible),
            row("relative", &ago),
            row("raw", &header),
            row("refused", &|k| format!("no date at all {k}x")),
        ]
    };
    rows.extend(any("any", Form::Any));
    if cfg!(feature = "rules") {
        let wider = |k: i64| format!("{} {}", seconds(k), ["+0520", "-2000", "+2359", "-0001"][(k % 4) as usize]);
        rows.extend([
            row("raw by rule 1", Form::RawBy(1), &header),
            row("raw by rule 2", Form::RawBy(2), &header),
            row("raw by rule 2, wider offsets", Form::RawBy(2), &wider),
            row("any by rule 1, raw", Form::AnyBy(1), &header),
            row("any by rule 2, raw", Form::AnyBy(2), &header),
        ]);
    }
    if cfg!(feature = "marks") {
        let zero = |k: i64| format!("{} -0000", seconds(k));
        rows.extend([
            row("header with mark", Form::HeaderMarked, &header),
            row("header with mark, `-0000`", Form::HeaderMarked, &zero),
            row("header with mark, no offset", Form::HeaderMarked, &|k| seconds(k).to_string()),
            row("raw with mark by rule 1", Form::RawMarked(1), &header),
            row("raw with mark by rule 1, `-0000`", Form::RawMarked(1), &zero),
            row("raw with mark by rule 1, refused", Form::RawMarked(1), &|k| {
                format!("{} +{:02}20", seconds(k), k % 24)
            }),
            row("raw with mark by rule 2", Form::RawMarked(2), &header),
        ]);
        rows.extend(any("any with mark by rule 1", Form::AnyMarked(1)));
        rows.extend([
            row("any with mark by rule 1, `-0000`", Form::AnyMarked(1), &zero),
            row("any with mark by rule 2, raw", Form::AnyMarked(2), &header),
        ]);
    }
    rows
}

/// A common time: seconds and offset.
fn met(k: i64) -> (i64, i32) {
    (1745582210 - k * 12_345_678, [7200, -18000, 0, 19800][(k % 4) as usize])
}

/// The header writer and `size`, on common times and on seconds of 19 digits, and the ISO writer.
fn writers<'a>() -> Vec<Row<'a>> {
    let long = |k: i64| (-5_000_000_000_000_000_000 + k * 12_345_678, met(k).1);
    let mut rows = Vec::new();
    for (kind, times) in
        [("", (0..INPUTS).map(met).collect::<Vec<(i64, i32)>>()), (", 19 digits", (0..INPUTS).map(long).collect())]
    {
        let gix_times: Vec<gix_date::Time> = times.iter().map(|time| gix_date::Time::new(time.0, time.1)).collect();
        let mut row = |name: &str, gix: Pass<'a>, ours: Pass<'a>| {
            rows.push(Row { name: format!("{name}{kind}"), inputs: times.len(), gix, ours });
        };
        let we_write = || -> Pass<'a> {
            let times = times.clone();
            Box::new(move || {
                for (seconds, offset) in &times {
                    let (mut room, mut length) = ([0; 26], 0);
                    let number = entries::write_header(black_box(*seconds), black_box(*offset), &mut room, &mut length);
                    black_box((number, length, &room));
                }
            })
        };
        let by_to_str = || -> Pass<'a> {
            let times = gix_times.clone();
            Box::new(move || {
                for time in &times {
                    let mut buf = TimeBuf::default();
                    black_box(black_box(*time).to_str(&mut buf).len());
                    black_box(&buf);
                }
            })
        };
        let by_write_to = || -> Pass<'a> {
            let times = gix_times.clone();
            Box::new(move || {
                for time in &times {
                    let mut room = [0; 26];
                    let mut rest = &mut room[..];
                    let _ = black_box(black_box(*time).write_to(&mut rest));
                    black_box(&room);
                }
            })
        };
        row("header writer, by `to_str`", by_to_str(), we_write());
        row("header writer, by `write_to`", by_write_to(), we_write());
        #[cfg(feature = "marks")]
        {
            // the mark is set; a quarter of the times are at offset 0, and gix-date writes these with the other sign
            let we_write_marked = || -> Pass<'a> {
                let times = times.clone();
                Box::new(move || {
                    for (seconds, offset) in &times {
                        let (mut room, mut length) = ([0; 26], 0);
                        let (seconds, offset, mark) = (black_box(*seconds), black_box(*offset), black_box(1));
                        let number = entries::write_header_marked(seconds, offset, mark, &mut room, &mut length);
                        black_box((number, length, &room));
                    }
                })
            };
            row("header writer with mark, by `to_str`", by_to_str(), we_write_marked());
            row("header writer with mark, by `write_to`", by_write_to(), we_write_marked());
        }
        rows.push(size_row(format!("`size`{kind}"), Gix::Inlined, times));
    }
    rows.push(iso_writer());
    rows
}

/// `size` at each count of digits, for numbers from 0 up and negative ones, and for all of these in turn.
fn sizes<'a>() -> Vec<Row<'a>> {
    let seconds = |digits: u32, negative: bool, k: i64| {
        let least = if digits == 1 { i64::from(negative) } else { 10_i64.pow(digits - 1) };
        let count = 10_i64.saturating_pow(digits) - least;
        let number = least + k * (count / INPUTS).max(1) % count;
        if negative { -number } else { number }
    };
    let times = |number: &dyn Fn(i64) -> i64| (0..INPUTS).map(|k| (number(k), met(k).1)).collect();
    let mut rows = Vec::new();
    for (kind, negative, side) in
        [("", false, Gix::Inlined), (", negative", true, Gix::Inlined), (", both called", false, Gix::Called)]
    {
        for digits in 1..=19 {
            let plural = if digits == 1 { "" } else { "s" };
            let name = format!("`size` of {digits} digit{plural}{kind}");
            rows.push(size_row(name, side, times(&|k| seconds(digits, negative, k))));
        }
    }
    let in_turn: Vec<(i64, i32)> = times(&|k| seconds(1 + (k * 7 % 19) as u32, k % 3 == 0, k));
    rows.push(size_row("`size` of 1 to 19 digits in turn".to_string(), Gix::Inlined, in_turn.clone()));
    rows.push(size_row("`size` beside an empty call".to_string(), Gix::Empty, in_turn));
    rows
}

/// What stands in gix-date's place: its `size` compiled into the loop, as a Rust program has it; its `size` by a call, as
/// ours is; or a call that counts nothing, which is the least that any call takes.
#[derive(Clone, Copy)]
enum Gix {
    Inlined,
    Called,
    Empty,
}

#[inline(never)]
extern "C" fn gix_size(seconds: i64, offset: i32) -> usize {
    gix_date::Time::new(seconds, offset).size()
}

#[inline(never)]
extern "C" fn empty(_seconds: i64, offset: i32) -> usize {
    offset as usize
}

/// `size` on some times.
fn size_row<'a>(name: String, side: Gix, times: Vec<(i64, i32)>) -> Row<'a> {
    for (seconds, offset) in &times {
        assert_eq!(entries::size(*seconds, *offset), gix_size(*seconds, *offset), "{name}, {seconds}");
    }
    let (inputs, called) = (times.len(), times.clone());
    let inlined: Vec<gix_date::Time> = times.iter().map(|time| gix_date::Time::new(time.0, time.1)).collect();
    Row {
        name,
        inputs,
        gix: match side {
            Gix::Inlined => Box::new(move || {
                for time in &inlined {
                    black_box(black_box(*time).size());
                }
            }),
            Gix::Called => Box::new(move || {
                for time in &called {
                    let (seconds, offset) = black_box(*time);
                    black_box(gix_size(seconds, offset));
                }
            }),
            Gix::Empty => Box::new(move || {
                for time in &called {
                    let (seconds, offset) = black_box(*time);
                    black_box(empty(seconds, offset));
                }
            }),
        },
        ours: Box::new(move || {
            for time in &times {
                let (seconds, offset) = black_box(*time);
                black_box(entries::size(seconds, offset));
            }
        }),
    }
}

/// The ISO writer on common times. gix-date writes such a line by one of its formats, to a `String`.
fn iso_writer<'a>() -> Row<'a> {
    let times: Vec<(i64, i32)> = (0..INPUTS).map(met).collect();
    let gix_times: Vec<gix_date::Time> = times.iter().map(|time| gix_date::Time::new(time.0, time.1)).collect();
    let we_write = |seconds: i64, offset: i32| {
        let (mut room, mut length) = ([0; 25], 0);
        let number = entries::write_iso(seconds, offset, &mut room, &mut length);
        (number, length, room)
    };
    for (time, (seconds, offset)) in gix_times.iter().zip(&times) {
        let line = time.format(ISO8601_STRICT).expect("a time in range");
        assert_eq!(we_write(*seconds, *offset).2, line.as_bytes(), "ISO writer, {seconds} {offset}");
    }
    Row {
        name: "ISO writer".to_string(),
        inputs: times.len(),
        gix: Box::new(move || {
            for time in &gix_times {
                let _ = black_box(black_box(*time).format(ISO8601_STRICT));
            }
        }),
        ours: Box::new(move || {
            for (seconds, offset) in &times {
                black_box(we_write(black_box(*seconds), black_box(*offset)));
            }
        }),
    }
}

/// A text that can be made longer at one place.
struct Growing {
    name: &'static str,
    form: Form,
    before: &'static str,
    repeated: &'static str,
    after: &'static str,
}

const fn growing(
    name: &'static str,
    form: Form,
    before: &'static str,
    repeated: &'static str,
    after: &'static str,
) -> Growing {
    Growing { name, form, before, repeated, after }
}

const GROWING: &[Growing] = &[
    growing("header, leading zeros", Form::Header, "", "0", "1745582210 +0200"),
    growing("header, spaces between", Form::Header, "1745582210 ", " ", "+0200"),
    growing("header, further words", Form::Header, "1745582210 +0200", " x", ""),
    growing("header, letters after digits", Form::Header, "1745582210", "x", " +0200"),
    growing("header, a colon at the end", Form::Header, "1745582210 +0200 ", "x", ":"),
    growing("raw, leading zeros", Form::Raw, "", "0", "1745582210 +0200"),
    growing("raw, spaces after", Form::Raw, "1745582210 +0200", " ", ""),
    growing("ISO flexible, fraction", Form::Iso, "2008-02-14 20:30:45.", "0", " +0100"),
    growing("ISO flexible, no offset", Form::Iso, "2008-02-14 20:30:45.", "0", ""),
    growing("ISO flexible, parts of time", Form::Iso, "2008-02-14 20:30:45", ":0", ""),
    growing("ISO flexible, signs", Form::Iso, "2008-02-14 20:30:45.", "+", ""),
    growing("ISO flexible, spaces", Form::Iso, "2008-02-14 20:30:45", " ", "+0100"),
    growing("ISO flexible, offset of colons", Form::Iso, "2008-02-14 20:30:45 +01", ":", "00"),
    growing("ISO dotted, fraction", Form::Iso, "2008.02.14 20:30:45.", "0", " +0100"),
    growing("ISO compact, fraction", Form::Iso, "20080214T203045.", "0", "+0100"),
    growing("ISO, trimmed", Form::Iso, "", " ", "2008-02-14 20:30:45"),
    growing("relative, words passed over", Form::Relative, "2 days", " and", " ago"),
    growing("relative, separators", Form::Relative, "2", ".", "days ago"),
    growing("relative, leading zeros", Form::Relative, "", "0", "2 days ago"),
    growing("relative, a long word", Form::Relative, "2 days ", "x", " ago"),
    growing("relative, `ago`", Form::Relative, "2 months", " ago", ""),
    growing("relative, trimmed", Form::Relative, "", " ", "now"),
    growing("any, words passed over", Form::Any, "2 days", " and", " ago"),
    growing("any, fraction", Form::Any, "2008-02-14 20:30:45.", "0", " +0100"),
    growing("any, leading zeros", Form::Any, "@", "0", "5"),
    growing("any, refused", Form::Any, "no date", " x", ""),
];

impl Growing {
    /// The text at `times` its first length.
    fn text(&self, times: usize) -> String {
        let fixed = self.before.len() + self.after.len();
        let first = fixed + self.repeated.len();
        let count = (first * times - fixed) / self.repeated.len();
        format!("{}{}{}", self.before, self.repeated.repeat(count), self.after)
    }
}

/// The rows of the first table.
fn rows<'a>() -> Vec<Row<'a>> {
    readers().into_iter().chain(writers()).chain(sizes()).collect()
}

fn main() -> ExitCode {
    let words: Vec<String> = std::env::args().skip(1).collect();
    let words: Vec<&str> = words.iter().map(String::as_str).collect();
    match words.as_slice() {
        ["--help"] => println!("{HELP}"),
        ["--names"] => rows().iter().for_each(|row| println!("{}", row.name)),
        ["--run", side @ ("ours" | "gix-date"), passes, name] => {
            let row = rows().into_iter().find(|row| row.name == *name);
            let (Some(mut row), Ok(passes)) = (row, passes.parse::<u64>()) else {
                return usage("--run needs a number and the name of a row");
            };
            let pass = if *side == "ours" { &mut row.ours } else { &mut row.gix };
            (0..passes).for_each(|_| pass());
        }
        ["--rounds", rounds, chosen @ ..] => match rounds.parse() {
            Ok(rounds) if rounds > 0 => tables(rounds, chosen),
            _ => return usage("--rounds needs a number"),
        },
        [word, ..] if word.starts_with("--") => return usage("unknown option, or its words are missing"),
        chosen => tables(40, chosen),
    }
    ExitCode::SUCCESS
}

fn usage(what: &str) -> ExitCode {
    eprintln!("bench: {what}\n{HELP}");
    ExitCode::from(2)
}

fn tables(rounds: u32, chosen: &[&str]) {
    let is_chosen = |name: &str| chosen.is_empty() || chosen.iter().any(|word| name.contains(word));
    println!("{}; {}; best of {rounds} rounds\n", jiff::Zoned::now().date(), processor());
    println!("| what | gix-date, ns | ours, ns | times as fast |\n|---|---:|---:|---:|");
    for mut row in rows().into_iter().filter(|row| is_chosen(&row.name)) {
        let (gix, ours) = row.measure(rounds);
        println!("| {} | {} | {} | {:.1} |", row.name, shown(gix), shown(ours), gix / ours);
    }

    println!(
        "\nLonger texts: nanoseconds at 1, 10, 100 and 1000 times the length; growth is from 100 to 1000 times.\n"
    );
    println!(
        "| what | bytes at first | gix-date, ns | ours, ns | gix-date grows | ours grows | times as fast at 1000 |"
    );
    println!("|---|---:|---:|---:|---:|---:|---:|");
    for row in GROWING.iter().filter(|row| is_chosen(row.name)) {
        let times = [1, 10, 100, 1000].map(|times| reader(row.name, row.form, vec![row.text(times)]).measure(rounds));
        let list = |side: fn(&(f64, f64)) -> f64| times.each_ref().map(|pair| shown(side(pair))).join(" · ");
        let [.., (gix_100, ours_100), (gix_1000, ours_1000)] = times;
        println!(
            "| {} | {} | {} | {} | {:.1} | {:.1} | {:.1} |",
            row.name,
            row.text(1).len(),
            list(|pair| pair.0),
            list(|pair| pair.1),
            gix_1000 / gix_100,
            ours_1000 / ours_100,
            gix_1000 / ours_1000
        );
    }
}

/// Nanoseconds, to about three digits.
fn shown(time: f64) -> String {
    if time < 100.0 { format!("{time:.1}") } else { format!("{time:.0}") }
}

/// The model of the processor.
fn processor() -> String {
    let info = std::fs::read_to_string("/proc/cpuinfo").unwrap_or_default();
    let model = info.lines().find_map(|line| line.strip_prefix("model name")?.split_once(": "));
    model.map_or("an unknown processor", |(_, model)| model).to_string()
}
