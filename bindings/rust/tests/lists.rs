//! The lists of two build machines: front lines, merged books, reports, refusals, rooms. The answers were worked out by hand from
//! the words of RULES 15, none by running the library.

use chowderbell::lists::{self, Differing, ListsError, ListsError::*, Machine, Machine::*};
use chowderbell::{book, entries, Refusal};

const KEY: &str = "0123456789abcdef";
const OTHER: &str = "fedcba9876543210";
const THIRD: &str = "0000000000000000";

/// A line with this path, this key and these seconds.
fn line(path: &str, key: &str, seconds: i64) -> String {
    format!("hull\t{path}\t{key}\t{seconds} +0000\n")
}

fn a(seconds: i64) -> String {
    line("a", KEY, seconds)
}

fn b(seconds: i64) -> String {
    line("b", KEY, seconds)
}

/// A row of a report.
fn row(path: &str, first: &str, second: &str) -> String {
    format!("{path}\t{first}\t{second}\n")
}

/// Merges two lists into rooms that are long enough, whatever they hold.
fn merged(first: impl AsRef<[u8]>, second: impl AsRef<[u8]>) -> Result<(String, String), ListsError> {
    let (mut book, mut report) = (vec![0; lists::BOOK_MAX], vec![0; lists::REPORT_MAX]);
    let merged = lists::merged(first, second, &mut book, &mut report)?;
    Ok((merged.book.to_string(), merged.report.to_string()))
}

/// The lines of a list, of a book or of a report.
type Lines<'a> = &'a [String];

/// Merges every two lists, given as lines; prints those that differ with wanted and got, and fails if there are any.
fn hold(rows: &[(Lines, Lines, Lines, Lines)]) {
    let mut differ = 0;
    for (first, second, book, report) in rows {
        let got = merged(first.concat(), second.concat());
        let wanted = Ok((book.concat(), report.concat()));
        if got != wanted {
            println!("{first:?}, {second:?}\n  wanted {wanted:?}\n  got    {got:?}");
            differ += 1;
        }
    }
    assert_eq!(differ, 0, "rows differ");
}

#[test]
fn the_order_of_lines() {
    let minus = |path| line(path, KEY, 5).replace("+0000", "-0000");
    let offset = |offset| a(5).replace("+0000", offset);
    hold(&[
        (&[], &[], &[], &[]),
        (&[a(5)], &[], &[a(5)], &[]),
        (&[], &[a(5), b(6)], &[a(5), b(6)], &[]),
        (&[a(1)], &[b(2)], &[a(1), b(2)], &[]),
        (&[a(2)], &[b(1)], &[b(1), a(2)], &[]),
        // ties from the first machine, and each machine's lines in their order
        (&[b(5)], &[a(5)], &[b(5), a(5)], &[]),
        (&[b(5), a(5)], &[a(5), b(5)], &[b(5), a(5), a(5), b(5)], &[]),
        (&[a(1), a(5), a(9)], &[b(0), b(5), b(8)], &[b(0), a(1), a(5), b(5), b(8), a(9)], &[]),
        // the same line in both lists, and twice in one
        (&[a(5)], &[a(5)], &[a(5), a(5)], &[]),
        (&[a(5), a(5)], &[a(5)], &[a(5), a(5), a(5)], &[]),
        // seconds are numbers, and signed
        (&[a(10)], &[b(9)], &[b(9), a(10)], &[]),
        (&[a(-9)], &[b(-10)], &[b(-10), a(-9)], &[]),
        (&[a(-1)], &[b(1)], &[a(-1), b(1)], &[]),
        (&[a(i64::MAX)], &[b(i64::MIN)], &[b(i64::MIN), a(i64::MAX)], &[]),
        (&[a(i64::MIN), a(i64::MAX)], &[b(0)], &[a(i64::MIN), b(0), a(i64::MAX)], &[]),
        // neither the offset nor the mark counts
        (&[offset("-9959")], &[offset("+9959")], &[offset("-9959"), offset("+9959")], &[]),
        (&[offset("+9959")], &[offset("-9959")], &[offset("+9959"), offset("-9959")], &[]),
        (&[a(5)], &[minus("a")], &[a(5), minus("a")], &[]),
        (&[minus("a"), a(5), minus("b")], &[b(5)], &[minus("a"), a(5), minus("b"), b(5)], &[]),
    ]);
}

#[test]
fn the_report() {
    let (x, y) = (|seconds| line("a", OTHER, seconds), |seconds| line("b", OTHER, seconds));
    let (in_a, in_b) = (|| row("a", KEY, OTHER), || row("b", KEY, OTHER));
    let long = "x".repeat(255);
    hold(&[
        // the first machine's key first, whoever is earlier
        (&[a(1)], &[x(2)], &[a(1), x(2)], &[in_a()]),
        (&[a(2)], &[x(1)], &[x(1), a(2)], &[in_a()]),
        // a path of one list, and keys that are the same
        (&[a(1), x(2)], &[b(3)], &[a(1), x(2), b(3)], &[]),
        (&[a(1)], &[a(2)], &[a(1), a(2)], &[]),
        // the last keys count
        (&[x(1), a(2)], &[line("a", THIRD, 1), a(3)], &[x(1), line("a", THIRD, 1), a(2), a(3)], &[]),
        (&[a(1), x(2)], &[a(1), a(2)], &[a(1), a(1), x(2), a(2)], &[row("a", OTHER, KEY)]),
        (&[a(5), x(5)], &[x(5), a(5)], &[a(5), x(5), x(5), a(5)], &[row("a", OTHER, KEY)]),
        // once
        (&[a(1), a(2), a(3)], &[x(1), x(2)], &[a(1), x(1), a(2), x(2), a(3)], &[in_a()]),
        // by the first place in the merged book: not by path, and not in the order of either list
        (&[b(1), a(2)], &[x(3), y(4)], &[b(1), a(2), x(3), y(4)], &[in_b(), in_a()]),
        (&[a(2), b(2)], &[y(1), x(1)], &[y(1), x(1), a(2), b(2)], &[in_b(), in_a()]),
        (&[a(1), b(1)], &[y(1), x(1)], &[a(1), b(1), y(1), x(1)], &[in_a(), in_b()]),
        // b is first by a line of the second machine, with a key that is the first machine's
        (&[a(2), b(3)], &[b(1), x(2), y(4)], &[b(1), a(2), x(2), b(3), y(4)], &[in_b(), in_a()]),
        // paths are the same if all their bytes are
        (&[line("aa", KEY, 1)], &[x(1)], &[line("aa", KEY, 1), x(1)], &[]),
        (&[line("A", KEY, 1)], &[x(1)], &[line("A", KEY, 1), x(1)], &[]),
        (
            &[line(" ", KEY, 1)],
            &[line(" ", OTHER, 1)],
            &[line(" ", KEY, 1), line(" ", OTHER, 1)],
            &[row(" ", KEY, OTHER)],
        ),
        (
            &[line(&long, KEY, 1)],
            &[line(&long, OTHER, 1), line(&long[1..], OTHER, 1)],
            &[line(&long, KEY, 1), line(&long, OTHER, 1), line(&long[1..], OTHER, 1)],
            &[row(&long, KEY, OTHER)],
        ),
    ]);
}

#[test]
fn rows_are_read() {
    let (mut book, mut report) = ([0; 200], [0; 200]);
    let first = line("a b", KEY, 1) + &a(2);
    let second = line("a", OTHER, 1) + &line("a b", THIRD, 2);
    let merged = lists::merged(first, second, &mut book, &mut report).unwrap();
    let rows: Vec<_> = merged.differing().collect();
    let wanted =
        [Differing { path: "a b", first: KEY, second: THIRD }, Differing { path: "a", first: KEY, second: OTHER }];
    assert_eq!(rows, wanted);
    let merged = lists::merged("", "", &mut book, &mut report).unwrap();
    assert_eq!((merged.book, merged.report, merged.differing().count()), ("", "", 0));
}

#[test]
fn bad_lines_and_steps_back() {
    let good = a(5);
    let bad = [
        "\n".to_string(),
        "x\n".to_string(),
        "\r\n".to_string(),
        // a `since` line is good in a book
        "since\tnow\t5\t0\n".to_string(),
        // no newline at the end
        good.trim_end().to_string(),
        "h".to_string(),
        line("", KEY, 5),
        line(&"x".repeat(256), KEY, 5),
        line("a\u{1f}", KEY, 5),
        line("a\u{7f}", KEY, 5),
        line("\u{e9}", KEY, 5),
        line("a", &KEY[1..], 5),
        line("a", "0123456789abcdeF", 5),
        good.replace("5 +0000", "05 +0000"),
        good.replace("5 +0000", "5 +0060"),
        good.replace("5 +0000", "5 -000000"),
        good.replace("5 +0000", "-0 +0000"),
        good.replace("5 +0000", "9223372036854775808 +0000"),
        good.replace('\t', " "),
        // steps back
        a(4),
        a(-5),
        a(i64::MIN),
    ];
    for (place, piece) in bad.iter().enumerate() {
        // behind a good line; the same in the second list; in both
        let list = good.clone() + piece;
        assert_eq!(merged(&list, &good), Err(BadLine(First, 2)), "{place}: {piece:?}");
        assert_eq!(merged(&good, &list), Err(BadLine(Second, 2)), "{place}: {piece:?}");
        assert_eq!(merged(&list, "x\n"), Err(BadLine(First, 2)), "{place}: {piece:?}");
        // more behind it does not matter
        let list = list + "x\n\n" + &a(1);
        assert_eq!(merged(list, ""), Err(BadLine(First, 2)), "{place}: {piece:?}");
    }
    // the first line at fault, whichever it is
    assert_eq!(merged(a(5) + &a(4) + "x\n", ""), Err(BadLine(First, 2)));
    assert_eq!(merged(a(5) + &a(4) + "x", ""), Err(BadLine(First, 2)));
    assert_eq!(merged(a(5) + "x\n" + &a(4), ""), Err(BadLine(First, 2)));
    // a step back from the line above, and not from the first line or the latest
    assert_eq!(merged(a(1) + &a(3) + &a(2) + &a(1), ""), Err(BadLine(First, 3)));
    // equal seconds are no step back
    assert!(merged(a(5) + &b(5) + &a(5), a(5) + &a(5)).is_ok());
    // machine 1 before machine 2, a step back or a bad line
    assert_eq!(merged(a(5) + &a(6) + &a(5), "x\n"), Err(BadLine(First, 3)));
    assert_eq!(merged("x\n", a(5) + &a(4)), Err(BadLine(First, 1)));
}

#[test]
fn a_list_has_at_most_32768_bytes() {
    // 1,024 lines of 32 bytes
    let full = a(5).repeat(1024);
    let long = full.clone() + "\n";
    assert_eq!((full.len(), lists::MAX), (32768, 32768));
    assert_eq!(merged(&full, &full), Ok((full.repeat(2), String::new())));
    assert_eq!(merged(&long, ""), Err(TooLong(First)));
    assert_eq!(merged("", &long), Err(TooLong(Second)));
    assert_eq!(merged(&long, &long), Err(TooLong(First)));
    // both lengths first: no line is looked at
    assert_eq!(merged("x\n", &long), Err(TooLong(Second)));
    assert_eq!(merged(a(5) + &a(4), &long), Err(TooLong(Second)));
    assert_eq!(merged("\n".repeat(32769), ""), Err(TooLong(First)));
    assert_eq!(merged("\n".repeat(32768), ""), Err(BadLine(First, 1)));
    // the last byte is missing, or another
    assert_eq!(merged(&full[..32767], ""), Err(BadLine(First, 1024)));
    assert_eq!(merged(&full, full[..32767].to_string() + "x"), Err(BadLine(Second, 1024)));
}

/// 995 different paths in each list: 95 of one byte, 899 of two and one of 30, in lines of 31 bytes and the path.
#[test]
fn the_longest_report() {
    let printed: Vec<_> = (32..=126).map(char::from).collect();
    let mut names: Vec<_> = printed.iter().map(char::to_string).collect();
    names.extend(printed.iter().flat_map(|one| printed.iter().map(move |other| format!("{one}{other}"))).take(899));
    names.push("x".repeat(30));
    let list = |key| names.iter().map(|path| line(path, key, 5)).collect::<String>();
    let (first, second) = (list(KEY), list(OTHER));
    assert_eq!((first.len(), second.len()), (lists::MAX, lists::MAX));
    let report: String = names.iter().map(|path| row(path, KEY, OTHER)).collect();
    assert_eq!(report.len(), 36748);
    assert!(report.len() <= lists::REPORT_MAX);
    assert_eq!(merged(&first, &second), Ok((first.clone() + &second, report)));
    assert_eq!(first.len() + second.len(), lists::BOOK_MAX);
}

#[test]
fn the_merged_book_is_a_good_book_and_a_good_list() {
    let first = a(1) + &b(5) + &a(5) + &b(9);
    let second = line("c", KEY, 0) + &a(5) + &line("a", OTHER, 7);
    let (text, _) = merged(&first, &second).unwrap();
    assert_eq!(book::check(&text), Ok(()));
    assert_eq!(merged(&text, ""), Ok((text.clone(), String::new())));
    assert_eq!(merged("", &text), Ok((text.clone(), String::new())));

    // the earlier front lines, one after the other
    let front = |list: &str| list.find('\n').map_or(0, |end| end + 1);
    let (mut one, mut other, mut taken) = (&*first, &*second, Vec::new());
    while let Some((machine, line)) = lists::earlier(&one[..front(one)], &other[..front(other)]) {
        taken.extend_from_slice(line);
        match machine {
            First => one = &one[line.len()..],
            Second => other = &other[line.len()..],
        }
    }
    assert_eq!((one, other), ("", ""));
    assert_eq!(taken, text.as_bytes());
}

#[test]
fn the_earlier_front_line() {
    let long = line("a longer path", KEY, 5);
    for (first, second, wanted) in [
        (String::new(), String::new(), None),
        (a(5), String::new(), Some(First)),
        (String::new(), a(5), Some(Second)),
        (a(5), b(6), Some(First)),
        (a(6), b(5), Some(Second)),
        // the first machine's on a tie
        (a(5), long.clone(), Some(First)),
        (long.clone(), a(5), Some(First)),
        (a(5), a(5), Some(First)),
        (a(5).replace("+0000", "-9959"), a(5).replace("+0000", "+9959"), Some(First)),
        (a(-1), a(-10), Some(Second)),
        (a(i64::MAX), a(i64::MIN), Some(Second)),
        (a(9), a(10), Some(First)),
    ] {
        let got = lists::earlier(&first, &second);
        assert_eq!(got.map(|(machine, _)| machine), wanted, "{first:?}, {second:?}");
        if let Some((machine, line)) = got {
            // the caller's own bytes
            let own = if machine == First { &first } else { &second };
            assert_eq!((line.as_ptr(), line.len()), (own.as_ptr(), own.len()), "{first:?}, {second:?}");
        }
        assert_eq!(lists::fronts_check(&first, &second), Ok(()), "{first:?}, {second:?}");
    }
}

#[test]
fn bad_front_lines() {
    let good = a(5);
    let bad = [
        "x\n".to_string(),
        "\n".to_string(),
        "since\tnow\t5\t0\n".to_string(),
        good.trim_end().to_string(),
        // two lines, also if both are good
        a(5) + &a(6),
        a(5) + "\n",
        "\n".to_string() + &a(5),
        a(5) + "x",
        line("", KEY, 5),
        line(&"x".repeat(256), KEY, 5),
        a(5).repeat(1024),
        a(5).repeat(1025),
        "\0".repeat(100_000),
    ];
    for text in &bad {
        // a good line beside a bad one is not returned, and neither is an empty one
        for other in [&good, &String::new()] {
            assert_eq!(lists::fronts_check(text, other), Err(BadLine(First, 1)), "{text:?}, {other:?}");
            assert_eq!(lists::fronts_check(other, text), Err(BadLine(Second, 1)), "{text:?}, {other:?}");
            assert_eq!(lists::earlier(text, other), None, "{text:?}, {other:?}");
            assert_eq!(lists::earlier(other, text), None, "{text:?}, {other:?}");
        }
        for other in &bad {
            assert_eq!(lists::fronts_check(text, other), Err(BadLine(First, 1)), "{text:?}, {other:?}");
            assert_eq!(lists::earlier(text, other), None, "{text:?}, {other:?}");
        }
    }
}

#[test]
fn rooms_of_every_length() {
    let (first, second) = (a(1) + &b(3), line("a", OTHER, 2));
    let (text, rows) = (a(1) + &second + &b(3), row("a", KEY, OTHER));
    assert_eq!((text.len(), rows.len()), (96, 36));
    for length in 0..=text.len() + 1 {
        for report_length in 0..=rows.len() + 1 {
            let (mut book, mut report) = (vec![b'.'; length], vec![b'.'; report_length]);
            // a refusal changes no byte: a bad line, a step back, a list that is too long
            for (list, wanted) in [("x\n", BadLine(Second, 1)), (&*(b(3) + &a(1)), BadLine(Second, 2))] {
                assert_eq!(lists::merge(&first, list, &mut book, &mut report), Err(wanted));
            }
            assert_eq!(lists::merge("\n".repeat(32769), &second, &mut book, &mut report), Err(TooLong(First)));
            let dots = |room: &[u8]| room.iter().all(|byte| *byte == b'.');
            assert!(dots(&book) && dots(&report), "rooms of {length} and {report_length}: a refusal changed one");

            let enough = length >= text.len() && report_length >= rows.len();
            let wanted = if enough { Ok((text.len(), rows.len())) } else { Err(Room) };
            let got = lists::merge(&first, &second, &mut book, &mut report);
            assert_eq!(got, wanted, "rooms of {length} and {report_length}");
            let (written, reported) = wanted.unwrap_or((0, 0));
            assert_eq!(book[..written], text.as_bytes()[..written], "rooms of {length} and {report_length}");
            assert_eq!(report[..reported], rows.as_bytes()[..reported], "rooms of {length} and {report_length}");
            assert!(
                dots(&book[written..]) && dots(&report[reported..]),
                "rooms of {length} and {report_length}: beyond"
            );
        }
    }
    assert_eq!(lists::merge("", "", &mut [], &mut []), Ok((0, 0)));
    // no row, no room for a report
    assert_eq!(lists::merge(a(1), b(2), &mut [0; 64], &mut []), Ok((64, 0)));
}

#[test]
fn every_output_is_set() {
    let (good, other) = (a(5), line("a", OTHER, 6));
    let (back, long) = (a(5) + &a(6) + &a(5), "\n".repeat(32769));
    for (first, second, rooms, number, lengths, machine, line) in [
        (&good, &other, (99, 99), 0, (64, 36), 0, 0),
        (&good, &other, (63, 99), 8, (0, 0), 0, 0),
        (&good, &other, (99, 35), 8, (0, 0), 0, 0),
        (&back, &other, (0, 0), 12, (0, 0), 1, 3),
        (&good, &back, (99, 99), 12, (0, 0), 2, 3),
        (&long, &back, (99, 99), 12, (0, 0), 1, 0),
        (&back, &long, (99, 99), 12, (0, 0), 2, 0),
    ] {
        let (mut book, mut report) = (vec![b'.'; rooms.0], vec![b'.'; rooms.1]);
        let (mut got_lengths, mut got_machine, mut got_line) = ((77, 77), 77, 77);
        let got = entries::lists_merge(
            first.as_bytes(),
            second.as_bytes(),
            &mut book,
            &mut report,
            &mut got_lengths.0,
            &mut got_lengths.1,
            &mut got_machine,
            &mut got_line,
        );
        assert_eq!((got, got_lengths, got_machine, got_line), (number, lengths, machine, line));
        assert!(book[lengths.0..].iter().chain(&report[lengths.1..]).all(|byte| *byte == b'.'));
    }

    let bad = "x\n".to_string();
    let empty = String::new();
    for (first, second, check, earlier) in [
        (&good, &other, (0, 0, 0), (32, 1)),
        (&other, &good, (0, 0, 0), (32, 2)),
        (&empty, &empty, (0, 0, 0), (0, 0)),
        (&bad, &good, (12, 1, 1), (0, 0)),
        (&good, &bad, (12, 2, 1), (0, 0)),
        (&bad, &bad, (12, 1, 1), (0, 0)),
    ] {
        let (first, second) = (first.as_bytes(), second.as_bytes());
        let (mut machine, mut line) = (77, 77);
        let number = entries::fronts_check(first, second, &mut machine, &mut line);
        assert_eq!((number, machine, line), check);
        let mut machine = 77;
        assert_eq!((entries::fronts_earlier(first, second, &mut machine), machine), earlier);
    }
}

#[test]
fn errors_have_refusals_and_words() {
    for (error, refusal, machine, line, words) in [
        (TooLong(First), Refusal::Lists, Some(First), 0, "the list of machine 1 has more than 32768 bytes"),
        (
            BadLine(Second, 3),
            Refusal::Lists,
            Some(Second),
            3,
            "line 3 of machine 2 is bad, or earlier than the line above it",
        ),
        (Room, Refusal::Room, None, 0, "a room is shorter than the bytes to be written"),
    ] {
        assert_eq!((error.refusal(), error.machine(), error.line()), (refusal, machine, line));
        assert_eq!(error.to_string(), words);
    }
    assert_eq!((First.number(), Second.number()), (1, 2));
    assert_eq!([First, Second].map(|machine: Machine| machine.to_string()), ["machine 1", "machine 2"]);
}
