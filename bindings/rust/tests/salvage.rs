//! Damaged books: what is kept, what is reported, refusals, rooms. The answers were worked out by hand from the words of RULES 13
//! and of the request for salvaging, none by running the library.

use chowderbell::book::{self, BookError, BookError::*, Dropped, Lengths, SALVAGE_REPORT_MAX};
use chowderbell::entries;

/// A hull line with this path and these seconds, of 31 bytes and a newline if both have one byte.
fn hull(path: &str, seconds: i64) -> String {
    format!("hull\t{path}\t0123456789abcdef\t{seconds} +0000\n")
}

/// Two lines of 31 bytes and a newline.
fn a() -> String {
    hull("a", 5)
}

fn b() -> String {
    hull("b", 6)
}

/// A line of 13 bytes and a newline, whose cut-off is these seconds.
fn since(seconds: u8) -> String {
    format!("since\tnow\t{seconds}\t0\n")
}

/// A line without its newline.
fn bare(line: String) -> String {
    line.trim_end().to_string()
}

/// The lines kept, the report and the last bad number, from rooms that are always long enough.
fn salvaged(text: impl AsRef<[u8]>) -> Result<(String, String, usize), BookError> {
    let (mut room, mut report) = (vec![0; text.as_ref().len()], vec![0; 8 * text.as_ref().len()]);
    let salvaged = book::salvaged(text, &mut room, &mut report)?;
    Ok((salvaged.book.to_string(), salvaged.report.to_string(), salvaged.last_bad))
}

/// Salvages every book; prints those that differ with wanted and got, and fails if there are any.
fn hold<B: AsRef<[u8]>>(rows: impl IntoIterator<Item = (B, String, &'static str, usize)>) {
    let mut differ = 0;
    for (text, kept, report, last_bad) in rows {
        let got = salvaged(&text);
        let wanted = Ok((kept, report.to_string(), last_bad));
        if got != wanted {
            println!("\"{}\"\n  wanted {wanted:?}\n  got    {got:?}", text.as_ref().escape_ascii());
            differ += 1;
        }
    }
    assert_eq!(differ, 0, "rows differ");
}

#[test]
fn good_books_come_out_the_same() {
    for text in [
        String::new(),
        a(),
        since(0),
        a() + &since(9) + &b(),
        // a line that is there twice, and times that fall
        b() + &a() + &a() + &b(),
        hull(&"x".repeat(255), i64::MIN),
        a().repeat(2048),
    ] {
        assert_eq!(salvaged(&text), Ok((text, String::new(), 0)));
    }
}

#[test]
fn bad_lines_are_dropped_and_reported() {
    hold([
        ("\n".to_string(), String::new(), "1\t0\n", 1),
        ("\n\n".to_string(), String::new(), "1\t0\n2\t0\n", 2),
        ("xyz\n".to_string(), String::new(), "1\t3\n", 1),
        ("x\n".to_string() + &a() + &b(), a() + &b(), "1\t1\n", 1),
        (a() + "x\n" + &b(), a() + &b(), "2\t1\n", 2),
        (a() + &b() + "x\n", a() + &b(), "3\t1\n", 3),
        (a() + "\n" + &b() + "\n" + &since(5), a() + &b() + &since(5), "2\t0\n4\t0\n", 4),
        // the order of a book is not that of a list, and since lines are kept
        (b() + "x\n" + &a() + &since(9) + &a(), b() + &a() + &since(9) + &a(), "2\t1\n", 2),
        // half a line in the middle: with its newline, and run into the line below
        (a() + "hull\tships/cog\n" + &b(), a() + &b(), "2\t14\n", 2),
        (a() + "hull\tships/cog" + &b() + &since(5), a() + &since(5), "2\t45\n", 2),
        // the newline between two lines is lost
        (bare(a()) + &b() + &since(5), since(5), "1\t62\n", 1),
        // forms that a loose reader takes
        (a().to_uppercase() + &b(), b(), "1\t31\n", 1),
        (a().replace('\t', " ") + &b(), b(), "1\t31\n", 1),
        (hull("", 5) + &hull(&"x".repeat(256), 5) + &b(), b(), "1\t30\n2\t286\n", 2),
        ("since\tthen\t0\t0\nsince\tnow\t00\t0\n".to_string() + &a(), a(), "1\t14\n2\t14\n", 2),
    ]);
}

#[test]
fn a_last_piece_is_bad() {
    hold([
        ("x".to_string(), String::new(), "1\t1\n", 1),
        // even if its bytes would do; with its full length
        (bare(a()), String::new(), "1\t31\n", 1),
        (bare(since(5)), String::new(), "1\t13\n", 1),
        (a() + &bare(b()), a(), "2\t31\n", 2),
        (a() + " ", a(), "2\t1\n", 2),
        (a() + "\n" + "x", a(), "2\t0\n3\t1\n", 3),
        // an empty one is no line
        (a() + "x\n", a(), "2\t1\n", 2),
    ]);
}

#[test]
fn bytes_that_are_no_text() {
    let zeros = |count| vec![0; count];
    let join = |parts: &[&[u8]]| parts.concat();
    hold([
        (join(&[a().as_bytes(), &zeros(512), b().as_bytes()]), a(), "2\t543\n", 2),
        (join(&[a().as_bytes(), &zeros(4096)]), a(), "2\t4096\n", 2),
        (join(&[a().as_bytes(), &zeros(3), b"\n", b().as_bytes()]), a() + &b(), "2\t3\n", 2),
        // a zero does not end a line, and a byte of 128 or more is bad like any other
        (join(&[bare(a()).as_bytes(), b"\0\n", b().as_bytes()]), b(), "1\t32\n", 1),
        (join(&[b"\xff\xfe\n", b().as_bytes(), b"\x80"]), b(), "1\t2\n3\t1\n", 3),
        // bytes and not characters are counted
        ("\u{e9}\u{2028}\n".as_bytes().to_vec(), String::new(), "1\t5\n", 1),
        // a carriage return is a byte of the line
        (a().replace('\n', "\r\n").into_bytes(), String::new(), "1\t32\n", 1),
        (join(&[a().as_bytes(), b"\r\n", b().as_bytes()]), a() + &b(), "2\t1\n", 2),
        (a().replace('\n', "\r").into_bytes(), String::new(), "1\t32\n", 1),
    ]);
}

#[test]
fn numbers_and_lengths_of_more_digits() {
    hold([
        (a().repeat(9) + "\n" + &a(), a().repeat(10), "10\t0\n", 10),
        (a().repeat(98) + "\n\n", a().repeat(98), "99\t0\n100\t0\n", 100),
        ("x".repeat(9) + "\n" + &"x".repeat(10), String::new(), "1\t9\n2\t10\n", 2),
        ("x".repeat(99) + "\n" + &"x".repeat(100), String::new(), "1\t99\n2\t100\n", 2),
        ("x".repeat(65535) + "\n", String::new(), "1\t65535\n", 1),
        ("x".repeat(65536), String::new(), "1\t65536\n", 1),
    ]);
}

/// 9 numbers of one digit, 90 of two, 900 of three, 9,000 of four and 55,537 of five, each with three bytes more.
#[test]
fn the_longest_report() {
    assert_eq!(9 + 2 * 90 + 3 * 900 + 4 * 9000 + 5 * 55537 + 3 * 65536, SALVAGE_REPORT_MAX);
    let text = "\n".repeat(65536);
    let rows: String = (1..=65536).map(|number| format!("{number}\t0\n")).collect();
    let (mut room, mut report) = (Vec::new(), vec![0; SALVAGE_REPORT_MAX]);
    let salvaged = book::salvaged(&text, &mut room, &mut report).unwrap();
    assert!(salvaged.report == rows && salvaged.book.is_empty());
    assert_eq!(salvaged.last_bad, 65536);
    report.pop();
    assert_eq!(book::salvage(&text, &mut room, &mut report), Err(Room));
}

#[test]
fn a_book_has_at_most_65536_bytes() {
    let (mut room, mut report) = (vec![b'.'; 70000], vec![b'.'; 600_000]);
    for text in [a().repeat(2048) + "\n", a().repeat(2049), "\n".repeat(65537), "x".repeat(65537)] {
        assert_eq!(book::salvage(&text, &mut room, &mut report), Err(TooLong));
        // it is tested before the rooms
        assert_eq!(book::salvage(&text, &mut [], &mut []), Err(TooLong));
    }
    assert!(room.iter().chain(&report).all(|byte| *byte == b'.'), "a refusal changed a room");
}

#[test]
fn a_dropped_since_line_changes_the_listing() {
    let listing = |text: &str| book::listing(text, &mut [0; 200]).map(str::to_string);
    // the second since line is damaged, so that the hull falls under the first
    for (first, second, before, after) in [(0, 9, "", &*a()), (9, 0, &*a(), "")] {
        let whole = since(first) + &since(second) + &a();
        let damaged = since(first) + &since(second).replace("now", "n\0w") + &a();
        assert_eq!(listing(&whole).as_deref(), Ok(before));
        let (kept, report, _) = salvaged(&damaged).unwrap();
        assert_eq!((kept.as_str(), report.as_str()), ((since(first) + &a()).as_str(), "2\t13\n"));
        assert_eq!(listing(&kept).as_deref(), Ok(after));
    }
}

/// A book of 141 bytes, cut at every byte and with every byte changed: what must hold for every book.
#[test]
fn what_is_kept_is_a_good_book() {
    let text = since(5) + &a() + &b() + &since(9) + &hull("ships/cog", 1745582210);
    let mut books: Vec<Vec<u8>> = (0..=text.len()).map(|end| text.as_bytes()[..end].to_vec()).collect();
    for place in 0..text.len() {
        for byte in [0, b'\n', b'\t', b'\r', b' ', b'5', b'x', 0xff] {
            let mut changed = text.clone().into_bytes();
            changed[place] = byte;
            books.push(changed);
        }
    }
    assert!(books.len() > 1000);
    for damaged in books {
        let (kept, report, last_bad) = salvaged(&damaged).unwrap();
        let name = damaged.escape_ascii();
        assert_eq!(book::check(&kept), Ok(()), "{name}");
        assert_eq!(salvaged(&kept), Ok((kept.clone(), String::new(), 0)), "{name}");
        let lines = damaged.split_inclusive(|byte| *byte == b'\n').count();
        assert_eq!(kept.lines().count() + report.lines().count(), lines, "{name}");
        // the first row has the line that a check names
        let first = report.split('\t').next().unwrap().parse().unwrap_or(0);
        assert_eq!(book::check(&damaged).map_or_else(BookError::line, |()| 0), first, "{name}");
        assert_eq!(last_bad == 0, report.is_empty(), "{name}");
    }
}

#[test]
fn rows_are_read() {
    let text = a() + "x\n" + &b() + "\n" + "12345678901";
    let (mut room, mut report) = (vec![0; text.len()], vec![0; 100]);
    let salvaged = book::salvaged(&text, &mut room, &mut report).unwrap();
    let rows = [(2, 1), (4, 0), (5, 11)].map(|(line, length)| Dropped { line, length });
    assert!(salvaged.dropped().eq(rows));
    assert_eq!(salvaged.last_bad, 5);
}

#[test]
fn rooms_of_every_length() {
    let text = a() + "x\n" + &b() + "yz";
    let (kept, rows) = (a() + &b(), "2\t1\n4\t2\n");
    assert_eq!((text.len(), kept.len(), rows.len()), (68, 64, 8));
    let dots = |room: &[u8]| room.iter().all(|byte| *byte == b'.');
    // also as many bytes as the book has, and 8 times as many, with which it is not measured first
    for length in (0..=kept.len() + 1).chain([67, 68, 69]) {
        for report_length in (0..=rows.len() + 1).chain([543, 544, 545]) {
            let (mut room, mut report) = (vec![b'.'; length], vec![b'.'; report_length]);
            assert_eq!(book::salvage("\n".repeat(65537), &mut room, &mut report), Err(TooLong));
            assert!(dots(&room) && dots(&report), "rooms of {length} and {report_length}: a refusal changed one");

            let enough = length >= kept.len() && report_length >= rows.len();
            let wanted = if enough { Ok(Lengths { book: 64, report: 8, last_bad: 4 }) } else { Err(Room) };
            let got = book::salvage(&text, &mut room, &mut report);
            assert_eq!(got, wanted, "rooms of {length} and {report_length}");
            let (written, reported) = wanted.map_or((0, 0), |lengths| (lengths.book, lengths.report));
            assert_eq!(room[..written], kept.as_bytes()[..written], "rooms of {length} and {report_length}");
            assert_eq!(report[..reported], rows.as_bytes()[..reported], "rooms of {length} and {report_length}");
            let beyond = dots(&room[written..]) && dots(&report[reported..]);
            assert!(beyond, "rooms of {length} and {report_length}: a byte beyond was changed");
        }
    }
    assert_eq!(book::salvage("", &mut [], &mut []), Ok(Lengths { book: 0, report: 0, last_bad: 0 }));
    // no bad line, no room for a report; no good line, no room for lines
    assert_eq!(book::salvage(a(), &mut [0; 32], &mut []), Ok(Lengths { book: 32, report: 0, last_bad: 0 }));
    assert_eq!(book::salvage("\n", &mut [], &mut [0; 4]), Ok(Lengths { book: 0, report: 4, last_bad: 1 }));
}

#[test]
fn every_output_is_set() {
    let (text, long) = (a() + "x\n", "\n".repeat(65537));
    for (text, rooms, number, lengths, last_bad) in [
        (&text, (99, 999), 0, (32, 4), 2),
        (&text, (32, 4), 0, (32, 4), 2),
        (&text, (31, 4), 8, (0, 0), 0),
        (&text, (32, 3), 8, (0, 0), 0),
        (&a(), (32, 0), 0, (32, 0), 0),
        (&long, (99, 999), 10, (0, 0), 0),
        (&long, (0, 0), 10, (0, 0), 0),
    ] {
        let (mut room, mut report) = (vec![b'.'; rooms.0], vec![b'.'; rooms.1]);
        let (mut got_lengths, mut got_last_bad) = ((77, 77), 77);
        let got = entries::book_salvage(
            text.as_bytes(),
            &mut room,
            &mut report,
            &mut got_lengths.0,
            &mut got_lengths.1,
            &mut got_last_bad,
        );
        assert_eq!((got, got_lengths, got_last_bad), (number, lengths, last_bad));
        assert!(room[lengths.0..].iter().chain(&report[lengths.1..]).all(|byte| *byte == b'.'));
    }
}
