//! Books of stamps: good and bad lines, cut-offs, rooms. One row is one case. The answers were worked out by hand from
//! RULES 13, none by running the library.

use chowderbell::book::{self, BookError, BookError::*};
use chowderbell::{entries, Refusal, Time, PAIRS_MAX};

/// A hull line with this time.
fn hull(time: &str) -> String {
    format!("hull\tships/cog\t0123456789abcdef\t{time}\n")
}

/// A hull line with this path.
fn path(path: &str) -> String {
    format!("hull\t{path}\t0123456789abcdef\t5 +0000\n")
}

/// A hull line with this key.
fn key(key: &str) -> String {
    format!("hull\tships/cog\t{key}\t5 +0000\n")
}

/// A line whose cut-off is these seconds.
fn since(seconds: i64) -> String {
    format!("since\tnow\t{seconds}\t0\n")
}

/// Checks every book, prints those whose answers differ with the book, wanted and got, and fails if there are any. Also
/// holds a listing and the compacted book to the same answer, in a room as long as the book.
fn hold<B: AsRef<[u8]>>(rows: impl IntoIterator<Item = (B, Result<(), BookError>)>) {
    let mut differ = 0;
    for (text, wanted) in rows {
        let text = text.as_ref();
        let got = book::check(text);
        let listed = book::list(text, &mut vec![0; text.len()]).map(|_| ());
        let compacted = book::compact(text, &mut vec![0; text.len()]).map(|_| ());
        if (got, listed, compacted) != (wanted, wanted, wanted) {
            println!("\"{}\"\n  wanted {wanted:?}\n  got    {got:?}, {listed:?}, {compacted:?}", text.escape_ascii());
            differ += 1;
        }
    }
    assert_eq!(differ, 0, "rows differ");
}

/// The numbers, from 1, of the lines that are listed. The path of each hull is made the number of its line, so that no two
/// lines are the same.
fn listed(lines: &[String]) -> Vec<usize> {
    let lines: Vec<_> = (1..).zip(lines).map(|(n, line)| line.replace("ships/cog", &format!("{n}"))).collect();
    let text = lines.concat();
    let mut room = vec![0; text.len()];
    let listing = book::listing(&text, &mut room).unwrap();
    let number = |line| 1 + lines.iter().position(|other| other == line).expect("a line of the book");
    listing.split_inclusive('\n').map(number).collect()
}

/// The numbers, from 1, of the lines that stay when a book is compacted. The key of each hull is made the number of its
/// line, so that no two hulls are the same. Equal `since` lines are told apart by their order.
fn stay(lines: &[String]) -> Vec<usize> {
    let lines: Vec<_> =
        (1..).zip(lines).map(|(n, line)| line.replace("0123456789abcdef", &format!("{n:016x}"))).collect();
    let text = lines.concat();
    let mut room = vec![0; text.len()];
    let compacted = book::compacted(&text, &mut room).unwrap();
    let mut above = 0;
    compacted
        .split_inclusive('\n')
        .map(|line| {
            above += 1 + lines[above..].iter().position(|other| other == line).expect("a line further down");
            above
        })
        .collect()
}

#[test]
fn good_books() {
    hold([
        (String::new(), Ok(())),
        (hull("1745582210 +0200"), Ok(())),
        (since(1745582210), Ok(())),
        (hull("5 +0000") + &since(9) + &hull("5 +0000"), Ok(())),
        // the same path and the same line may come again
        (hull("5 +0000") + &hull("5 +0000") + &hull("4 +0000"), Ok(())),
    ]);
}

#[test]
fn paths() {
    let bytes = |range: std::ops::RangeInclusive<u8>| range.map(char::from).collect::<String>();
    hold([
        (path("a"), Ok(())),
        (path(&"a".repeat(255)), Ok(())),
        (path(&"a".repeat(256)), Err(BadLine(1))),
        (path(""), Err(BadLine(1))),
        (path(&bytes(32..=126)), Ok(())),
        (path(" "), Ok(())),
        (path("~"), Ok(())),
        (path("ships\\cog.hull"), Ok(())),
        (path("hull"), Ok(())),
        (path("a\x1f"), Err(BadLine(1))),
        (path("a\x7f"), Err(BadLine(1))),
        (path("a\0"), Err(BadLine(1))),
        (path("a\r"), Err(BadLine(1))),
        (path("a\u{e9}"), Err(BadLine(1))),
        // a tab ends the path, a newline the line
        (path("a\tb"), Err(BadLine(1))),
        (path("a\nb"), Err(BadLine(1))),
    ]);
}

#[test]
fn keys() {
    hold([
        (key("0000000000000000"), Ok(())),
        (key("fedcba9876543210"), Ok(())),
        (key("0123456789abcde"), Err(BadLine(1))),
        (key("0123456789abcdef0"), Err(BadLine(1))),
        (key(""), Err(BadLine(1))),
        (key("0123456789abcdeF"), Err(BadLine(1))),
        (key("0123456789abcdeg"), Err(BadLine(1))),
        (key("0123456789abcde`"), Err(BadLine(1))),
        (key("0123456789abcde/"), Err(BadLine(1))),
        (key("0123456789abcde:"), Err(BadLine(1))),
        (key("0x23456789abcdef"), Err(BadLine(1))),
        (key(" 123456789abcdef"), Err(BadLine(1))),
    ]);
}

#[test]
fn times() {
    let good = [
        "0 +0000",
        "5 +0130",
        "5 -0130",
        "5 +0001",
        "5 -0001",
        "5 +0059",
        // offset 0 with the mark is written so
        "0 -0000",
        "5 -0000",
        "-9223372036854775808 -0000",
        "-1 -9959",
        // any seconds and any offset that the header writer takes
        "9223372036854775807 +9959",
        "-9223372036854775808 -9959",
    ];
    let bad = [
        "",
        "5",
        "5 ",
        // seconds of an offset are not written, and no sign but the first
        "5 -000000",
        "5 +000000",
        "5 -00-0",
        "5 -+0+0",
        "5 -0060",
        "5 -000",
        "-0 -0000",
        // offset 5400 is written +0130
        "5 +0090",
        "5 +0060",
        "5 +0099",
        "5 +013000",
        "5 +0130 ",
        " 5 +0130",
        "5  +0130",
        "5\u{b}+0130",
        "5 +130",
        "5 0130",
        "5 +01:30",
        "5 +013a",
        "5 +013\0",
        "5 +10000",
        "05 +0130",
        "00 +0000",
        "+5 +0130",
        "-0 +0000",
        "-05 +0000",
        "--5 +0000",
        "5a +0130",
        "5 +0130a",
        "5 +0130\r",
        "9223372036854775808 +0000",
        "-9223372036854775809 +0000",
        "2008-02-14T20:30:45+00:00",
        "now",
    ];
    hold(good.map(|time| (hull(time), Ok(()))));
    hold(bad.map(|time| (hull(time), Err(BadLine(1)))));
}

/// RULES 13.5: a time may end in `-0000`, and such a line stays byte for byte. The mark does not matter to a cut-off.
#[test]
fn times_with_the_mark() {
    let lines =
        [hull("5 -0000"), since(5), hull("4 -0000"), hull("5 -0000"), hull("5 +0000"), since(6), hull("5 -0000")];
    assert_eq!(listed(&lines), [1, 4, 5]);
    assert_eq!(stay(&lines), [2, 6, 7]);
    let mut room = [0; 64];
    let listing = book::listing(&lines[0], &mut room).unwrap();
    let time = listing.trim_end().rsplit('\t').next().map(str::parse);
    assert_eq!(time, Some(Ok(Time::with_mark(5, 0, true))));
}

#[test]
fn since_lines() {
    let good: [&[u8]; 18] = [
        b"since\tnow\t0\t0\n",
        b"since\tyesterday\t1745582210\t7200\n",
        b"since\t2 weeks ago\t1745582210\t-18000\n",
        b"since\t1 month\t1622462400\t0\n",
        // the numbers that have to be plain are the two fields behind the text
        b"since\t007 days ago\t0\t0\n",
        b"since\t+3 days ago\t0\t0\n",
        // white space and other bytes of the text are as for a relative date
        b"since\t now \t0\t0\n",
        b"since\t1\rday\0\t0\t0\n",
        b"since\tnow\r\t0\t0\n",
        b"since\tnow\t-5\t0\n",
        // seconds and offset of the current time at the ends of their ranges
        b"since\tnow\t253402207200\t0\n",
        b"since\tnow\t-377705023201\t0\n",
        b"since\tnow\t0\t93599\n",
        b"since\tnow\t0\t-93599\n",
        b"since\tnow\t0\t-30\n",
        b"since\t0 seconds\t-377705023201\t0\n",
        b"since\t2 ago ago\t0\t0\n",
        b"since\tlast week\t0\t0\n",
    ];
    let bad: [&[u8]; 33] = [
        // refused by 4, also where nothing is subtracted
        b"since\tnow\t253402207201\t0\n",
        b"since\tnow\t-377705023202\t0\n",
        b"since\tnow\t0\t93600\n",
        b"since\tnow\t0\t-93600\n",
        b"since\tnow\t9223372036854775807\t0\n",
        b"since\tnow\t0\t2147483647\n",
        // refused by 6
        b"since\t1 second\t-377705023201\t0\n",
        b"since\tyesterday\t-377705023201\t0\n",
        b"since\t9223372036854775807 weeks\t0\t0\n",
        // refused by 2
        b"since\t\t0\t0\n",
        b"since\tx\t0\t0\n",
        b"since\t2 ago\t0\t0\n",
        b"since\t1745582210 +0200\t0\t0\n",
        b"since\t2008-02-14 20:30:45\t0\t0\n",
        // refused by 1
        b"since\t1 day \xc3\xa9\t0\t0\n",
        b"since\tnow\x80\t0\t0\n",
        // numbers that are not plain, or too large
        b"since\tnow\t+5\t0\n",
        b"since\tnow\t05\t0\n",
        b"since\tnow\t-0\t0\n",
        b"since\tnow\t\t0\n",
        b"since\tnow\t5 \t0\n",
        b"since\tnow\t5\t+0\n",
        b"since\tnow\t5\t00\n",
        b"since\tnow\t5\t-0\n",
        b"since\tnow\t5\t\n",
        b"since\tnow\t5\t0 \n",
        b"since\tnow\t5\t0\r\n",
        b"since\tnow\t5\t+0000\n",
        b"since\tnow\t9223372036854775808\t0\n",
        b"since\tnow\t5\t4294967296\n",
        // three fields; five; a tab in the text
        b"since\tnow\t5\n",
        b"since\tnow\t5\t0\t\n",
        b"since\t1\tday\t5\t0\n",
    ];
    hold(good.map(|line| (line, Ok(()))));
    hold(bad.map(|line| (line, Err(BadLine(1)))));
    let pairs = |count| format!("since\t{}\t0\t0\n", "1 day ".repeat(count));
    hold([(pairs(33), Ok(())), (pairs(PAIRS_MAX), Ok(())), (pairs(PAIRS_MAX + 1), Err(BadLine(1)))]);
}

#[test]
fn other_lines() {
    hold(
        [
            "\n",
            "\r\n",
            " \n",
            "\t\n",
            "hull\n",
            "hull\t\n",
            "hull\ta\t0123456789abcdef\n",
            "hull\ta\t0123456789abcdef\t\n",
            "hull\ta\t0123456789abcdef\t5 +0000\t\n",
            "hull\ta\t0123456789abcdef\t5 +0000\tx\n",
            "hull a 0123456789abcdef 5 +0000\n",
            "Hull\ta\t0123456789abcdef\t5 +0000\n",
            " hull\ta\t0123456789abcdef\t5 +0000\n",
            "hulls\ta\t0123456789abcdef\t5 +0000\n",
            "\ta\t0123456789abcdef\t5 +0000\n",
            "hull\t\ta\t0123456789abcdef\t5 +0000\n",
            "since\n",
            "since\t\n",
            "Since\tnow\t0\t0\n",
            "since \tnow\t0\t0\n",
            "# a comment\n",
            "hull\tnow\t0\t0\n",
            "since\ta\t0123456789abcdef\t5 +0000\n",
        ]
        .map(|line| (line, Err(BadLine(1)))),
    );
}

#[test]
fn the_first_bad_line_is_named() {
    let good = hull("5 +0000");
    let cut = good.trim_end().to_string();
    hold([
        // an empty line is bad, and so is a good line without its newline
        (good.clone() + "\n", Err(BadLine(2))),
        (good.clone() + "\n" + &good, Err(BadLine(2))),
        (cut.clone(), Err(BadLine(1))),
        (good.clone() + &cut, Err(BadLine(2))),
        (good.clone() + &since(5) + "since\tnow\t0\t0", Err(BadLine(3))),
        (good.clone() + "h", Err(BadLine(2))),
        (good.clone() + "\0", Err(BadLine(2))),
        (good.clone() + "x\n\n" + &cut, Err(BadLine(2))),
        (since(5) + &good + &since(5) + "x\ny\n", Err(BadLine(4))),
        (good.repeat(1000) + "x", Err(BadLine(1001))),
        (good.repeat(1000) + "\n" + &good.repeat(9), Err(BadLine(1001))),
    ]);
}

#[test]
fn a_book_has_at_most_65536_bytes() {
    // 4,680 lines of 14 bytes and one of 16
    let full = since(5).repeat(4680) + &since(500);
    assert_eq!((since(5).len(), full.len()), (14, 65536));
    hold([
        (full.clone(), Ok(())),
        // 10 at line 0 is tested first: neither the last line nor the first is looked at
        (full.clone() + "\n", Err(TooLong)),
        (full.clone() + &since(5), Err(TooLong)),
        ("\n".repeat(65536), Err(BadLine(1))),
        ("\n".repeat(65537), Err(TooLong)),
        ("\0".repeat(1 << 20), Err(TooLong)),
        // the last byte is missing
        (full[..65535].to_string(), Err(BadLine(4681))),
    ]);
    assert_eq!(book::MAX, 65536);
    let mut room = vec![b'.'; book::MAX];
    assert_eq!(book::list(&full, &mut room), Ok(0));
    assert!(room.iter().all(|byte| *byte == b'.'));
}

#[test]
fn a_full_book_is_listed() {
    // 37 bytes to a line: 1,771 lines take 65,527
    let lines = path("galleo").repeat(1771);
    assert_eq!(lines.len(), 65527);
    let mut room = vec![0; book::MAX];
    assert_eq!(book::listing(&lines, &mut room), Ok(&*lines));
}

#[test]
fn cut_offs() {
    let hulls = ["4 +0000", "5 +0000", "6 +0000"].map(hull);
    let [four, five, six] = hulls.clone();
    // without `since` all are listed
    assert_eq!(listed(&hulls), [1, 2, 3]);
    assert_eq!(listed(&[]), []);
    assert_eq!(listed(&[since(5)]), []);
    // a hull at the cut-off is listed
    assert_eq!(listed(&[since(5), four.clone(), five.clone(), six.clone()]), [3, 4]);
    // a cut-off is for the lines below it
    assert_eq!(listed(&[four.clone(), since(5), four.clone(), five.clone()]), [1, 4]);
    assert_eq!(listed(&[four.clone(), five.clone(), since(5)]), [1, 2]);
    // the last cut-off above counts, and neither the first nor the latest time
    assert_eq!(listed(&[since(9), since(1), five.clone()]), [3]);
    assert_eq!(listed(&[since(1), since(9), five.clone()]), []);
    assert_eq!(listed(&[since(9), five.clone(), since(1), five.clone(), since(6), five.clone(), six.clone()]), [4, 7]);
    // seconds are compared, and neither the clock at the offset nor the bytes
    assert_eq!(listed(&[since(5), hull("5 -9959"), hull("4 +9959")]), [2]);
    assert_eq!(listed(&[since(9), hull("10 +0000")]), [2]);
    assert_eq!(listed(&[since(-5), hull("-6 +0000"), hull("-5 +0000"), hull("-4 +0000")]), [3, 4]);
    let ends = ["-9223372036854775808 +0000", "9223372036854775807 +0000"].map(hull);
    assert_eq!(listed(&[since(0), ends[0].clone(), ends[1].clone()]), [3]);
    assert_eq!(listed(&ends), [1, 2]);
    // the cut-off is what the text means at its current time: noon of 31 May 2021 less a month is noon of 1 May
    let month = "since\t1 month ago\t1622462400\t0\n".to_string();
    assert_eq!(listed(&[month, hull("1619870399 +0000"), hull("1619870400 +0000")]), [3]);
    let day = "since\tyesterday\t86405\t7200\n".to_string();
    assert_eq!(listed(&[day, four, five]), [3]);
}

#[test]
fn a_listing_is_a_good_book_that_lists_itself() {
    let text = hull("1 +0200") + &since(5) + &hull("4 +0000") + &path("a cog") + &since(0) + &hull("3 -0030");
    let (mut room, mut again) = (vec![0; text.len()], vec![0; text.len()]);
    let listing = book::listing(&text, &mut room).unwrap();
    assert_eq!(listing, hull("1 +0200") + &path("a cog") + &hull("3 -0030"));
    assert_eq!(book::check(listing), Ok(()));
    assert_eq!(book::listing(listing, &mut again), Ok(listing));
}

#[test]
fn rooms_of_every_length() {
    let text = since(5) + &hull("4 +0000") + &hull("5 +0000") + &hull("6 +0000");
    let listing = hull("5 +0000") + &hull("6 +0000");
    for length in 0..=text.len() + 1 {
        let mut room = vec![b'.'; length];
        // the room asked for is that of the listing, and not of the book
        let wanted = if length < listing.len() { Err(Room) } else { Ok(listing.len()) };
        assert_eq!(book::list(&text, &mut room), wanted, "room of {length}");
        let written = wanted.unwrap_or(0);
        assert_eq!(room[..written], listing.as_bytes()[..written], "room of {length}");
        assert!(room[written..].iter().all(|byte| *byte == b'.'), "room of {length}: bytes beyond were written");
        // a bad line is told before the room
        assert_eq!(book::list(text.clone() + "x\n", &mut room), Err(BadLine(5)), "room of {length}");
    }
}

#[test]
fn the_last_line_of_each_path_stays() {
    let [a, b, c] = ["a", "b", "c"].map(path);
    let of = |letters: &str| -> Vec<String> {
        letters
            .chars()
            .map(|letter| match letter {
                's' => since(5),
                _ => path(&letter.to_string()),
            })
            .collect()
    };
    for (letters, wanted) in [
        ("", &[][..]),
        ("a", &[1]),
        ("aa", &[2]),
        ("aaa", &[3]),
        ("abc", &[1, 2, 3]),
        ("cba", &[1, 2, 3]),
        ("aba", &[2, 3]),
        ("aab", &[2, 3]),
        ("abb", &[1, 3]),
        ("abab", &[3, 4]),
        ("abba", &[3, 4]),
        ("abcaba", &[3, 5, 6]),
        // every `since` line stays, and keeps no hull above it
        ("s", &[1]),
        ("sss", &[1, 2, 3]),
        ("asa", &[2, 3]),
        ("sasbsas", &[1, 3, 4, 5, 6, 7]),
        ("aasss", &[2, 3, 4, 5]),
    ] {
        assert_eq!(stay(&of(letters)), wanted, "{letters}");
    }
    // the last line stays, and not the one with the latest time
    assert_eq!(stay(&[hull("9 +0000"), hull("3 +0000"), hull("5 +0000")]), [3]);
    // nor the last one that is listed: the second line is before the cut-off
    assert_eq!(stay(&[hull("5 +0000"), since(9), hull("8 +0000")]), [2, 3]);
    // other keys and times make no other path, and the same ones not the same path
    assert_eq!(stay(&[key("0000000000000000"), key("ffffffffffffffff")]), [2]);
    let same = a.clone() + &b + &c;
    assert_eq!(book::compacted(&same, &mut vec![0; same.len()]), Ok(&*same));
}

#[test]
fn paths_are_the_same_if_all_their_bytes_are() {
    let long = "x".repeat(254);
    let (last, first) = (long.clone() + "y", "y".to_string() + &long);
    let full = long.clone() + "x";
    for (one, other) in [
        ("a", "aa"),
        ("aa", "a"),
        ("ba", "a"),
        ("ab", "ba"),
        ("a", "A"),
        ("a", "a "),
        ("a", " a"),
        ("a/b", "a//b"),
        ("a/b", "a\\b"),
        (&*full, &*last),
        (&*full, &*first),
        (&*full, &*long),
        (&*last, &*first),
        // a path may look like another field, or like another line's
        ("hull", "since"),
        ("fedcba9876543210", "a"),
        ("5 +0000", "5 +0001"),
    ] {
        assert_eq!(stay(&[path(one), path(other)]), [1, 2], "{one}, {other}");
        assert_eq!(stay(&[path(one), path(other), path(one)]), [2, 3], "{one}, {other}, {one}");
    }
    // the text of a `since` line is no path
    assert_eq!(stay(&[path("now"), since(5)]), [1, 2]);
    assert_eq!(stay(&[path("now"), since(5), path("now")]), [2, 3]);
}

#[test]
fn a_compacted_book_is_good_and_compacts_to_itself() {
    let text = hull("1 +0200") + &since(5) + &path("a cog") + &hull("4 +0000") + &since(5) + &path("a cog");
    let compacted = since(5) + &hull("4 +0000") + &since(5) + &path("a cog");
    let mut room = vec![0; text.len()];
    assert_eq!(book::compacted(&text, &mut room), Ok(&*compacted));
    assert_eq!(book::check(&compacted), Ok(()));
    assert_eq!(book::compacted(&compacted, &mut room), Ok(&*compacted));
    // the listing of the book was lines 1, 3 and 6; without the lines that went it is line 6
    assert_eq!(book::listing(&text, &mut room), Ok(&*(hull("1 +0200") + &path("a cog") + &path("a cog"))));
    assert_eq!(book::listing(&compacted, &mut room), Ok(&*path("a cog")));
    // a line behind it
    let longer = compacted.clone() + &path("a raft");
    let mut room = vec![0; longer.len()];
    assert_eq!(book::compacted(&longer, &mut room), Ok(&*longer));
    let longer = compacted + &hull("6 +0000");
    assert_eq!(book::compacted(&longer, &mut room), Ok(&*(since(5) + &since(5) + &path("a cog") + &hull("6 +0000"))));
}

#[test]
fn full_books_are_compacted() {
    let mut room = vec![0; book::MAX];
    // 32 bytes to a line: 2,048 lines take 65,536
    let same = path("a").repeat(2047) + &path("a").replace("5 +0000", "6 +0000");
    assert_eq!(same.len(), 65536);
    assert_eq!(book::compacted(&same, &mut room), Ok(&*path("a").replace("5 +0000", "6 +0000")));
    // one line more is too long, though the compacted book would not be
    assert_eq!(book::compact(same + &path("a"), &mut room), Err(TooLong));
    // 36 bytes to a line: 1,820 lines take 65,520
    let names: Vec<_> = (0..1820).map(|n| path(&format!("{n:05}"))).collect();
    assert_eq!(names.concat().len(), 65520);
    assert_eq!(book::compacted(names.concat(), &mut room), Ok(&*names.concat()));
    // 910 paths twice
    let twice = names[..910].concat().repeat(2);
    assert_eq!(book::compacted(&twice, &mut room), Ok(&*names[..910].concat()));
    let reversed: String = names[..910].iter().rev().cloned().collect();
    assert_eq!(book::compacted(reversed.clone() + &names[..910].concat(), &mut room), Ok(&*names[..910].concat()));
    // 4,681 `since` lines, all the same
    let cut_offs = since(5).repeat(4681);
    assert_eq!(book::compacted(&cut_offs, &mut room), Ok(&*cut_offs));
}

#[test]
fn rooms_of_every_length_to_compact() {
    let text = hull("4 +0000") + &since(5) + &path("a") + &hull("6 +0000");
    let compacted = since(5) + &path("a") + &hull("6 +0000");
    for length in 0..=text.len() + 1 {
        let mut room = vec![b'.'; length];
        // the room asked for is that of the compacted book, and not of the book
        let wanted = if length < compacted.len() { Err(Room) } else { Ok(compacted.len()) };
        // a refusal changes no byte: a bad line, a book that is too long
        assert_eq!(book::compact(text.clone() + "x\n", &mut room), Err(BadLine(5)), "room of {length}");
        assert_eq!(book::compact("\n".repeat(65537), &mut room), Err(TooLong), "room of {length}");
        assert!(room.iter().all(|byte| *byte == b'.'), "room of {length}: a refusal changed the room");
        assert_eq!(book::compact(&text, &mut room), wanted, "room of {length}");
        let written = wanted.unwrap_or(0);
        assert_eq!(room[..written], compacted.as_bytes()[..written], "room of {length}");
        assert!(room[written..].iter().all(|byte| *byte == b'.'), "room of {length}: bytes beyond were written");
    }
    assert_eq!(book::compact("", &mut []), Ok(0));
}

#[test]
fn every_output_is_set() {
    let good = hull("5 +0000");
    let bad = good.clone() + "x\n";
    let long = "\n".repeat(65537);
    for (text, space, number, length, line) in
        [(&good, 99, 0, 40, 0), (&good, 39, 8, 0, 0), (&bad, 0, 10, 0, 2), (&bad, 99, 10, 0, 2), (&long, 99, 10, 0, 0)]
    {
        let (mut room, mut told) = (vec![b'.'; space], (77, 77));
        assert_eq!(entries::book_list(text.as_bytes(), &mut room, &mut told.0, &mut told.1), number);
        assert_eq!(told, (length, line));
        assert!(room[length..].iter().all(|byte| *byte == b'.'));
        let (mut room, mut told) = (vec![b'.'; space], (77, 77));
        assert_eq!(entries::book_compact(text.as_bytes(), &mut room, &mut told.0, &mut told.1), number);
        assert_eq!(told, (length, line));
        assert!(room[length..].iter().all(|byte| *byte == b'.'));
        let mut told = 77;
        let checked = if number == 8 { 0 } else { number };
        assert_eq!(entries::book_check(text.as_bytes(), &mut told), checked);
        assert_eq!(told, line);
    }
    assert_eq!(good.len(), 40);
}

#[test]
fn errors_have_refusals_and_words() {
    for (error, refusal, line, words) in [
        (TooLong, Refusal::Book, 0, "the book has more than 65536 bytes"),
        (BadLine(3), Refusal::Book, 3, "line 3 of the book is bad"),
        (Room, Refusal::Room, 0, "the room is shorter than the bytes to be written"),
    ] {
        assert_eq!((error.refusal(), error.line()), (refusal, line));
        assert_eq!(error.to_string(), words);
    }
}
