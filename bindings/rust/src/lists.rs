//! The lists of two build machines: the earlier of their front lines, one book that both are merged into, and a report on the
//! paths whose keys differ.
//!
//! A list has at most [`MAX`] bytes and `hull` lines only, as they are in a [`book`], each with its newline. Its seconds never
//! fall from line to line. The empty list is good. Any line that is not a good `hull` line is bad, so a `since` line is bad, and
//! a last line without its newline. A line with fewer seconds than the line above it is a step back, and is refused too. Offsets
//! and marks do not count.
//!
//! The merged book has every line of both lists, byte for byte. Seconds never fall in it. Of lines with the same seconds those
//! of the first machine come first, and the lines of each machine keep their order. A line that both lists have is there twice.
//! The merged book is a good book.
//!
//! The report has a row for each path that is in both lists, if the key in its last line of the first list differs from the key
//! in its last line of the second: the path, the first machine's key and the second machine's key, with tabs between and a
//! newline after. Each such path is there once. The rows have the order in which their paths first come in the merged book, from
//! whichever machine.

use crate::{book, entries, refusal, Refusal};
use core::fmt;

/// The most bytes that a list has.
pub const MAX: usize = 32768;

/// A room that is long enough for every report, in bytes.
///
/// A report is at most nine eighths as long as the first list, which is proved. (The row of a path of p bytes has p + 35, and each
/// list has a line of at least p + 31 with it. Since few paths are short, no report has more than 36748 bytes; two lists reach
/// that.)
pub const REPORT_MAX: usize = 36864;

/// The length of a key, in bytes.
const KEY: usize = 16;

/// One of the two build machines.
#[derive(Clone, Copy, PartialEq, Eq, PartialOrd, Ord, Hash, Debug)]
#[repr(u8)]
pub enum Machine {
    /// The first machine, 1 at the C entries.
    First = 1,
    /// The second machine, 2 at the C entries.
    Second = 2,
}

impl Machine {
    /// The machine with this number, if there is one. An entry stores 0 if there is no machine to name.
    fn new(number: u8) -> Option<Machine> {
        match number {
            1 => Some(Machine::First),
            2 => Some(Machine::Second),
            _ => None,
        }
    }

    /// Its number at the C entries: 1 or 2.
    #[must_use]
    pub const fn number(self) -> u8 {
        self as u8
    }
}

/// ```
/// use chowderbell::lists::Machine;
///
/// assert_eq!(Machine::Second.to_string(), "machine 2");
/// ```
impl fmt::Display for Machine {
    fn fmt(&self, f: &mut fmt::Formatter<'_>) -> fmt::Result {
        write!(f, "machine {}", self.number())
    }
}

/// Checks two front lines. A front line is the line that is next in a list: one good `hull` line with its newline, or nothing,
/// if no line is left. Any other text is bad: also two lines, a line without its newline, and a newline alone.
///
/// # Errors
/// [`ListsError::BadLine`] with line 1 of the machine whose front line is bad; of the first machine if both are.
///
/// ```
/// use chowderbell::lists::{self, ListsError, Machine};
///
/// let line = "hull\tships/cog\t00112233445566ff\t5 +0000\n";
/// assert_eq!(lists::fronts_check(line, ""), Ok(())); // an empty front line is not bad
/// assert_eq!(lists::fronts_check(line, line.trim_end()), Err(ListsError::BadLine(Machine::Second, 1)));
/// ```
pub fn fronts_check(first: impl AsRef<[u8]>, second: impl AsRef<[u8]>) -> Result<(), ListsError> {
    let (mut machine, mut line) = (0, 0);
    let number = entries::fronts_check(first.as_ref(), second.as_ref(), &mut machine, &mut line);
    refusal::answer(number, ()).map_err(|why| ListsError::new(why, machine, line))
}

/// The earlier of two front lines, the one with fewer seconds, and the machine whose line it is. On a tie it is the first
/// machine's. An empty front line loses. The line is the caller's own bytes; nothing is copied.
///
/// `None` if both are empty, or if one of them is bad: a good line beside a bad one is not returned. [`fronts_check`] tells these
/// cases apart.
///
/// ```
/// use chowderbell::lists::{self, Machine};
///
/// let (cog, raft) = ("hull\tcog\t00112233445566ff\t5 +0000\n", "hull\traft\t8899aabbccddeeff\t4 +0000\n");
/// assert_eq!(lists::earlier(cog, raft), Some((Machine::Second, raft.as_bytes())));
/// assert_eq!(lists::earlier(cog, cog), Some((Machine::First, cog.as_bytes())));
/// assert_eq!(lists::earlier(cog, ""), Some((Machine::First, cog.as_bytes())));
/// assert_eq!(lists::earlier("", ""), None);
/// assert_eq!(lists::earlier(cog, "raft\n"), None);
/// ```
#[must_use]
pub fn earlier<'a>(
    first: &'a (impl AsRef<[u8]> + ?Sized),
    second: &'a (impl AsRef<[u8]> + ?Sized),
) -> Option<(Machine, &'a [u8])> {
    let (first, second, mut machine) = (first.as_ref(), second.as_ref(), 0);
    let length = entries::fronts_earlier(first, second, &mut machine);
    let machine = Machine::new(machine)?;
    let line = match machine {
        Machine::First => first,
        Machine::Second => second,
    };
    Some((machine, &line[..length]))
}

/// Merges two lists: writes the merged book at the start of `book` and the report at the start of `report`, and returns the
/// lengths of both. The bytes after them are not changed.
///
/// The merged book has as many bytes as both lists together. The report has no more than [`REPORT_MAX`] bytes, and no more than
/// nine eighths of those of the first list.
///
/// # Errors
/// [`ListsError::TooLong`], which is tested first for both lists; [`ListsError::BadLine`], for the first machine before the
/// second; then [`ListsError::Room`]. Neither `book` nor `report` is changed then.
///
/// ```
/// use chowderbell::lists;
///
/// let first = "hull\tcog\t00112233445566ff\t5 +0000\n";
/// let second = "hull\tcog\t8899aabbccddeeff\t4 +0000\n";
/// let (mut book, mut report) = ([b'.'; 70], [b'.'; 40]);
/// assert_eq!(lists::merge(first, second, &mut book, &mut report), Ok((68, 38)));
/// assert_eq!(&book, b"hull\tcog\t8899aabbccddeeff\t4 +0000\nhull\tcog\t00112233445566ff\t5 +0000\n..");
/// assert_eq!(&report, b"cog\t00112233445566ff\t8899aabbccddeeff\n..");
/// ```
pub fn merge(
    first: impl AsRef<[u8]>,
    second: impl AsRef<[u8]>,
    book: &mut [u8],
    report: &mut [u8],
) -> Result<(usize, usize), ListsError> {
    let (mut book_length, mut report_length, mut machine, mut line) = (0, 0, 0, 0);
    let number = entries::lists_merge(
        first.as_ref(),
        second.as_ref(),
        book,
        report,
        &mut book_length,
        &mut report_length,
        &mut machine,
        &mut line,
    );
    refusal::answer(number, (book_length, report_length)).map_err(|why| ListsError::new(why, machine, line))
}

/// Merges two lists, and returns the merged book and the report, which are written into `book` and `report`. Both are ASCII.
///
/// # Errors
/// Those of [`merge`].
///
/// ```
/// use chowderbell::lists::{self, Differing, ListsError, Machine};
///
/// let first = "hull\tships/cog\t00112233445566ff\t1745570000 +0200\n\
///              hull\tships/whaler\t8899aabbccddeeff\t1745582210 +0200\n";
/// let second = "hull\tships/cog\t00112233445566fe\t1745570001 +0200\n";
/// let (mut book, mut report) = ([0; lists::BOOK_MAX], [0; lists::REPORT_MAX]);
/// let merged = lists::merged(first, second, &mut book, &mut report).unwrap();
/// assert_eq!(merged.book.lines().count(), 3);
/// let differing = Differing { path: "ships/cog", first: "00112233445566ff", second: "00112233445566fe" };
/// assert!(merged.differing().eq([differing]));
///
/// // the lines of the second list are in the wrong order
/// let back = second.to_owned() + first;
/// let refused = lists::merged(first, back, &mut book, &mut report);
/// assert_eq!(refused, Err(ListsError::BadLine(Machine::Second, 2)));
/// ```
pub fn merged<'a>(
    first: impl AsRef<[u8]>,
    second: impl AsRef<[u8]>,
    book: &'a mut [u8],
    report: &'a mut [u8],
) -> Result<Merged<'a>, ListsError> {
    let (book_length, report_length) = merge(first, second, book, report)?;
    Ok(Merged {
        book: core::str::from_utf8(&book[..book_length]).expect("a good book is ASCII"),
        report: core::str::from_utf8(&report[..report_length]).expect("a report is ASCII"),
    })
}

/// The most bytes that a merged book has: those of two lists, and also those of a book.
pub const BOOK_MAX: usize = book::MAX;

/// What two lists are merged to, as [`merged`] returns it.
#[derive(Clone, Copy, PartialEq, Eq, Hash, Debug)]
#[non_exhaustive]
pub struct Merged<'a> {
    /// The merged book.
    pub book: &'a str,
    /// The report, a row for each path whose keys differ.
    pub report: &'a str,
}

impl<'a> Merged<'a> {
    /// The rows of the report, in their order.
    pub fn differing(&self) -> impl Iterator<Item = Differing<'a>> {
        self.report.lines().map(Differing::from_row)
    }
}

/// A path that is in both lists, with a last key in the first that differs from its last key in the second.
#[derive(Clone, Copy, PartialEq, Eq, Hash, Debug)]
pub struct Differing<'a> {
    /// The path.
    pub path: &'a str,
    /// The key in the path's last line of the first machine's list.
    pub first: &'a str,
    /// The key in the path's last line of the second machine's list.
    pub second: &'a str,
}

impl<'a> Differing<'a> {
    /// Reads a row of a report, without its newline. Its last 34 bytes are two keys, with a tab in front of each.
    fn from_row(row: &'a str) -> Differing<'a> {
        let (row, second) = row.split_at(row.len() - KEY);
        let (path, first) = row[..row.len() - 1].split_at(row.len() - 1 - KEY);
        Differing { path: &path[..path.len() - 1], first, second }
    }
}

/// Why two lists were not merged, or a front line is bad.
#[derive(Clone, Copy, PartialEq, Eq, Hash, Debug)]
#[non_exhaustive]
pub enum ListsError {
    /// The list of this machine has more than [`MAX`] bytes.
    TooLong(Machine),
    /// The list of this machine has a line that is bad or a step back. This is the number of the first one, counted from 1. For
    /// a front line that is bad, it is 1.
    BadLine(Machine, usize),
    /// Both lists are good, and the merged book or the report is longer than its room.
    Room,
}

impl ListsError {
    /// The error for a refusal by an entry, with the machine and the line that it stored.
    ///
    /// # Panics
    /// Panics for a refusal that is neither of lists nor of a room, and for one of lists without a machine: see
    /// [`refusal::answer`].
    fn new(why: Refusal, machine: u8, line: usize) -> ListsError {
        match (why, Machine::new(machine), line) {
            (Refusal::Lists, Some(machine), 0) => ListsError::TooLong(machine),
            (Refusal::Lists, Some(machine), line) => ListsError::BadLine(machine, line),
            (Refusal::Room, ..) => ListsError::Room,
            _ => panic!("an entry for two lists refuses by 8, or by 12 with a machine"),
        }
    }

    /// The refusal: [`Refusal::Lists`] or [`Refusal::Room`].
    #[must_use]
    pub const fn refusal(self) -> Refusal {
        match self {
            ListsError::TooLong(_) | ListsError::BadLine(..) => Refusal::Lists,
            ListsError::Room => Refusal::Room,
        }
    }

    /// The machine whose list is at fault, or `None` if a room is too short.
    #[must_use]
    pub const fn machine(self) -> Option<Machine> {
        match self {
            ListsError::TooLong(machine) | ListsError::BadLine(machine, _) => Some(machine),
            ListsError::Room => None,
        }
    }

    /// The number of the first line at fault, counted from 1, or 0 if the refusal is for another reason.
    #[must_use]
    pub const fn line(self) -> usize {
        match self {
            ListsError::BadLine(_, line) => line,
            ListsError::TooLong(_) | ListsError::Room => 0,
        }
    }
}

/// ```
/// use chowderbell::lists::{ListsError, Machine};
///
/// let error = ListsError::BadLine(Machine::Second, 3);
/// assert_eq!(error.to_string(), "line 3 of machine 2 is bad, or earlier than the line above it");
/// ```
impl fmt::Display for ListsError {
    fn fmt(&self, f: &mut fmt::Formatter<'_>) -> fmt::Result {
        match self {
            ListsError::TooLong(machine) => write!(f, "the list of {machine} has more than {MAX} bytes"),
            ListsError::BadLine(machine, line) => {
                write!(f, "line {line} of {machine} is bad, or earlier than the line above it")
            }
            ListsError::Room => f.write_str("a room is shorter than the bytes to be written"),
        }
    }
}

impl core::error::Error for ListsError {}
