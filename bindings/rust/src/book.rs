//! A book of stamps: a text with lines for cooked hulls, the listing of the hulls that its cut-offs keep, the compacted book,
//! which has one line for each hull, and what is salvaged from a damaged book.
//!
//! A book has at most [`MAX`] bytes. The empty book is good. Every line ends in a newline, the last one too, and has four
//! fields with tabs between:
//!
//! ```text
//! hull   PATH  KEY      TIME
//! since  TEXT  SECONDS  OFFSET
//! ```
//!
//! - PATH is 1 to 255 bytes from 32 to 126.
//! - KEY is 16 bytes, each `0` to `9` or `a` to `f`.
//! - TIME is exactly what [`Time::write_to`](crate::Time::write_to) writes for some time at an offset of whole minutes:
//!   `1745582210 +0200`, and also `5 -0000`, but not `+5 +0000`, `05 +0000`, `5 +0060` or `5 -000000`.
//! - TEXT is a relative date without tab and newline that [`parse_relative`](crate::parse_relative) reads at the current
//!   time SECONDS, OFFSET. These two are plain decimals: `0`, `-18000`, and not `+5`, `05` or `-0`.
//!
//! Any other line is bad, and so is an empty line, or one without its newline at the end of the book.
//!
//! The time that a `since` line's text means is the cut-off for the `hull` lines below it, up to the next `since` line.
//! The listing has the `hull` lines whose seconds are at or after their cut-off, and all those that have no `since` line
//! above them, in the order of the book. Each is listed with its newline, byte for byte. A path may be in several lines; each
//! line is listed or not by itself. The listing of a good book is a good book too, and has no more bytes.
//!
//! A book grows by lines that are appended to it. The compacted book is the book without each `hull` line whose path a later
//! `hull` line has: for each path the last line stays, and every `since` line stays. The lines that stay keep their order and
//! their bytes. The compacted book is a good book too, has no more bytes, and compacts to itself.
//!
//! A disk that is full can leave half a line in the middle of a book. Salvaging keeps the good lines, in their order and with
//! their bytes, and reports the bad ones. Each line is judged alone. What is kept is a good book.

use crate::{entries, refusal, Refusal};
use core::fmt;

/// The most bytes that a book has.
pub const MAX: usize = 65536;

/// The most bytes that the report on a salvaged book has. A book of 65536 newlines takes that.
///
/// A report also has no more than 8 bytes for each byte of its book.
pub const SALVAGE_REPORT_MAX: usize = 513182;

/// Checks that a book is good.
///
/// # Errors
/// [`BookError::TooLong`], which is tested first; [`BookError::BadLine`].
///
/// ```
/// use chowderbell::book::{self, BookError};
///
/// assert_eq!(book::check("hull\tships/whaler\t00112233445566ff\t1745582210 +0200\n"), Ok(()));
/// assert_eq!(book::check(""), Ok(()));
/// // the second line has no newline
/// assert_eq!(book::check("since\tyesterday\t86400\t0\nsince\tnow\t0\t0"), Err(BookError::BadLine(2)));
/// ```
pub fn check(book: impl AsRef<[u8]>) -> Result<(), BookError> {
    let mut line = 0;
    let number = entries::book_check(book.as_ref(), &mut line);
    refusal::answer(number, ()).map_err(|why| BookError::new(why, line))
}

/// Writes the listing of a book at the start of `room` and returns its length. The bytes after it are not changed. A room of
/// as many bytes as the book is always long enough.
///
/// # Errors
/// Those of [`check`], then [`BookError::Room`]. `room` is not changed then.
///
/// ```
/// use chowderbell::book;
///
/// let mut room = [b'.'; 36];
/// assert_eq!(book::list("hull\tcog\t00112233445566ff\t5 +0000\n", &mut room), Ok(34));
/// assert_eq!(&room, b"hull\tcog\t00112233445566ff\t5 +0000\n..");
/// ```
pub fn list(book: impl AsRef<[u8]>, room: &mut [u8]) -> Result<usize, BookError> {
    let (mut length, mut line) = (0, 0);
    let number = entries::book_list(book.as_ref(), room, &mut length, &mut line);
    refusal::answer(number, length).map_err(|why| BookError::new(why, line))
}

/// The listing of a book, written into `room`. A listing is ASCII.
///
/// # Errors
/// Those of [`list`].
///
/// ```
/// use chowderbell::{book, Time};
///
/// let text = "since\t1 hour ago\t1745582210\t7200\n\
///             hull\tships/cog\t00112233445566ff\t1745578609 +0200\n\
///             hull\tships/whaler\t8899aabbccddeeff\t1745578610 +0200\n";
/// let mut room = [0; book::MAX];
/// let listing = book::listing(text, &mut room).unwrap();
/// for line in listing.lines() {
///     let mut fields = line.split('\t').skip(1);
///     assert_eq!(fields.next(), Some("ships/whaler"));
///     assert_eq!(fields.next(), Some("8899aabbccddeeff"));
///     assert_eq!(fields.next().map(str::parse), Some(Ok(Time::new(1745578610, 7200))));
/// }
/// ```
pub fn listing(book: impl AsRef<[u8]>, room: &mut [u8]) -> Result<&str, BookError> {
    let length = list(book, room)?;
    Ok(core::str::from_utf8(&room[..length]).expect("a listing is ASCII"))
}

/// Writes the compacted book at the start of `room` and returns its length. The bytes after it are not changed. A room of
/// as many bytes as the book is always long enough, and one as long as the compacted book is enough.
///
/// Paths are the same if all their bytes are. Keys, times and cut-offs do not matter: the last line of a path stays, even if
/// an earlier one has a later time.
///
/// The listing of the compacted book is the listing of the book without the lines that went. So compacting can take a hull
/// off the listing: if its last line is before the cut-off, an older line of it may have been listed, and that line is gone.
///
/// A call uses some 28 KB of stack more than [`check`].
///
/// # Errors
/// Those of [`check`], then [`BookError::Room`]. `room` is not changed then.
///
/// ```
/// use chowderbell::book;
///
/// let text = "hull\tcog\t00112233445566ff\t5 +0000\n\
///             hull\tcog\t8899aabbccddeeff\t4 +0000\n";
/// let mut room = [b'.'; 36];
/// assert_eq!(book::compact(text, &mut room), Ok(34));
/// assert_eq!(&room, b"hull\tcog\t8899aabbccddeeff\t4 +0000\n..");
/// ```
pub fn compact(book: impl AsRef<[u8]>, room: &mut [u8]) -> Result<usize, BookError> {
    let (mut length, mut line) = (0, 0);
    let number = entries::book_compact(book.as_ref(), room, &mut length, &mut line);
    refusal::answer(number, length).map_err(|why| BookError::new(why, line))
}

/// The compacted book, written into `room`. A good book is ASCII.
///
/// # Errors
/// Those of [`compact`].
///
/// ```
/// use chowderbell::book::{self, BookError};
///
/// let text = "hull\tships/cog\t00112233445566ff\t1745578609 +0200\n\
///             hull\tships/whaler\t8899aabbccddeeff\t1745578610 +0200\n\
///             since\t1 hour ago\t1745582210\t7200\n\
///             hull\tships/cog\t00112233445566fe\t1745578000 +0200\n";
/// let mut room = [0; book::MAX];
/// let compacted = book::compacted(text, &mut room).unwrap();
/// // the first line went, since the last one has its path
/// assert_eq!(Some(compacted), text.split_once('\n').map(|(_, rest)| rest));
///
/// // the cog is before the cut-off in its last line; its first line was listed, and is gone
/// let mut room = [0; book::MAX];
/// assert_eq!(book::list(text, &mut room), Ok(101)); // 49 bytes of the cog, 52 of the whaler
/// assert_eq!(book::listing(compacted, &mut room), Ok("hull\tships/whaler\t8899aabbccddeeff\t1745578610 +0200\n"));
///
/// assert_eq!(book::compacted("hull\n", &mut room), Err(BookError::BadLine(1)));
/// ```
pub fn compacted(book: impl AsRef<[u8]>, room: &mut [u8]) -> Result<&str, BookError> {
    let length = compact(book, room)?;
    Ok(core::str::from_utf8(&room[..length]).expect("a good book is ASCII"))
}

/// Salvages a damaged book: writes its good lines at the start of `room` and the report at the start of `report`, and returns the
/// lengths of both and the number of the last bad line. The bytes after them are not changed.
///
/// The report has a row for each bad line: its number, counted from 1 among all lines of the book, a tab, its length without the
/// newline, and a newline. A last piece without a newline is bad, even if its bytes would do, and is reported with its full length.
/// An empty last piece is no line. So the lines kept and the lines reported add up to the newlines of the book, and one more for a
/// last piece that is not empty.
///
/// A room of as many bytes as the book is always long enough, and a report of 8 times as many. With these the book is judged once;
/// with less, it is measured first. Rooms of exactly the bytes to be written are enough.
///
/// A line is judged by its form. Damage that leaves a line in good form is not found, and the line is kept: a digit of a key that
/// has become another digit, for example.
///
/// If a bad line was a `since` line, its cut-off is lost: the `hull` lines below it then fall under the cut-off of the `since` line
/// above it, or under none. So the listing can gain hulls or lose hulls by salvaging, also hulls whose lines were not damaged.
///
/// # Errors
/// [`BookError::TooLong`], which is tested first; then [`BookError::Room`]. Neither `room` nor `report` is changed then. A bad
/// line is no error.
///
/// ```
/// use chowderbell::book::{self, Lengths};
///
/// // the first line is cut, and the second one was appended to it
/// let text = "hull\tcoghull\traft\t00112233445566ff\t5 +0000\n\
///             hull\tcog\t8899aabbccddeeff\t6 +0000\n";
/// let (mut room, mut report) = ([b'.'; 36], [b'.'; 6]);
/// assert_eq!(book::salvage(text, &mut room, &mut report), Ok(Lengths { book: 34, report: 5, last_bad: 1 }));
/// assert_eq!(&room, b"hull\tcog\t8899aabbccddeeff\t6 +0000\n..");
/// assert_eq!(&report, b"1\t42\n.");
/// ```
pub fn salvage(book: impl AsRef<[u8]>, room: &mut [u8], report: &mut [u8]) -> Result<Lengths, BookError> {
    let mut lengths = Lengths { book: 0, report: 0, last_bad: 0 };
    let Lengths { book: length, report: report_length, last_bad } = &mut lengths;
    let number = entries::book_salvage(book.as_ref(), room, report, length, report_length, last_bad);
    // an entry that salvages stores no line: it refuses by 10 only a book that is too long
    refusal::answer(number, lengths).map_err(|why| BookError::new(why, 0))
}

/// Salvages a damaged book, and returns the lines kept and the report, which are written into `room` and `report`. Both are ASCII.
///
/// # Errors
/// Those of [`salvage`].
///
/// ```
/// use chowderbell::book::{self, BookError, Dropped};
///
/// let text = "hull\tships/cog\t00112233445566ff\t1745570000 +0200\n\
///             hull\tships/wha\n\
///             since\t1 hour ago\t1745582210\t7200\n\
///             hull\tships/whaler\t8899aabbccddeeff\t1745582210 +0200"; // the newline is missing
/// let (mut room, mut report) = ([0; book::MAX], [0; 100]);
/// let salvaged = book::salvaged(text, &mut room, &mut report).unwrap();
/// assert_eq!(salvaged.book, "hull\tships/cog\t00112233445566ff\t1745570000 +0200\n\
///                            since\t1 hour ago\t1745582210\t7200\n");
/// assert_eq!(salvaged.report, "2\t14\n4\t51\n");
/// assert_eq!(salvaged.last_bad, 4);
/// assert!(salvaged.dropped().eq([Dropped { line: 2, length: 14 }, Dropped { line: 4, length: 51 }]));
/// assert_eq!(book::check(salvaged.book), Ok(()));
///
/// assert_eq!(book::salvaged(text, &mut [], &mut report), Err(BookError::Room));
/// ```
pub fn salvaged<'a>(
    book: impl AsRef<[u8]>,
    room: &'a mut [u8],
    report: &'a mut [u8],
) -> Result<Salvaged<'a>, BookError> {
    let lengths = salvage(book, room, report)?;
    Ok(Salvaged {
        book: core::str::from_utf8(&room[..lengths.book]).expect("a good book is ASCII"),
        report: core::str::from_utf8(&report[..lengths.report]).expect("a report is ASCII"),
        last_bad: lengths.last_bad,
    })
}

/// How much [`salvage`] wrote, and the last bad line.
#[derive(Clone, Copy, PartialEq, Eq, Hash, Debug)]
pub struct Lengths {
    /// How many bytes of `room` are the lines kept.
    pub book: usize,
    /// How many bytes of `report` are the report.
    pub report: usize,
    /// The number of the last bad line, counted from 1, or 0 if no line is bad.
    pub last_bad: usize,
}

/// What is salvaged from a damaged book, as [`salvaged`] returns it.
#[derive(Clone, Copy, PartialEq, Eq, Hash, Debug)]
#[non_exhaustive]
pub struct Salvaged<'a> {
    /// The lines kept, which are a good book.
    pub book: &'a str,
    /// The report, a row for each line that was dropped.
    pub report: &'a str,
    /// The number of the last bad line, counted from 1, or 0 if no line is bad.
    pub last_bad: usize,
}

impl<'a> Salvaged<'a> {
    /// The rows of the report, in their order.
    pub fn dropped(&self) -> impl Iterator<Item = Dropped> + 'a {
        self.report.lines().map(Dropped::from_row)
    }
}

/// A line that was dropped when a book was salvaged.
#[derive(Clone, Copy, PartialEq, Eq, Hash, Debug)]
pub struct Dropped {
    /// Its number, counted from 1 among all lines of the book.
    pub line: usize,
    /// How many bytes it has, without its newline.
    pub length: usize,
}

impl Dropped {
    /// Reads a row of a report, without its newline.
    fn from_row(row: &str) -> Dropped {
        let (line, length) = row.split_once('\t').expect("a row has a tab");
        let number = |digits: &str| digits.parse().expect("a row has two numbers");
        Dropped { line: number(line), length: number(length) }
    }
}

/// Why a book is not good, or was not listed, compacted or salvaged.
#[derive(Clone, Copy, PartialEq, Eq, Hash, Debug)]
#[non_exhaustive]
pub enum BookError {
    /// The book has more than [`MAX`] bytes.
    TooLong,
    /// The book has a bad line. This is the number of the first one, counted from 1. A book that is salvaged is not refused for
    /// it.
    BadLine(usize),
    /// The book is good, and its listing, or the compacted book, is longer than the room; or a book is salvaged, and the lines kept
    /// or the report are longer than their room.
    Room,
}

impl BookError {
    /// The error for a refusal by an entry, with the line that it stored.
    ///
    /// # Panics
    /// Panics for a refusal that is neither of a book nor of a room: see [`refusal::answer`].
    fn new(why: Refusal, line: usize) -> BookError {
        match (why, line) {
            (Refusal::Book, 0) => BookError::TooLong,
            (Refusal::Book, line) => BookError::BadLine(line),
            (Refusal::Room, _) => BookError::Room,
            _ => panic!("an entry for a book refuses by 8 or 10"),
        }
    }

    /// The refusal: [`Refusal::Book`] or [`Refusal::Room`].
    #[must_use]
    pub const fn refusal(self) -> Refusal {
        match self {
            BookError::TooLong | BookError::BadLine(_) => Refusal::Book,
            BookError::Room => Refusal::Room,
        }
    }

    /// The number of the first bad line, counted from 1, or 0 if the refusal is for another reason.
    #[must_use]
    pub const fn line(self) -> usize {
        match self {
            BookError::BadLine(line) => line,
            BookError::TooLong | BookError::Room => 0,
        }
    }
}

/// ```
/// use chowderbell::book::BookError;
///
/// assert_eq!(BookError::BadLine(3).to_string(), "line 3 of the book is bad");
/// ```
impl fmt::Display for BookError {
    fn fmt(&self, f: &mut fmt::Formatter<'_>) -> fmt::Result {
        match self {
            BookError::TooLong => write!(f, "the book has more than {MAX} bytes"),
            BookError::BadLine(line) => write!(f, "line {line} of the book is bad"),
            BookError::Room => f.write_str("the room is shorter than the bytes to be written"),
        }
    }
}

impl core::error::Error for BookError {}
