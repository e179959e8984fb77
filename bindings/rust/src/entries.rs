//! The C entries themselves: numbers in, numbers out.
//!
//! Each function passes its arguments to an entry and does nothing else, so the caller sees what the entry left in
//! `seconds`, `offset`, `mark`, `length`, `machine`, `line`, `last_bad` and `room`. The number 0 is success; the others are
//! those of [`Refusal`](crate::Refusal). On a refusal `seconds`, `offset`, `mark`, `length` and `last_bad` are 0, and `room` is
//! not changed. `line` is 0 unless a book or a list has a bad line. Every text, every book, every list and every number has an answer.
//!
//! The mark says of offset 0 that it is written `-0000`; [`Time::mark`](crate::Time::mark) has more on it. A reader stores 0
//! if it is clear and 1 if it is set. To a writer any value but 0 means that it is set. The functions whose name does not
//! end in `_marked` have no mark: their readers drop it, and [`write_header`] writes a time with the mark clear.

// SAFETY, for every call in this file: each pointer comes from a reference or a slice that lives as long as the call, so
// it is not null; a slice's pointer comes with its length; and what is written is borrowed mutably, so nothing overlaps
// it. An entry reads at most the bytes of its texts, its book or its lists, writes at most the bytes of its rooms and its
// outputs, touches no other byte, keeps no pointer and always returns. All of that is proved. Not proved is how much stack a
// call takes. In `chowderbell_relative_turns` it grows with the words of the text; `include/chowderbell.h` says how far.
mod c {
    extern "C" {
        pub fn chowderbell_header(text: *const u8, len: usize, seconds: *mut i64, offset: *mut i32) -> u8;
        pub fn chowderbell_header_marked(
            text: *const u8,
            len: usize,
            seconds: *mut i64,
            offset: *mut i32,
            mark: *mut u8,
        ) -> u8;
        pub fn chowderbell_raw(text: *const u8, len: usize, seconds: *mut i64, offset: *mut i32) -> u8;
        pub fn chowderbell_raw_by(rule: u32, text: *const u8, len: usize, seconds: *mut i64, offset: *mut i32) -> u8;
        pub fn chowderbell_raw_marked(
            rule: u32,
            text: *const u8,
            len: usize,
            seconds: *mut i64,
            offset: *mut i32,
            mark: *mut u8,
        ) -> u8;
        pub fn chowderbell_iso(text: *const u8, len: usize, seconds: *mut i64, offset: *mut i32) -> u8;
        pub fn chowderbell_relative(
            text: *const u8,
            len: usize,
            has_now: u8,
            now_seconds: i64,
            now_offset: i32,
            seconds: *mut i64,
            offset: *mut i32,
        ) -> u8;
        pub fn chowderbell_relative_turns(
            text: *const u8,
            len: usize,
            has_now: u8,
            now_seconds: i64,
            now_offset: i32,
            seconds: *mut i64,
            offset: *mut i32,
        ) -> u8;
        pub fn chowderbell_any(
            text: *const u8,
            len: usize,
            has_now: u8,
            now_seconds: i64,
            now_offset: i32,
            seconds: *mut i64,
            offset: *mut i32,
        ) -> u8;
        pub fn chowderbell_any_by(
            rule: u32,
            text: *const u8,
            len: usize,
            has_now: u8,
            now_seconds: i64,
            now_offset: i32,
            seconds: *mut i64,
            offset: *mut i32,
        ) -> u8;
        pub fn chowderbell_any_marked(
            rule: u32,
            text: *const u8,
            len: usize,
            has_now: u8,
            now_seconds: i64,
            now_offset: i32,
            seconds: *mut i64,
            offset: *mut i32,
            mark: *mut u8,
        ) -> u8;
        pub fn chowderbell_size(seconds: i64, offset: i32) -> usize;
        pub fn chowderbell_write_header(seconds: i64, offset: i32, room: *mut u8, len: usize, length: *mut usize)
            -> u8;
        pub fn chowderbell_write_header_marked(
            seconds: i64,
            offset: i32,
            mark: u8,
            room: *mut u8,
            len: usize,
            length: *mut usize,
        ) -> u8;
        pub fn chowderbell_write_iso(seconds: i64, offset: i32, room: *mut u8, len: usize, length: *mut usize) -> u8;
        pub fn chowderbell_book_check(book: *const u8, len: usize, line: *mut usize) -> u8;
        pub fn chowderbell_book_list(
            book: *const u8,
            len: usize,
            room: *mut u8,
            room_len: usize,
            length: *mut usize,
            line: *mut usize,
        ) -> u8;
        pub fn chowderbell_book_compact(
            book: *const u8,
            len: usize,
            room: *mut u8,
            room_len: usize,
            length: *mut usize,
            line: *mut usize,
        ) -> u8;
        pub fn chowderbell_book_salvage(
            book: *const u8,
            len: usize,
            room: *mut u8,
            room_len: usize,
            report: *mut u8,
            report_len: usize,
            length: *mut usize,
            report_length: *mut usize,
            last_bad: *mut usize,
        ) -> u8;
        pub fn chowderbell_fronts_check(
            first: *const u8,
            first_len: usize,
            second: *const u8,
            second_len: usize,
            machine: *mut u8,
            line: *mut usize,
        ) -> u8;
        pub fn chowderbell_fronts_earlier(
            first: *const u8,
            first_len: usize,
            second: *const u8,
            second_len: usize,
            machine: *mut u8,
        ) -> usize;
        pub fn chowderbell_lists_merge(
            first: *const u8,
            first_len: usize,
            second: *const u8,
            second_len: usize,
            book: *mut u8,
            book_len: usize,
            report: *mut u8,
            report_len: usize,
            book_length: *mut usize,
            report_length: *mut usize,
            machine: *mut u8,
            line: *mut usize,
        ) -> u8;
        pub fn chowderbell_strip(year: i64, month: i64, room: *mut u8, len: usize, length: *mut usize) -> u8;
    }
}

/// Reads a header date, `1745582210 +0200`. Returns 0, 1, 2 or 11.
#[inline]
#[must_use]
pub fn header(text: &[u8], seconds: &mut i64, offset: &mut i32) -> u8 {
    unsafe { c::chowderbell_header(text.as_ptr(), text.len(), seconds, offset) }
}

/// Reads a header date with its mark. Returns 0, 1, 2 or 11.
///
/// The number, the seconds and the offset are those of [`header`]. The mark is set exactly if the second word is read as an
/// offset, opens with `-` and gives 0.
#[inline]
#[must_use]
pub fn header_marked(text: &[u8], seconds: &mut i64, offset: &mut i32, mark: &mut u8) -> u8 {
    unsafe { c::chowderbell_header_marked(text.as_ptr(), text.len(), seconds, offset, mark) }
}

/// Reads a raw date, the header's strict form, by rule 1. Returns 0, 1, 2 or 11.
#[inline]
#[must_use]
pub fn raw(text: &[u8], seconds: &mut i64, offset: &mut i32) -> u8 {
    unsafe { c::chowderbell_raw(text.as_ptr(), text.len(), seconds, offset) }
}

/// Reads a raw date by the rule with this number, [`RULE_1`](crate::RULE_1) or [`RULE_2`](crate::RULE_2). Returns 0, 1, 2
/// or 11.
///
/// By any other number every text is refused: by 1 if it holds a byte of 128 or more, otherwise by 2.
#[inline]
#[must_use]
pub fn raw_by(rule: u32, text: &[u8], seconds: &mut i64, offset: &mut i32) -> u8 {
    unsafe { c::chowderbell_raw_by(rule, text.as_ptr(), text.len(), seconds, offset) }
}

/// Reads a raw date by the rule with this number, with its mark. Returns 0, 1, 2 or 11.
///
/// The number returned, the seconds and the offset are those of [`raw_by`]. The mark is set exactly if the offset opens with
/// `-` and is 0.
#[inline]
#[must_use]
pub fn raw_marked(rule: u32, text: &[u8], seconds: &mut i64, offset: &mut i32, mark: &mut u8) -> u8 {
    unsafe { c::chowderbell_raw_marked(rule, text.as_ptr(), text.len(), seconds, offset, mark) }
}

/// Reads one of the three ISO forms. Returns 0, 1 or 2.
#[inline]
#[must_use]
pub fn iso(text: &[u8], seconds: &mut i64, offset: &mut i32) -> u8 {
    unsafe { c::chowderbell_iso(text.as_ptr(), text.len(), seconds, offset) }
}

/// Reads a relative date, `2 weeks ago`, counted back from the current time. Returns 0 to 6.
///
/// The current time is missing if `has_now` is 0. Its two numbers are not used then.
#[inline]
#[must_use]
pub fn relative(
    text: &[u8],
    has_now: u8,
    now_seconds: i64,
    now_offset: i32,
    seconds: &mut i64,
    offset: &mut i32,
) -> u8 {
    unsafe { c::chowderbell_relative(text.as_ptr(), text.len(), has_now, now_seconds, now_offset, seconds, offset) }
}

/// Reads a relative date by the second reader, which takes turns. Returns 0 to 6.
///
/// A text of at most [`TURNS_MAX`](crate::TURNS_MAX) bytes is answered as by [`relative`]. A longer one is refused: by 1 if
/// it holds a byte of 128 or more, otherwise by 2. The current time is passed as to [`relative`].
#[inline]
#[must_use]
pub fn relative_turns(
    text: &[u8],
    has_now: u8,
    now_seconds: i64,
    now_offset: i32,
    seconds: &mut i64,
    offset: &mut i32,
) -> u8 {
    unsafe {
        c::chowderbell_relative_turns(text.as_ptr(), text.len(), has_now, now_seconds, now_offset, seconds, offset)
    }
}

/// Reads a date of any form, with raw dates read by rule 1. Returns 0 to 6, or 11.
///
/// The current time is missing if `has_now` is 0. Its two numbers are not used then.
#[inline]
#[must_use]
pub fn any(text: &[u8], has_now: u8, now_seconds: i64, now_offset: i32, seconds: &mut i64, offset: &mut i32) -> u8 {
    unsafe { c::chowderbell_any(text.as_ptr(), text.len(), has_now, now_seconds, now_offset, seconds, offset) }
}

/// Reads a date of any form, with raw dates read by the rule with this number. Returns 0 to 6, or 11.
///
/// By a number that names no rule every text is refused, as by [`raw_by`]. The current time is passed as to [`any`].
#[inline]
#[must_use]
pub fn any_by(
    rule: u32,
    text: &[u8],
    has_now: u8,
    now_seconds: i64,
    now_offset: i32,
    seconds: &mut i64,
    offset: &mut i32,
) -> u8 {
    unsafe { c::chowderbell_any_by(rule, text.as_ptr(), text.len(), has_now, now_seconds, now_offset, seconds, offset) }
}

/// Reads a date of any form, with raw dates read by the rule with this number, and with its mark. Returns 0 to 6, or 11.
///
/// The number returned, the seconds and the offset are those of [`any_by`]. The mark is that of [`raw_marked`] if the text
/// is read as a raw date, also behind `@`. Otherwise it is clear. The current time is passed as to [`any`], without a mark.
#[inline]
#[must_use]
#[allow(clippy::too_many_arguments)] // the entry has as many
pub fn any_marked(
    rule: u32,
    text: &[u8],
    has_now: u8,
    now_seconds: i64,
    now_offset: i32,
    seconds: &mut i64,
    offset: &mut i32,
    mark: &mut u8,
) -> u8 {
    unsafe {
        c::chowderbell_any_marked(
            rule,
            text.as_ptr(),
            text.len(),
            has_now,
            now_seconds,
            now_offset,
            seconds,
            offset,
            mark,
        )
    }
}

/// The length of the header date, which [`write_header`] and [`write_header_marked`] write; also if the offset is too wide to
/// be written.
#[inline]
#[must_use]
pub fn size(seconds: i64, offset: i32) -> usize {
    unsafe { c::chowderbell_size(seconds, offset) }
}

/// Writes a time with the mark clear as a header date at the start of `room`. Returns 0, 7 or 8.
#[inline]
#[must_use]
pub fn write_header(seconds: i64, offset: i32, room: &mut [u8], length: &mut usize) -> u8 {
    unsafe { c::chowderbell_write_header(seconds, offset, room.as_mut_ptr(), room.len(), length) }
}

/// Writes a time with this mark as a header date at the start of `room`. Returns 0, 7 or 8.
///
/// Offset 0 is written `-0000` if the mark is set, which it is by any value but 0. Beside any other offset the mark is
/// ignored.
#[inline]
#[must_use]
pub fn write_header_marked(seconds: i64, offset: i32, mark: u8, room: &mut [u8], length: &mut usize) -> u8 {
    unsafe { c::chowderbell_write_header_marked(seconds, offset, mark, room.as_mut_ptr(), room.len(), length) }
}

/// Writes a time as `YYYY-MM-DDTHH:MM:SS+HH:MM` at the start of `room`. Returns 0, 6, 7 or 8.
#[inline]
#[must_use]
pub fn write_iso(seconds: i64, offset: i32, room: &mut [u8], length: &mut usize) -> u8 {
    unsafe { c::chowderbell_write_iso(seconds, offset, room.as_mut_ptr(), room.len(), length) }
}

/// Checks a book of stamps. Returns 0 or 10.
///
/// `line` is the number, from 1, of the first bad line, and 0 for a book that is good or too long.
#[inline]
#[must_use]
pub fn book_check(book: &[u8], line: &mut usize) -> u8 {
    unsafe { c::chowderbell_book_check(book.as_ptr(), book.len(), line) }
}

/// Writes the listing of a book of stamps at the start of `room`. Returns 0, 8 or 10.
///
/// `line` is that of [`book_check`].
#[inline]
#[must_use]
pub fn book_list(book: &[u8], room: &mut [u8], length: &mut usize, line: &mut usize) -> u8 {
    unsafe { c::chowderbell_book_list(book.as_ptr(), book.len(), room.as_mut_ptr(), room.len(), length, line) }
}

/// Writes the compacted book at the start of `room`. Returns 0, 8 or 10.
///
/// `line` is that of [`book_check`].
#[inline]
#[must_use]
pub fn book_compact(book: &[u8], room: &mut [u8], length: &mut usize, line: &mut usize) -> u8 {
    unsafe { c::chowderbell_book_compact(book.as_ptr(), book.len(), room.as_mut_ptr(), room.len(), length, line) }
}

/// Writes the good lines of a damaged book at the start of `room`, and a row for each bad line at the start of `report`. Returns
/// 0, 8 or 10.
///
/// `last_bad` is the number, from 1, of the last bad line, and 0 if there is none. On a refusal both lengths and `last_bad` are
/// 0, and neither room is changed.
#[inline]
#[must_use]
pub fn book_salvage(
    book: &[u8],
    room: &mut [u8],
    report: &mut [u8],
    length: &mut usize,
    report_length: &mut usize,
    last_bad: &mut usize,
) -> u8 {
    unsafe {
        c::chowderbell_book_salvage(
            book.as_ptr(),
            book.len(),
            room.as_mut_ptr(),
            room.len(),
            report.as_mut_ptr(),
            report.len(),
            length,
            report_length,
            last_bad,
        )
    }
}

/// Checks two front lines, each a good `hull` line with its newline, or empty. Returns 0 or 12.
///
/// With 12, `machine` is the machine whose front line is bad, 1 before 2, and `line` is 1. Otherwise both are 0.
#[inline]
#[must_use]
pub fn fronts_check(first: &[u8], second: &[u8], machine: &mut u8, line: &mut usize) -> u8 {
    unsafe { c::chowderbell_fronts_check(first.as_ptr(), first.len(), second.as_ptr(), second.len(), machine, line) }
}

/// Finds the earlier of two front lines, the first machine's on a tie. Returns its length, with its newline.
///
/// `machine` is the machine whose line it is. If both front lines are empty, or one of them is bad, the length and `machine`
/// are 0.
#[inline]
#[must_use]
pub fn fronts_earlier(first: &[u8], second: &[u8], machine: &mut u8) -> usize {
    unsafe { c::chowderbell_fronts_earlier(first.as_ptr(), first.len(), second.as_ptr(), second.len(), machine) }
}

/// Writes the book that two lists are merged into at the start of `book`, and the paths whose keys differ at the start of
/// `report`. Returns 0, 8 or 12.
///
/// With 12, `machine` is the machine whose list is at fault, 1 or 2, and `line` its first line at fault, or 0 if the list is too
/// long. Otherwise both are 0. On a refusal both lengths are 0, and neither room is changed.
#[inline]
#[must_use]
#[allow(clippy::too_many_arguments)] // the entry has as many
pub fn lists_merge(
    first: &[u8],
    second: &[u8],
    book: &mut [u8],
    report: &mut [u8],
    book_length: &mut usize,
    report_length: &mut usize,
    machine: &mut u8,
    line: &mut usize,
) -> u8 {
    unsafe {
        c::chowderbell_lists_merge(
            first.as_ptr(),
            first.len(),
            second.as_ptr(),
            second.len(),
            book.as_mut_ptr(),
            book.len(),
            report.as_mut_ptr(),
            report.len(),
            book_length,
            report_length,
            machine,
            line,
        )
    }
}

/// Writes the strip of a month, [`strip::LENGTH`](crate::strip::LENGTH) bytes, at the start of `room`. Returns 0, 6 or 8.
///
/// The bytes are the month's length; the weekday of its first day, Monday 1 to Sunday 7; six ISO weeks, one for each row; and
/// six rows of seven days, Monday first. Where a row has no day of the month there is 0, and a row without days has week 0.
/// 6 is tested before 8.
#[inline]
#[must_use]
pub fn strip(year: i64, month: i64, room: &mut [u8], length: &mut usize) -> u8 {
    unsafe { c::chowderbell_strip(year, month, room.as_mut_ptr(), room.len(), length) }
}
