//! The mark that a reader must give (RULES 5.10). gix-date has none, so it follows from the text and from the offset that
//! gix-date read. These lines are written from the rules, and not from the library.

/// Whether a header that gix-date read at this offset has the mark.
///
/// gix-date does not say whether it read the second word as an offset or fell back on 0. That is tested here.
pub fn of_header(text: &str, offset: i32) -> bool {
    offset == 0 && second_of_two(text).is_some_and(|word| word.starts_with('-') && is_offset(word))
}

/// Whether a raw date that gix-date read at this offset has the mark. Without an offset it would not have been read.
pub fn of_raw(text: &str, offset: i32) -> bool {
    offset == 0 && second_of_two(text).is_some_and(|word| word.starts_with('-'))
}

/// Whether a word is an offset in a header (RULES 5.4): 5 or 7 bytes, a sign and then a digit, two-byte fields that are
/// signed numbers. The word is ASCII.
pub fn is_offset(word: &str) -> bool {
    let is_number = |place: usize| word[place..place + 2].parse::<i32>().is_ok();
    matches!(word.len(), 5 | 7)
        && word.starts_with(['+', '-'])
        && word.as_bytes()[1].is_ascii_digit()
        && (1..word.len()).step_by(2).all(is_number)
}

/// The second word of a text that has exactly two. White space is the bytes 9 to 13 and 32 (RULES 4.1).
fn second_of_two(text: &str) -> Option<&str> {
    let mut words = text.split(['\t', '\n', '\x0b', '\x0c', '\r', ' ']).filter(|word| !word.is_empty()).skip(1);
    words.next().filter(|_| words.next().is_none())
}
