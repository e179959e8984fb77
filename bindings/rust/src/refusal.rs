use core::fmt;

/// Why a text was not read, a time was not written, a book was not listed, compacted or salvaged, two lists were not merged, or
/// a month has no strip. The numbers are those of the C entries (RULES 2).
#[derive(Clone, Copy, PartialEq, Eq, Hash, Debug)]
#[non_exhaustive]
#[repr(u8)]
pub enum Refusal {
    /// 1: the text holds a byte of 128 or more.
    NotAscii = 1,
    /// 2: the text is not of the form asked for; or the number of a rule is not 1 or 2; or the text has more than the 4096
    /// bytes that [`parse_relative_turns`](crate::parse_relative_turns) takes.
    Form = 2,
    /// 3: the text is relative, and the current time is missing.
    Missing = 3,
    /// 4: the text is relative, and the current time is out of range: seconds -377705023201 to 253402207200, offset
    /// -93599 to 93599.
    Current = 4,
    /// 5: the text is relative and has more than [`PAIRS_MAX`](crate::PAIRS_MAX) pairs of a count and a unit.
    Pairs = 5,
    /// 6: a relative step leaves the range; or the ISO writer is given seconds out of range, or a time whose local
    /// year, at the cut offset, is not 0 to 9999; or there is no strip, since the year is not -9999 to 9999 or the month is
    /// not 1 to 12.
    Range = 6,
    /// 7: the offset is too wide to be written: 100 hours or more in a header, 24 hours or more in an ISO line.
    Offset = 7,
    /// 8: the room is shorter than the bytes to be written.
    Room = 8,
    /// 10: the book has more than 65536 bytes or a bad line; if it is to be salvaged, only if it has more than 65536 bytes.
    Book = 10,
    /// 11: the number that opens a header or a raw date is too large for 64 bits: below [`i64::MIN`] or above
    /// [`i64::MAX`].
    TooLarge = 11,
    /// 12: of the lists of two build machines, one has more than 32768 bytes, a bad line, or a line with fewer seconds than the
    /// line above it; or one of two front lines is bad.
    Lists = 12,
}

impl Refusal {
    /// Its number at the C entries.
    #[must_use]
    pub const fn number(self) -> u8 {
        self as u8
    }
}

/// The refusal with this number.
///
/// ```
/// use chowderbell::{Refusal, UnknownNumber};
///
/// assert_eq!(Refusal::try_from(2), Ok(Refusal::Form));
/// assert_eq!(Refusal::try_from(0), Err(UnknownNumber(0))); // 0 is success
/// ```
impl TryFrom<u8> for Refusal {
    type Error = UnknownNumber;

    fn try_from(number: u8) -> Result<Refusal, UnknownNumber> {
        Ok(match number {
            1 => Refusal::NotAscii,
            2 => Refusal::Form,
            3 => Refusal::Missing,
            4 => Refusal::Current,
            5 => Refusal::Pairs,
            6 => Refusal::Range,
            7 => Refusal::Offset,
            8 => Refusal::Room,
            10 => Refusal::Book,
            11 => Refusal::TooLarge,
            12 => Refusal::Lists,
            _ => return Err(UnknownNumber(number)),
        })
    }
}

impl fmt::Display for Refusal {
    fn fmt(&self, f: &mut fmt::Formatter<'_>) -> fmt::Result {
        f.write_str(match self {
            Refusal::NotAscii => "the text holds a byte of 128 or more",
            Refusal::Form => {
                "the text is not of the form asked for or is too long for its reader, or the number of a rule is not 1 or 2"
            }
            Refusal::Missing => "the text is relative, and the current time is missing",
            Refusal::Current => "the current time is out of range",
            Refusal::Pairs => "the text is relative and has too many pairs",
            Refusal::Range => "the time or the month is out of range",
            Refusal::Offset => "the offset is too wide to be written",
            Refusal::Room => "the room is shorter than the bytes to be written",
            Refusal::Book => "the book is too long or has a bad line",
            Refusal::TooLarge => "the number is too large for 64 bits",
            Refusal::Lists => "a list is too long, or has a bad line or one that is earlier than the line above it",
        })
    }
}

impl core::error::Error for Refusal {}

/// A number that is not the number of a [`Refusal`].
#[derive(Clone, Copy, PartialEq, Eq, Hash, Debug)]
pub struct UnknownNumber(pub u8);

impl fmt::Display for UnknownNumber {
    fn fmt(&self, f: &mut fmt::Formatter<'_>) -> fmt::Result {
        write!(f, "{} is not the number of a refusal", self.0)
    }
}

impl core::error::Error for UnknownNumber {}

/// The answer of an entry that returned `number`: `value` if that is 0, else the refusal.
///
/// # Panics
/// Panics if `number` is neither 0 nor the number of a refusal. The contracts of the entries rule that out, so it means
/// that the crate was linked with another version of the library. No refusal would be a true answer then.
pub(crate) fn answer<T>(number: u8, value: T) -> Result<T, Refusal> {
    if number == 0 {
        return Ok(value);
    }
    Err(Refusal::try_from(number).expect("every entry returns 0 or the number of a refusal"))
}
