use crate::refusal::answer;
use crate::{entries, Refusal};
use core::str::FromStr;

/// The length of the longest header date, which is that of [`Time::MIN`]. A room of this many bytes holds every header.
pub const HEADER_MAX: usize = 26;
/// The length of every ISO line, `2008-02-14T20:30:45+00:00`.
pub const ISO_LENGTH: usize = 25;

/// A time: seconds since 1970, an offset from UTC in seconds, and a mark, which keeps the minus of `-0000`.
///
/// Times are made by [`Time::new`] and [`Time::with_mark`]. Equality, order and hash take in all three fields. So two times
/// that differ only in the mark are not equal, also beside an offset where the mark means nothing. Times are ordered by
/// seconds, then by offset, then by the mark, of which clear comes first. To compare instants, compare `seconds`.
///
/// ```
/// use chowderbell::Time;
///
/// let (plus, minus): (Time, Time) = ("5 +0000".parse().unwrap(), "5 -0000".parse().unwrap());
/// assert_ne!(plus, minus);
/// assert!(plus < minus);
/// assert_eq!(plus.seconds, minus.seconds); // the same instant
/// ```
#[derive(Clone, Copy, PartialEq, Eq, Hash, PartialOrd, Ord, Default, Debug)]
#[non_exhaustive]
pub struct Time {
    /// Seconds since 1 January 1970, 00:00 UTC. Negative before that.
    pub seconds: i64,
    /// How many seconds the local clock is ahead of UTC. Negative in the west.
    pub offset: i32,
    /// Whether offset 0 is written `-0000`, and not `+0000`. Beside any other offset it means nothing.
    ///
    /// Headers and raw dates are read with it, so that a header that is read and written again gives the same bytes. The
    /// other readers leave it clear, and an ISO line does not show it. The mark of a current time is not looked at.
    pub mark: bool,
}

impl Time {
    /// The smallest time, with the mark clear.
    pub const MIN: Time = Time::new(i64::MIN, -359_999);
    /// The largest time, with the mark clear.
    pub const MAX: Time = Time::new(i64::MAX, 359_999);

    /// The time of `seconds` and `offset`, with the mark clear.
    #[must_use]
    pub const fn new(seconds: i64, offset: i32) -> Time {
        Time::with_mark(seconds, offset, false)
    }

    /// The time of `seconds` and `offset` with this mark.
    ///
    /// ```
    /// use chowderbell::{Time, TimeBuf};
    ///
    /// let time = Time::with_mark(5, 0, true);
    /// assert_eq!("5 -0000".parse(), Ok(time));
    /// assert_eq!(time.to_str(&mut TimeBuf::default()), Ok("5 -0000"));
    /// assert_eq!(Time::with_mark(5, 0, false), Time::new(5, 0));
    /// ```
    #[must_use]
    pub const fn with_mark(seconds: i64, offset: i32, mark: bool) -> Time {
        Time { seconds, offset, mark }
    }

    /// The length of the header date, which [`Time::write_to`] writes; also if the offset is too wide to be written. The mark
    /// does not change it.
    ///
    /// ```
    /// assert_eq!(chowderbell::Time::new(1745582210, 7200).size(), "1745582210 +0200".len());
    /// ```
    #[must_use]
    pub fn size(self) -> usize {
        entries::size(self.seconds, self.offset)
    }

    /// Writes the time as a header date at the start of `room` and returns its length, [`Time::size`]. The bytes after it
    /// are not changed.
    ///
    /// The offset is cut to whole minutes, and its sign stays: -30 is written `-0000`. Offset 0 is written `-0000` if the
    /// mark is set, else `+0000`. Beside any other offset the mark is ignored.
    ///
    /// A header comes back byte for byte if it is seconds as this call prints them, a space, `+` or `-`, two digits of hours
    /// and two of minutes below 60: what [`parse_header`](crate::parse_header) reads from it is written as the same text.
    ///
    /// # Errors
    /// [`Refusal::Offset`] if the offset is 100 hours or more either way; [`Refusal::Room`]. `room` is not changed then.
    ///
    /// ```
    /// let mut room = [b'.'; 20];
    /// assert_eq!(chowderbell::Time::new(1745582210, 7200).write_to(&mut room), Ok(16));
    /// assert_eq!(&room, b"1745582210 +0200....");
    /// ```
    pub fn write_to(self, room: &mut [u8]) -> Result<usize, Refusal> {
        write(|length| entries::write_header_marked(self.seconds, self.offset, u8::from(self.mark), room, length))
    }

    /// Writes the time as `YYYY-MM-DDTHH:MM:SS+HH:MM` at the start of `room` and returns its length, [`ISO_LENGTH`]. The
    /// bytes after it are not changed.
    ///
    /// The offset is first cut toward zero to whole minutes, and the line shows the clock at the cut offset, with `+`
    /// where that is zero. The mark is ignored. So [`parse_iso`](crate::parse_iso) reads every line back with the same
    /// seconds, and with the mark clear.
    ///
    /// # Errors
    /// In the order in which they are tested: [`Refusal::Offset`] if the offset is 24 hours or more either way,
    /// [`Refusal::Range`], [`Refusal::Room`]. `room` is not changed then.
    ///
    /// ```
    /// let mut room = [0; chowderbell::ISO_LENGTH];
    /// assert_eq!(chowderbell::Time::new(1203039045, -18000).write_iso(&mut room), Ok(25));
    /// assert_eq!(&room, b"2008-02-14T20:30:45-05:00");
    /// ```
    pub fn write_iso(self, room: &mut [u8]) -> Result<usize, Refusal> {
        write(|length| entries::write_iso(self.seconds, self.offset, room, length))
    }

    /// The time as a header date, written into `buf`, with its mark as by [`Time::write_to`].
    ///
    /// # Errors
    /// [`Refusal::Offset`] if the offset is 100 hours or more either way.
    ///
    /// ```
    /// use chowderbell::{Time, TimeBuf};
    ///
    /// let mut buf = TimeBuf::default();
    /// assert_eq!(Time::new(-1, -1800).to_str(&mut buf), Ok("-1 -0030"));
    /// assert_eq!(Time::with_mark(-1, 0, true).to_str(&mut buf), Ok("-1 -0000"));
    /// assert_eq!(Time::new(0, 360000).to_str(&mut buf), Err(chowderbell::Refusal::Offset));
    /// ```
    pub fn to_str(self, buf: &mut TimeBuf) -> Result<&str, Refusal> {
        let length = self.write_to(&mut buf.room)?;
        Ok(buf.text(length))
    }

    /// The time as `YYYY-MM-DDTHH:MM:SS+HH:MM`, written into `buf`, with the offset cut as by [`Time::write_iso`].
    ///
    /// # Errors
    /// [`Refusal::Offset`] if the offset is 24 hours or more either way; [`Refusal::Range`].
    ///
    /// ```
    /// use chowderbell::{Time, TimeBuf};
    ///
    /// let mut buf = TimeBuf::default();
    /// assert_eq!(Time::new(0, 3600).to_iso(&mut buf), Ok("1970-01-01T01:00:00+01:00"));
    /// assert_eq!(Time::new(0, -30).to_iso(&mut buf), Ok("1970-01-01T00:00:00+00:00"));
    /// ```
    pub fn to_iso(self, buf: &mut TimeBuf) -> Result<&str, Refusal> {
        let length = self.write_iso(&mut buf.room)?;
        Ok(buf.text(length))
    }
}

/// Reads a header date with its mark, like [`parse_header`](crate::parse_header).
///
/// `str::parse` has no argument for the current time, and a header date needs none. [`parse`](crate::parse) reads any
/// form, but without a current time it would refuse every relative date.
impl FromStr for Time {
    type Err = Refusal;

    fn from_str(text: &str) -> Result<Time, Refusal> {
        crate::parse_header(text)
    }
}

/// A buffer that holds every header date and every ISO line.
#[derive(Clone, Debug, Default)]
pub struct TimeBuf {
    room: [u8; HEADER_MAX],
}

impl TimeBuf {
    /// The first `length` bytes, which a writer wrote.
    fn text(&self, length: usize) -> &str {
        core::str::from_utf8(&self.room[..length]).expect("the writers write ASCII")
    }
}

/// Calls a writer's entry.
fn write(entry: impl FnOnce(&mut usize) -> u8) -> Result<usize, Refusal> {
    let mut length = 0;
    let number = entry(&mut length);
    answer(number, length)
}
