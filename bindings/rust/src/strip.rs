//! A month as a calendar shows it: its length, the weekday of its first day, and rows of seven days, each with the number of
//! its ISO week.
//!
//! The calendar is the Gregorian one in all years, also before it was introduced. Year 0 is the year before year 1, and is a
//! leap year. Months are counted from 1 for January. Weekdays and weeks are those of ISO 8601: a week begins on Monday, and
//! has the number that its Thursday has in its year. So the first row of January may belong to the last week of the year
//! before, and the last row of December to week 1 of the next year.

use crate::refusal::answer;
use crate::{entries, Refusal};

/// The length, in bytes, of every strip, as [`entries::strip`] writes it.
pub const LENGTH: usize = 50;

/// The rows of a strip. February has four rows if it has 28 days and begins on a Monday. Any other month has five or six.
const ROWS: usize = 6;
const DAYS_PER_WEEK: usize = 7;
/// Where the weeks and the days begin in the bytes of a strip.
const WEEKS_AT: usize = 2;
const DAYS_AT: usize = WEEKS_AT + ROWS;

/// The strip of a month, which [`Strip::of_month`] makes.
///
/// ```
/// use chowderbell::strip::Strip;
///
/// let may = Strip::of_month(2021, 5).unwrap();
/// for (week, days) in may.weeks.iter().zip(&may.days).filter(|(week, _)| **week != 0) {
///     println!("{week:2} | {days:2?}");
/// }
/// // of the sixth row only the Monday is in May
/// assert_eq!((may.weeks[5], may.days[5]), (22, [31, 0, 0, 0, 0, 0, 0]));
/// ```
#[derive(Clone, Copy, PartialEq, Eq, Hash, Debug)]
#[non_exhaustive]
pub struct Strip {
    /// The length of the month in days, 28 to 31.
    pub length: u8,
    /// The weekday of the first day: 1 for Monday to 7 for Sunday.
    pub weekday: u8,
    /// The ISO week of each row, 1 to 53, or 0 for a row that has no day of the month.
    pub weeks: [u8; 6],
    /// The days of each row, from Monday to Sunday, or 0 where the day is not in the month. The first row has day 1.
    pub days: [[u8; 7]; 6],
}

impl Strip {
    /// The strip of a month. A call reads the table of 4,800 months, which stands in the archive once.
    ///
    /// # Errors
    /// [`Refusal::Range`] if the year is not -9999 to 9999 or the month is not 1 to 12.
    ///
    /// ```
    /// use chowderbell::{strip::Strip, Refusal};
    ///
    /// let january = Strip::of_month(2021, 1).unwrap();
    /// assert_eq!(january.length, 31);
    /// assert_eq!(january.weekday, 5); // a Friday
    /// assert_eq!(january.weeks, [53, 1, 2, 3, 4, 0]); // the first row is in the last week of 2020
    /// assert_eq!(january.days[0], [0, 0, 0, 0, 1, 2, 3]);
    /// assert_eq!(january.days[4], [25, 26, 27, 28, 29, 30, 31]);
    /// assert_eq!(january.days[5], [0; 7]);
    ///
    /// assert_eq!(Strip::of_month(10000, 1), Err(Refusal::Range));
    /// assert_eq!(Strip::of_month(2021, 13), Err(Refusal::Range));
    /// ```
    pub fn of_month(year: i64, month: i64) -> Result<Strip, Refusal> {
        let (mut room, mut length) = ([0; LENGTH], 0);
        let number = entries::strip(year, month, &mut room, &mut length);
        answer(number, Strip::from_room(&room))
    }

    /// The strip with these bytes, which the entry wrote.
    fn from_room(room: &[u8; LENGTH]) -> Strip {
        let mut strip = Strip { length: room[0], weekday: room[1], weeks: [0; ROWS], days: [[0; DAYS_PER_WEEK]; ROWS] };
        strip.weeks.copy_from_slice(&room[WEEKS_AT..DAYS_AT]);
        for (row, days) in strip.days.iter_mut().zip(room[DAYS_AT..].chunks_exact(DAYS_PER_WEEK)) {
            row.copy_from_slice(days);
        }
        strip
    }
}
