//! Instants and the calendar.

use std::error::Error;
use std::fmt;
use std::str::FromStr;
use std::time::{Duration, SystemTime, UNIX_EPOCH};

/// The number that means "none" where a record has a time. No [`Instant`] has it.
pub const NONE: u32 = u32::MAX;

/// The seconds of every day.
const DAY: u32 = 86_400;

/// The year with which instants begin.
const FIRST_YEAR: u16 = 2000;

/// The seconds from the beginning of 1970 to that of 2000: 30 years, seven of them leap years.
const SINCE_1970: Duration = Duration::from_secs((30 * 365 + 7) * DAY as u64);

/// The days of a common year before each of its months, and before the next year.
const BEFORE: [u32; 13] = [0, 31, 59, 90, 120, 151, 181, 212, 243, 273, 304, 334, 365];

/// An instant: whole seconds since 2000-01-01T00:00:00Z. Every day has 86,400.
///
/// The last is 4,294,967,294, which is 2136-02-07T06:28:14Z. The next number, [`NONE`], is not an instant.
///
/// # Examples
///
/// ```
/// use timeslices::{Instant, Utc};
///
/// let instant: Instant = "2000-01-02T00:00:01Z".parse()?;
/// assert_eq!(instant.seconds(), 86_401);
/// assert_eq!(instant.to_string(), "2000-01-02T00:00:01Z");
///
/// let leap_day = Utc { year: 2000, month: 2, day: 29, hour: 0, minute: 0, second: 0 };
/// assert_eq!(Instant::try_from(leap_day)?.seconds(), 59 * 86_400);
/// assert!("2001-02-29T00:00:00Z".parse::<Instant>().is_err());
/// # Ok::<(), timeslices::NoInstant>(())
/// ```
#[derive(Clone, Copy, Debug, PartialEq, Eq, PartialOrd, Ord, Hash)]
pub struct Instant(u32);

/// A date and a time of day in UTC.
///
/// The fields may have any values. Converting it into an [`Instant`] checks them.
///
/// # Examples
///
/// ```
/// use timeslices::{Instant, Utc};
///
/// let last = Utc { year: 2136, month: 2, day: 7, hour: 6, minute: 28, second: 14 };
/// assert_eq!(Utc::from(Instant::LAST), last);
/// assert_eq!(last.to_string(), "2136-02-07T06:28:14Z");
/// ```
#[derive(Clone, Copy, Debug, PartialEq, Eq, PartialOrd, Ord, Hash)]
pub struct Utc {
    /// The year, 2000 to 2136.
    pub year: u16,
    /// The month, 1 to 12.
    pub month: u8,
    /// The day of the month, from 1.
    pub day: u8,
    /// The hour, 0 to 23.
    pub hour: u8,
    /// The minute, 0 to 59.
    pub minute: u8,
    /// The second, 0 to 59.
    pub second: u8,
}

/// The error of a text, date or time that is not an instant.
#[derive(Clone, Copy, Debug, PartialEq, Eq, Hash)]
pub enum NoInstant {
    /// The text is not of the form 2026-11-15T22:54:43Z.
    Form,
    /// The calendar has no such date.
    Date,
    /// A day has no such time. There are no leap seconds.
    TimeOfDay,
    /// It is before 2000-01-01T00:00:00Z.
    Early,
    /// It is after 2136-02-07T06:28:14Z.
    Late,
}

impl Instant {
    /// The first instant, 2000-01-01T00:00:00Z.
    pub const FIRST: Instant = Instant(0);

    /// The last instant, 2136-02-07T06:28:14Z.
    pub const LAST: Instant = Instant(NONE - 1);

    /// Returns the instant of a number of seconds since 2000-01-01T00:00:00Z, or `None` for [`NONE`].
    ///
    /// # Examples
    ///
    /// ```
    /// use timeslices::{Instant, NONE};
    ///
    /// assert_eq!(Instant::new(0), Some(Instant::FIRST));
    /// assert_eq!(Instant::new(4_294_967_294), Some(Instant::LAST));
    /// assert_eq!(Instant::new(NONE), None);
    /// ```
    pub const fn new(seconds: u32) -> Option<Instant> {
        match seconds {
            NONE => None,
            _ => Some(Instant(seconds)),
        }
    }

    /// Returns the number of seconds since 2000-01-01T00:00:00Z.
    ///
    /// # Examples
    ///
    /// ```
    /// assert_eq!(timeslices::Instant::LAST.seconds(), 4_294_967_294);
    /// ```
    pub const fn seconds(self) -> u32 {
        self.0
    }

    /// Returns the instant that four bytes of a record give, or `None` if they mean "none".
    ///
    /// # Examples
    ///
    /// ```
    /// use timeslices::Instant;
    ///
    /// assert_eq!(Instant::from_be_bytes([0, 0, 1, 44]), Instant::new(300));
    /// assert_eq!(Instant::from_be_bytes([255; 4]), None);
    /// ```
    pub const fn from_be_bytes(bytes: [u8; 4]) -> Option<Instant> {
        Instant::new(u32::from_be_bytes(bytes))
    }

    /// Returns the four bytes that give the instant in a record.
    ///
    /// # Examples
    ///
    /// ```
    /// let instant: timeslices::Instant = "2000-01-01T00:05:00Z".parse()?;
    /// assert_eq!(instant.to_be_bytes(), [0, 0, 1, 44]);
    /// # Ok::<(), timeslices::NoInstant>(())
    /// ```
    pub const fn to_be_bytes(self) -> [u8; 4] {
        self.0.to_be_bytes()
    }

    /// Returns the instant of a number of seconds since the beginning of 2000, if it is not too late.
    fn counted(seconds: u64) -> Result<Instant, NoInstant> {
        let seconds = u32::try_from(seconds).ok();
        seconds.and_then(Instant::new).ok_or(NoInstant::Late)
    }
}

/// Returns whether a year has a 29 February.
fn is_leap(year: u16) -> bool {
    year % 4 == 0 && (year % 100 != 0 || year % 400 == 0)
}

/// Returns the days from the beginning of 2000 to that of a year: 365 for each year, and one for each leap
/// year.
fn days_before_year(year: u16) -> u32 {
    let years = u32::from(year - FIRST_YEAR);
    365 * years + years.div_ceil(4) - years.div_ceil(100) + years.div_ceil(400)
}

/// Returns the days of a year before a month; month 13 is the first of the next year.
fn days_before_month(year: u16, month: u8) -> u32 {
    let leap_day = u32::from(month > 2 && is_leap(year));
    BEFORE[usize::from(month - 1)] + leap_day
}

/// Returns the days of a month.
fn days_of_month(year: u16, month: u8) -> u32 {
    days_before_month(year, month + 1) - days_before_month(year, month)
}

/// Returns the number that at most four decimal digits give.
fn number_of(digits: &[u8]) -> Option<u16> {
    digits.iter().try_fold(0, |number, digit| match digit {
        b'0'..=b'9' => Some(10 * number + u16::from(digit - b'0')),
        _ => None,
    })
}

impl Utc {
    /// Checks the date and the time.
    fn check(self) -> Result<(), NoInstant> {
        let Utc {
            year, month, day, ..
        } = self;
        if !(1..=12).contains(&month) || !(1..=days_of_month(year, month)).contains(&day.into()) {
            return Err(NoInstant::Date);
        }
        if self.hour > 23 || self.minute > 59 || self.second > 59 {
            return Err(NoInstant::TimeOfDay);
        }
        if year < FIRST_YEAR {
            return Err(NoInstant::Early);
        }
        Ok(())
    }

    /// Returns the date of a day, counted from 2000-01-01, at midnight.
    fn of_day(day: u32) -> Utc {
        // most years have 365 days and some have 366, so the year may be one too late
        let years = (day / 365) as u16;
        let late = days_before_year(FIRST_YEAR + years) > day;
        let year = FIRST_YEAR + years - u16::from(late);
        let day = day - days_before_year(year);
        let begun = |month: &u8| days_before_month(year, *month) <= day;
        let month = (1..=12).filter(begun).count() as u8;
        let day = (day - days_before_month(year, month)) as u8 + 1;
        Utc {
            year,
            month,
            day,
            hour: 0,
            minute: 0,
            second: 0,
        }
    }

    /// Returns the date and time that a text gives, without checking them.
    fn read(text: &str) -> Option<Utc> {
        let text: &[u8; 20] = text.as_bytes().try_into().ok()?;
        let marks = [4, 7, 10, 13, 16, 19].map(|place| text[place]);
        let two = |place: usize| number_of(&text[place..place + 2]).map(|number| number as u8);
        let utc = Utc {
            year: number_of(&text[..4])?,
            month: two(5)?,
            day: two(8)?,
            hour: two(11)?,
            minute: two(14)?,
            second: two(17)?,
        };
        (marks == *b"--T::Z").then_some(utc)
    }
}

impl TryFrom<Utc> for Instant {
    type Error = NoInstant;

    /// Returns the instant of a date and time.
    ///
    /// # Errors
    ///
    /// Returns what is wrong with the date or the time.
    fn try_from(utc: Utc) -> Result<Instant, NoInstant> {
        utc.check()?;
        let before = days_before_year(utc.year) + days_before_month(utc.year, utc.month);
        let days = u64::from(before) + u64::from(utc.day) - 1;
        let hours = 24 * days + u64::from(utc.hour);
        let minutes = 60 * hours + u64::from(utc.minute);
        Instant::counted(60 * minutes + u64::from(utc.second))
    }
}

impl From<Instant> for Utc {
    /// Returns the date and time of an instant.
    fn from(instant: Instant) -> Utc {
        let seconds = instant.0 % DAY;
        Utc {
            hour: (seconds / 3600) as u8,
            minute: (seconds / 60 % 60) as u8,
            second: (seconds % 60) as u8,
            ..Utc::of_day(instant.0 / DAY)
        }
    }
}

impl TryFrom<SystemTime> for Instant {
    type Error = NoInstant;

    /// Returns the instant of a system time, rounded down to whole seconds.
    ///
    /// # Errors
    ///
    /// Returns [`NoInstant::Early`] or [`NoInstant::Late`].
    fn try_from(time: SystemTime) -> Result<Instant, NoInstant> {
        let since = time.duration_since(UNIX_EPOCH + SINCE_1970);
        Instant::counted(since.map_err(|_| NoInstant::Early)?.as_secs())
    }
}

impl From<Instant> for SystemTime {
    /// Returns the system time of an instant.
    fn from(instant: Instant) -> SystemTime {
        UNIX_EPOCH + SINCE_1970 + Duration::from_secs(instant.0.into())
    }
}

impl FromStr for Instant {
    type Err = NoInstant;

    /// Returns the instant of a text such as 2026-11-15T22:54:43Z.
    ///
    /// # Errors
    ///
    /// Returns what is wrong with the text, the date or the time.
    fn from_str(text: &str) -> Result<Instant, NoInstant> {
        Utc::read(text).ok_or(NoInstant::Form)?.try_into()
    }
}

impl fmt::Display for Instant {
    /// Writes the date and time in the form 2026-11-15T22:54:43Z.
    fn fmt(&self, f: &mut fmt::Formatter<'_>) -> fmt::Result {
        Utc::from(*self).fmt(f)
    }
}

impl fmt::Display for Utc {
    /// Writes the date and time in the form 2026-11-15T22:54:43Z.
    fn fmt(&self, f: &mut fmt::Formatter<'_>) -> fmt::Result {
        let Utc {
            year,
            month,
            day,
            hour,
            minute,
            second,
        } = self;
        write!(
            f,
            "{year:04}-{month:02}-{day:02}T{hour:02}:{minute:02}:{second:02}Z"
        )
    }
}

impl fmt::Display for NoInstant {
    /// Writes the error as a sentence.
    fn fmt(&self, f: &mut fmt::Formatter<'_>) -> fmt::Result {
        f.pad(match self {
            NoInstant::Form => "the text is not of the form 2026-11-15T22:54:43Z",
            NoInstant::Date => "the calendar has no such date",
            NoInstant::TimeOfDay => "a day has no such time",
            NoInstant::Early => "it is before 2000-01-01T00:00:00Z",
            NoInstant::Late => "it is after 2136-02-07T06:28:14Z",
        })
    }
}

impl Error for NoInstant {}
