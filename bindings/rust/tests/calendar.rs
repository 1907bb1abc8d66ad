//! Tests instants and the calendar against days that are counted one by one.

use std::time::{Duration, SystemTime, UNIX_EPOCH};
use timeslices::{Instant, NoInstant, Utc, NONE};

/// The seconds that are tested on every day: the limits of a minute, an hour and the day.
const SECONDS: [u32; 12] = [
    0, 1, 59, 60, 61, 3_599, 3_600, 43_199, 43_200, 86_339, 86_340, 86_399,
];

/// Texts worked out by other means, with their day and second. The first two days are AIRAC dates.
const TEXTS: [(u32, u32, &str); 6] = [
    (26, 0, "2000-01-27T00:00:00Z"),
    (7_670, 0, "2020-12-31T00:00:00Z"),
    (9_815, 82_483, "2026-11-15T22:54:43Z"),
    (14_610, 0, "2040-01-01T00:00:00Z"),
    (36_583, 86_399, "2100-02-28T23:59:59Z"),
    (49_710, 23_294, "2136-02-07T06:28:14Z"),
];

/// Dates and times that are not instants.
const WRONG: [(&str, NoInstant); 16] = [
    ("1900-02-29T00:00:00Z", NoInstant::Date),
    ("2001-02-29T00:00:00Z", NoInstant::Date),
    ("2026-04-31T00:00:00Z", NoInstant::Date),
    ("2100-02-29T00:00:00Z", NoInstant::Date),
    ("9999-12-32T00:00:00Z", NoInstant::Date),
    ("2026-11-15T24:00:00Z", NoInstant::TimeOfDay),
    ("2026-11-15T22:60:00Z", NoInstant::TimeOfDay),
    ("2016-12-31T23:59:60Z", NoInstant::TimeOfDay),
    ("0000-02-29T00:00:00Z", NoInstant::Early),
    ("1996-02-29T00:00:00Z", NoInstant::Early),
    ("1999-12-31T23:59:59Z", NoInstant::Early),
    ("2136-02-07T06:28:15Z", NoInstant::Late),
    ("2136-02-07T06:29:00Z", NoInstant::Late),
    ("2136-02-08T00:00:00Z", NoInstant::Late),
    ("2400-02-29T00:00:00Z", NoInstant::Late),
    ("9999-12-31T23:59:59Z", NoInstant::Late),
];

/// A year, a month and a day.
type Date = (u16, u8, u8);

/// Returns the last day of a month in the years that have instants.
fn last_day(year: u16, month: u8) -> u8 {
    match month {
        4 | 6 | 9 | 11 => 30,
        // of these years only 2100 is divisible by 4 but not a leap year
        2 if year % 4 == 0 && year != 2100 => 29,
        2 => 28,
        _ => 31,
    }
}

/// Returns the day after a date.
fn next((year, month, day): Date) -> Date {
    if day < last_day(year, month) {
        (year, month, day + 1)
    } else if month < 12 {
        (year, month + 1, 1)
    } else {
        (year + 1, 1, 1)
    }
}

/// Returns each day that has an instant, with the number of days before it.
fn days() -> impl Iterator<Item = (u32, Date)> {
    let dates = std::iter::successors(Some((2000, 1, 1)), |date| Some(next(*date)));
    (0..=49_710).zip(dates)
}

/// Returns a date at a second of the day.
fn at((year, month, day): Date, second: u32) -> Utc {
    Utc {
        year,
        month,
        day,
        hour: (second / 60 / 60) as u8,
        minute: (second / 60 % 60) as u8,
        second: (second % 60) as u8,
    }
}

/// Returns the instant of a number of seconds.
fn instant(seconds: u32) -> Instant {
    Instant::new(seconds).expect("not none")
}

/// Compares a number of seconds with a date and time, both ways, as numbers and as text.
fn hold(seconds: u32, utc: Utc) {
    let instant = instant(seconds);
    assert_eq!(Utc::from(instant), utc);
    assert_eq!(Instant::try_from(utc), Ok(instant));
    assert_eq!(instant.to_string(), utc.to_string());
    assert_eq!(instant.to_string().parse(), Ok(instant));
}

/// Every day from the first to the last.
#[test]
fn every_day() {
    for (day, date) in days() {
        for second in SECONDS {
            match (86_400 * day).checked_add(second) {
                Some(seconds) => hold(seconds, at(date, second)),
                None => assert_eq!(Instant::try_from(at(date, second)), Err(NoInstant::Late)),
            }
        }
    }
    assert_eq!(days().last(), Some((49_710, (2136, 2, 7))));
}

/// Every second of a day.
#[test]
fn every_second() {
    let (day, leap_day) = days()
        .find(|(_, date)| *date == (2096, 2, 29))
        .expect("a day");
    for second in 0..86_400 {
        hold(86_400 * day + second, at(leap_day, second));
    }
}

/// Every month has its own last day, and there are twelve months.
#[test]
fn there_is_no_such_date() {
    let wrong = |date| Instant::try_from(at(date, 0)).err();
    for year in 2000..=2135 {
        for month in 1..=12 {
            let last = last_day(year, month);
            assert_eq!(wrong((year, month, last)), None);
            for day in [0, last + 1, 32, u8::MAX] {
                assert_eq!(wrong((year, month, day)), Some(NoInstant::Date));
            }
        }
        for month in [0, 13, u8::MAX] {
            assert_eq!(wrong((year, month, 1)), Some(NoInstant::Date));
        }
    }
    assert_eq!(wrong((u16::MAX, 12, 31)), Some(NoInstant::Late));
    let latest = at((u16::MAX, u8::MAX, u8::MAX), u32::MAX);
    assert_eq!(Instant::try_from(latest), Err(NoInstant::Date));
}

/// Texts of instants, and texts that are not instants.
#[test]
fn texts() {
    for (day, second, text) in TEXTS {
        let seconds = 86_400 * day + second;
        assert_eq!(text.parse(), Ok(instant(seconds)));
        assert_eq!(instant(seconds).to_string(), text);
    }
    for (text, wrong) in WRONG {
        assert_eq!(text.parse::<Instant>(), Err(wrong), "{text}");
    }
}

/// Texts that differ from the form by one byte.
#[test]
fn texts_of_another_form() {
    let sound = "2026-11-15T22:54:43Z";
    let altered = (0..20).flat_map(|place| {
        let others = ["", "x", " ", "+", "é", "1é"];
        others.map(|other| [&sound[..place], other, &sound[place + 1..]].concat())
    });
    let cut = (0..20).map(|length| sound[..length].to_string());
    let longer = ["0", " ", "Z"].map(|more| [sound, more].concat());
    let before = ["0", " ", "+"].map(|more| [more, sound].concat());
    let letters = [sound.to_lowercase(), sound.replace('Z', "z")];
    let others = altered.chain(cut).chain(longer).chain(before);
    for text in others.chain(letters) {
        assert_eq!(text.parse::<Instant>(), Err(NoInstant::Form), "{text}");
    }
}

/// System times: 2000 began 946,684,800 seconds after 1970.
#[test]
fn system_times() {
    let after = |seconds: u64| UNIX_EPOCH + Duration::from_secs(946_684_800 + seconds);
    for seconds in [0, 1, 86_399, 86_400, 848_098_483, 4_294_967_294] {
        let (instant, time) = (instant(seconds), after(seconds.into()));
        assert_eq!(SystemTime::from(instant), time);
        assert_eq!(Instant::try_from(time), Ok(instant));
        let nearly_next = time + Duration::from_nanos(999_999_999);
        assert_eq!(Instant::try_from(nearly_next), Ok(instant));
    }
    for early in [UNIX_EPOCH, after(0) - Duration::from_nanos(100)] {
        assert_eq!(Instant::try_from(early), Err(NoInstant::Early));
    }
    for late in [after(NONE.into()), after(1 << 33)] {
        assert_eq!(Instant::try_from(late), Err(NoInstant::Late));
    }
}
