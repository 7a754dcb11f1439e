//! Dates of the Gregorian calendar: those of a board, and the time now.

use std::time::{Duration, SystemTime, UNIX_EPOCH};

use crate::entry;
use crate::fields;

/// What a board's year 0 is.
const CENTURY: u16 = 2000;

const SECONDS_A_DAY: u64 = 24 * 60 * 60;

/// `2026-11-16 monday`, of day, weekday, month and year, where they are a date.
pub fn show(bytes: &[u8]) -> Option<String> {
    let [_, weekday, _, _] = <[u8; 4]>::try_from(bytes).ok()?;
    let date = fields::show(&fields::DATE, bytes)?;
    let text = format!("{}{date} {}", CENTURY / 100, entry::day_name(weekday)?);
    parse(&text).is_ok().then_some(text)
}

/// The bytes of such a date, whose weekday may be left out. The error says what is wrong with one that is written so.
pub fn parse(text: &str) -> Result<Vec<u8>, Option<String>> {
    let ([day, _, month, short_year], named) = numbers_of(text).ok_or(None)?;
    let year = CENTURY + u16::from(short_year);
    let days = days_in(year, month);
    if days < u64::from(day) {
        return Err(Some(format!("{year}-{month:02} has {days} days")));
    }
    let weekday = weekday_of(year, month, day);
    if named.is_some_and(|named| named != weekday) {
        let name = entry::day_name(weekday).unwrap_or_default();
        return Err(Some(format!("{year}-{month:02}-{day:02} is a {name}")));
    }
    Ok(vec![day, weekday, month, short_year])
}

/// The numbers of such a text but for the weekday, and the weekday that it names.
fn numbers_of(text: &str) -> Option<([u8; 4], Option<u8>)> {
    let (date, named) = match text.split_once(' ') {
        Some((date, name)) => (date, Some(entry::day_number(name)?)),
        None => (text, None),
    };
    let mut bytes = [0; 4];
    let short = date.strip_prefix("20").filter(|short| short.len() == 8)?;
    fields::parse(&fields::DATE, short, &mut bytes)?;
    Some((bytes, named))
}

/// 1 is Monday.
fn weekday_of(year: u16, month: u8, day: u8) -> u8 {
    let days = days_before(year, month) + u64::from(day) - 1;
    // 1 January 1970 was a Thursday.
    ((days + 3) % 7) as u8 + 1
}

/// The days from 1970 to the first of a month.
fn days_before(year: u16, month: u8) -> u64 {
    let years = 1970..year;
    let months = 1..month;
    let in_years = years.map(|year| if is_leap(year) { 366 } else { 365 });
    let in_months = months.map(|month| days_in(year, month));
    in_years.sum::<u64>() + in_months.sum::<u64>()
}

fn is_leap(year: u16) -> bool {
    year.is_multiple_of(4) && !year.is_multiple_of(100) || year.is_multiple_of(400)
}

fn days_in(year: u16, month: u8) -> u64 {
    match month {
        4 | 6 | 9 | 11 => 30,
        2 if is_leap(year) => 29,
        2 => 28,
        _ => 31,
    }
}

/// `2026-11-16T04:36:17.123Z`; a clock before 1970 shows that year's begin.
pub fn timestamp(time: SystemTime) -> String {
    let since = time.duration_since(UNIX_EPOCH).unwrap_or(Duration::ZERO);
    let (year, month, day) = date_of(since.as_secs() / SECONDS_A_DAY);
    let seconds = since.as_secs() % SECONDS_A_DAY;
    let (hour, minute, second) = (seconds / 3600, seconds / 60 % 60, seconds % 60);
    let millisecond = since.subsec_millis();
    format!("{year:04}-{month:02}-{day:02}T{hour:02}:{minute:02}:{second:02}.{millisecond:03}Z")
}

/// The date so many days after 1 January 1970, to the end of 9999.
fn date_of(days: u64) -> (u16, u8, u64) {
    let starts = |year: &u16| days_before(*year, 1) <= days;
    let year = (1970..=9999).take_while(starts).last().unwrap_or(1970);
    let starts = |month: &u8| days_before(year, *month) <= days;
    let month = (1..=12).take_while(starts).last().unwrap_or(1);
    (year, month, days - days_before(year, month) + 1)
}

#[cfg(test)]
mod tests {
    use super::*;

    #[test]
    fn a_board_date_has_its_weekday() {
        for (text, bytes) in [
            ("2000-01-01", [1, 6, 1, 0]),
            ("2000-02-29", [29, 2, 2, 0]),
            ("2026-11-16", [16, 1, 11, 26]),
            ("2099-12-31", [31, 4, 12, 99]),
        ] {
            assert_eq!(parse(text), Ok(bytes.to_vec()), "{text}");
            let shown = show(&bytes).expect("a date");
            assert!(shown.starts_with(text), "{shown}");
            assert_eq!(parse(&shown), Ok(bytes.to_vec()));
        }
        for bad in [
            "",
            "1999-01-01",
            "2100-01-01",
            "26-11-16",
            "2026-13-01",
            "2026-00-01",
            "2026-01-32",
            "2026-1-1",
            "2026-11-16 ",
            "2026-11-16 moonday",
            "2026-11-16T00",
        ] {
            assert_eq!(parse(bad), Err(None), "{bad}");
        }
    }

    #[test]
    fn a_day_that_does_not_exist_is_told_and_so_is_a_wrong_weekday() {
        for (text, objection) in [
            ("2001-02-29", "2001-02 has 28 days"),
            ("2000-02-30 tuesday", "2000-02 has 29 days"),
            ("2026-04-31", "2026-04 has 30 days"),
            ("2026-11-16 tuesday", "2026-11-16 is a monday"),
        ] {
            assert_eq!(parse(text), Err(Some(objection.to_string())));
        }
        for bad in [
            [0, 1, 1, 0],
            [1, 0, 1, 0],
            [1, 8, 1, 0],
            [1, 1, 1, 0],
            [1, 6, 13, 0],
            [1, 6, 1, 100],
            [29, 4, 2, 1],
            [31, 1, 4, 0],
        ] {
            assert_eq!(show(&bad), None, "{bad:?}");
        }
    }

    #[test]
    fn a_timestamp_is_in_universal_time() {
        for (milliseconds, text) in [
            (0, "1970-01-01T00:00:00.000Z"),
            (951_782_399_999, "2000-02-28T23:59:59.999Z"),
            (951_782_400_000, "2000-02-29T00:00:00.000Z"),
            (1_794_803_777_123, "2026-11-16T04:36:17.123Z"),
            (4_102_444_799_000, "2099-12-31T23:59:59.000Z"),
        ] {
            let time = UNIX_EPOCH + Duration::from_millis(milliseconds);
            assert_eq!(timestamp(time), text);
        }
    }
}
