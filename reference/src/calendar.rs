//! Dates of the years 2000 to 2099: which days exist, and on which weekday each falls.

/// Why four bytes are no date, the first of these.
#[derive(Clone, Copy, Debug, PartialEq, Eq)]
pub enum Fault {
    Year,
    Month,
    Day,
    Weekday,
}

/// Judges day, weekday, month and year.
pub fn judge([day, weekday, month, year]: [u8; 4]) -> Result<(), Fault> {
    if year > 99 {
        return Err(Fault::Year);
    }
    if !(1..=12).contains(&month) {
        return Err(Fault::Month);
    }
    if !(1..=days_in(month, year)).contains(&day) {
        return Err(Fault::Day);
    }
    if weekday != weekday_of(day, month, year) {
        return Err(Fault::Weekday);
    }
    Ok(())
}

/// How many days a month of the years 2000 to 2099 has.
pub fn days_in(month: u8, year: u8) -> u8 {
    match month {
        4 | 6 | 9 | 11 => 30,
        2 if is_leap(2000 + u16::from(year)) => 29,
        2 => 28,
        _ => 31,
    }
}

/// Gregorian: of the full centuries only every fourth is a leap year.
fn is_leap(year: u16) -> bool {
    match (year % 4, year % 100, year % 400) {
        (_, _, 0) => true,
        (_, 0, _) => false,
        (rest, _, _) => rest == 0,
    }
}

/// Zeller's congruence; 1 is Monday.
pub fn weekday_of(day: u8, month: u8, year: u8) -> u8 {
    let (day, month, year) = (u16::from(day), u16::from(month), 2000 + u16::from(year));
    // January and February are months 13 and 14 of the year before.
    let (month, year) = match month {
        1 | 2 => (month + 12, year - 1),
        _ => (month, year),
    };
    let (century, year) = (year / 100, year % 100);
    let from_saturday =
        (day + 13 * (month + 1) / 5 + year + year / 4 + century / 4 + 5 * century) % 7;
    ((from_saturday + 5) % 7 + 1) as u8
}

#[cfg(test)]
mod tests {
    use super::*;

    #[test]
    fn known_days_have_their_weekdays() {
        for (day, weekday, month, year) in [
            (1, 6, 1, 0),
            (29, 2, 2, 0),
            (1, 3, 3, 0),
            (28, 3, 2, 1),
            (29, 4, 2, 24),
            (16, 1, 11, 26),
            (31, 4, 12, 99),
        ] {
            assert_eq!(judge([day, weekday, month, year]), Ok(()));
            for other in (0..=255).filter(|other| *other != weekday) {
                let judged = judge([day, other, month, year]);
                assert_eq!(judged, Err(Fault::Weekday));
            }
        }
    }

    #[test]
    fn the_first_fault_is_told() {
        for (value, fault) in [
            ([0, 0, 0, 100], Fault::Year),
            ([0, 0, 0, 0], Fault::Month),
            ([0, 0, 13, 0], Fault::Month),
            ([0, 0, 1, 0], Fault::Day),
            ([32, 0, 1, 0], Fault::Day),
            ([30, 0, 2, 0], Fault::Day),
            ([29, 0, 2, 1], Fault::Day),
            ([31, 0, 4, 0], Fault::Day),
            ([1, 0, 1, 0], Fault::Weekday),
        ] {
            assert_eq!(judge(value), Err(fault), "{value:?}");
        }
    }

    #[test]
    fn full_centuries_are_leap_years_every_fourth_time() {
        assert!(is_leap(2000) && is_leap(2400) && is_leap(2096));
        assert!(!is_leap(1900) && !is_leap(2100) && !is_leap(2001) && !is_leap(2099));
    }
}
