//! An entry of the weekly schedule, as the command line takes it and shows it.

use std::fmt;
use std::ops::RangeInclusive;

/// The schedule's parameter.
pub const NUMBER: u16 = 0x0077;

/// Where a command for rows is given the schedule.
pub const HINT: &str = "0x0077 (schedule-setup) is the weekly schedule: use `udgornwy schedule get` and `udgornwy schedule set`";

/// The bytes of an entry with its place.
const SIZE: usize = 6;

/// The first is 1.
const DAYS: [&str; 7] = [
    "monday",
    "tuesday",
    "wednesday",
    "thursday",
    "friday",
    "saturday",
    "sunday",
];

const PERIODS: RangeInclusive<u8> = 1..=4;

/// Days that one write sets alike.
struct Group {
    names: &'static [&'static str],
    number: u8,
    /// The day whose entry is reported.
    first: u8,
}

const GROUPS: [Group; 3] = [
    Group {
        names: &["every-day", "all", "0"],
        number: 0,
        first: 1,
    },
    Group {
        names: &["weekdays", "8"],
        number: 8,
        first: 1,
    },
    Group {
        names: &["weekend", "9"],
        number: 9,
        first: 6,
    },
];

/// Which entry: a day, and its period.
#[derive(Clone, Copy, Debug, PartialEq, Eq)]
pub struct Place {
    pub day: u8,
    pub period: u8,
}

impl Place {
    /// The place that begins a value.
    pub fn of(value: &[u8]) -> Option<Place> {
        match *value {
            [day, period, ..] => Some(Place { day, period }),
            _ => None,
        }
    }

    /// Where the entry stands that a command for this place reports.
    pub fn reported(self) -> Place {
        let group = GROUPS.iter().find(|group| group.number == self.day);
        Place {
            day: group.map_or(self.day, |group| group.first),
            ..self
        }
    }
}

impl fmt::Display for Place {
    fn fmt(&self, formatter: &mut fmt::Formatter<'_>) -> fmt::Result {
        write!(formatter, "{}, period {}", name_of(self.day), self.period)
    }
}

/// The name of a day, 1 being Monday.
pub fn day_name(day: u8) -> Option<&'static str> {
    let mut named = (1..).zip(DAYS);
    named
        .find(|(number, _)| *number == day)
        .map(|(_, name)| name)
}

pub fn day_number(name: &str) -> Option<u8> {
    let mut named = (1..).zip(DAYS);
    named
        .find(|(_, known)| *known == name)
        .map(|(number, _)| number)
}

/// The name of a day or of a group.
fn name_of(day: u8) -> String {
    let group = GROUPS.iter().find(|group| group.number == day);
    let name = day_name(day).or(group.map(|group| group.names[0]));
    name.map_or_else(|| format!("day {day}"), String::from)
}

#[derive(Clone, Copy, Debug, PartialEq, Eq)]
pub struct Entry {
    pub place: Place,
    /// 0 is standby.
    pub speed: u8,
    /// Whole degrees; 0 is ventilation only.
    pub temperature: u8,
    /// When the period ends.
    pub minute: u8,
    pub hour: u8,
}

impl Entry {
    /// The words `DAY PERIOD SPEED TEMPERATURE HH:MM`; the day may be a group.
    pub fn parse(words: [&str; 5]) -> Result<Entry, String> {
        let [day, period, speed, temperature, end] = words;
        let place = Place {
            day: parse_days(day)?,
            period: parse_period(period)?,
        };
        let speed = parse_number("speed", speed, "0 to 5", |number| number <= 5)?;
        let degrees = |number| matches!(number, 0 | 15..=30);
        let temperature = parse_number("temperature", temperature, "0 or 15 to 30", degrees)?;
        let (hour, minute) = parse_time(end)?;
        Ok(Entry {
            place,
            speed,
            temperature,
            minute,
            hour,
        })
    }

    /// The words that `parse` takes.
    pub fn words(&self) -> String {
        let Entry {
            place: Place { day, period },
            speed,
            temperature,
            minute,
            hour,
        } = *self;
        let day = name_of(day);
        format!("{day} {period} {speed} {temperature} {hour:02}:{minute:02}")
    }

    /// The value that a write bears.
    pub fn value(&self) -> Vec<u8> {
        let Place { day, period } = self.place;
        vec![
            day,
            period,
            self.speed,
            self.temperature,
            self.minute,
            self.hour,
        ]
    }

    /// The entry of a reported value.
    pub fn of(value: &[u8]) -> Option<Entry> {
        let [day, period, speed, temperature, minute, hour] = <[u8; SIZE]>::try_from(value).ok()?;
        Some(Entry {
            place: Place { day, period },
            speed,
            temperature,
            minute,
            hour,
        })
    }
}

impl fmt::Display for Entry {
    fn fmt(&self, formatter: &mut fmt::Formatter<'_>) -> fmt::Result {
        let speed = match self.speed {
            0 => String::from("standby"),
            speed => format!("speed {speed}"),
        };
        let temperature = match self.temperature {
            0 => String::from("ventilation only"),
            degrees => format!("{degrees} degrees"),
        };
        let (day, period) = (name_of(self.place.day), self.place.period);
        let (hour, minute) = (self.hour, self.minute);
        write!(
            formatter,
            "{day:<9}  period {period}  {speed:<7}  {temperature:<16}  until {hour:02}:{minute:02}"
        )
    }
}

/// The entries that `[DAY [PERIOD]]` names, in the schedule's order.
pub fn parse_places(words: &[&str]) -> Result<Vec<Place>, String> {
    let (day, period) = match words {
        [] => (None, None),
        [day] => (Some(parse_day(day)?), None),
        [day, period] => (Some(parse_day(day)?), Some(parse_period(period)?)),
        _ => return Err(String::from("schedule get takes DAY and PERIOD at most")),
    };
    let is_meant = |place: &Place| {
        day.is_none_or(|day| day == place.day) && period.is_none_or(|period| period == place.period)
    };
    Ok(places().filter(is_meant).collect())
}

/// The whole schedule's.
pub fn places() -> impl Iterator<Item = Place> {
    (1..=7).flat_map(|day| PERIODS.map(move |period| Place { day, period }))
}

/// A day's number: its name, the first three letters of it, or the number.
fn parse_day(text: &str) -> Result<u8, String> {
    let is_meant = |(number, name): &(u8, &str)| {
        text == *name || text == &name[..3] || text == number.to_string()
    };
    if let Some((number, _)) = (1..).zip(DAYS).find(is_meant) {
        return Ok(number);
    }
    if find_group(text).is_some() {
        return Err(format!(
            "`{text}` is several days, which `schedule set` alone takes: write one day, like monday"
        ));
    }
    Err(format!(
        "`{text}` is no day: write monday, mon or 1, and so on; for `schedule set` also weekdays, weekend or every-day"
    ))
}

/// The number of a day or of a group.
fn parse_days(text: &str) -> Result<u8, String> {
    match find_group(text) {
        Some(group) => Ok(group.number),
        None => parse_day(text),
    }
}

fn find_group(text: &str) -> Option<&'static Group> {
    GROUPS.iter().find(|group| group.names.contains(&text))
}

fn parse_period(text: &str) -> Result<u8, String> {
    parse_number("period", text, "1 to 4", |number| PERIODS.contains(&number))
}

fn parse_number(
    what: &str,
    text: &str,
    legal: &str,
    is_legal: impl Fn(u8) -> bool,
) -> Result<u8, String> {
    match parse_digits(text) {
        Some(number) if is_legal(number) => Ok(number),
        _ => Err(format!("the {what} is {legal}, not `{text}`")),
    }
}

/// `HH:MM`: the hour and the minute.
fn parse_time(text: &str) -> Result<(u8, u8), String> {
    let two = |digits: &str| parse_digits(digits).filter(|_| digits.len() == 2);
    let parts = text.split_once(':');
    match parts.map(|(hour, minute)| (two(hour), two(minute))) {
        Some((Some(hour @ 0..=23), Some(minute @ 0..=59))) => Ok((hour, minute)),
        _ => Err(format!("the end is 00:00 to 23:59, not `{text}`")),
    }
}

fn parse_digits(text: &str) -> Option<u8> {
    let digits = text.bytes().all(|byte| byte.is_ascii_digit());
    text.parse().ok().filter(|_| digits)
}

#[cfg(test)]
mod tests {
    use super::*;

    fn parsed(text: &str) -> Result<Entry, String> {
        let words: Vec<&str> = text.split(' ').collect();
        Entry::parse(words.try_into().expect("five words"))
    }

    #[test]
    fn an_entry_has_the_bytes_of_the_guide() {
        for (text, value) in [
            ("monday 1 3 21 08:30", [1, 1, 3, 21, 30, 8]),
            ("wed 4 0 0 00:00", [3, 4, 0, 0, 0, 0]),
            ("7 2 5 15 23:59", [7, 2, 5, 15, 59, 23]),
            ("all 1 1 30 09:05", [0, 1, 1, 30, 5, 9]),
            ("every-day 1 1 30 09:05", [0, 1, 1, 30, 5, 9]),
            ("weekdays 3 2 0 17:00", [8, 3, 2, 0, 0, 17]),
            ("weekend 3 2 0 17:00", [9, 3, 2, 0, 0, 17]),
            ("0 3 2 0 17:00", [0, 3, 2, 0, 0, 17]),
            ("8 3 2 0 17:00", [8, 3, 2, 0, 0, 17]),
            ("9 3 2 0 17:00", [9, 3, 2, 0, 0, 17]),
        ] {
            let entry = parsed(text).expect(text);
            assert_eq!(entry.value(), value, "{text}");
            assert_eq!(Entry::of(&value), Some(entry));
            assert_eq!(Place::of(&value), Some(entry.place));
        }
        assert_eq!(Place::of(&[1]), None);
        assert_eq!(Entry::of(&[1; 5]), None);
        assert_eq!(Entry::of(&[1; 7]), None);
    }

    #[test]
    fn entries_that_are_none() {
        for bad in [
            "10 1 3 21 08:30",
            "Monday 1 3 21 08:30",
            "mo 1 3 21 08:30",
            "week 1 3 21 08:30",
            "01 1 3 21 08:30",
            " 1 3 21 08:30",
            "monday 0 3 21 08:30",
            "monday 5 3 21 08:30",
            "monday 1 6 21 08:30",
            "monday 1 -1 21 08:30",
            "monday 1 +1 21 08:30",
            "monday 1 256 21 08:30",
            "monday 1  21 08:30",
            "monday 1 3 14 08:30",
            "monday 1 3 31 08:30",
            "monday 1 3 21.5 08:30",
            "monday 1 3 21 24:00",
            "monday 1 3 21 08:60",
            "monday 1 3 21 8:30",
            "monday 1 3 21 08:3",
            "monday 1 3 21 0830",
            "monday 1 3 21 08:030",
            "monday 1 3 21 08:30:00",
            "monday 1 3 21 +8:30",
        ] {
            assert!(parsed(bad).is_err(), "{bad}");
        }
    }

    #[test]
    fn places_are_the_week_a_day_or_a_period() {
        let week = parse_places(&[]).expect("the week");
        let numbers: Vec<u8> = week
            .iter()
            .map(|place| 10 * place.day + place.period)
            .collect();
        assert_eq!(numbers.len(), 28);
        assert_eq!((numbers[0], numbers[3], numbers[4]), (11, 14, 21));
        assert!(numbers.windows(2).all(|pair| pair[0] < pair[1]));
        assert_eq!(parse_places(&["tue"]), Ok(week[4..8].to_vec()));
        assert_eq!(parse_places(&["sunday", "4"]), Ok(week[27..].to_vec()));
        for bad in [
            &["0"][..],
            &["8"],
            &["weekend"],
            &["all"],
            &["sun", "0"],
            &["sun", "5"],
            &["sun", "1", "1"],
        ] {
            assert!(parse_places(bad).is_err(), "{bad:?}");
        }
    }

    #[test]
    fn places_have_words() {
        for (day, words) in [
            (7, "sunday, period 2"),
            (0, "every-day, period 2"),
            (9, "weekend, period 2"),
            (10, "day 10, period 2"),
        ] {
            assert_eq!(Place { day, period: 2 }.to_string(), words);
        }
    }

    #[test]
    fn an_entry_has_the_words_that_set_takes() {
        for words in ["monday 1 3 21 08:30", "sunday 4 0 0 00:00"] {
            assert_eq!(parsed(words).expect(words).words(), words);
        }
    }

    #[test]
    fn a_group_reports_its_first_day() {
        for (day, first) in [(0, 1), (8, 1), (9, 6), (1, 1), (5, 5), (7, 7)] {
            let asked = Place { day, period: 2 };
            assert_eq!(
                asked.reported(),
                Place {
                    day: first,
                    period: 2
                }
            );
        }
    }

    #[test]
    fn an_entry_is_a_line_of_words() {
        for (value, line) in [
            (
                [1, 1, 0, 0, 0, 0],
                "monday     period 1  standby  ventilation only  until 00:00",
            ),
            (
                [3, 4, 5, 21, 5, 9],
                "wednesday  period 4  speed 5  21 degrees        until 09:05",
            ),
            (
                [12, 9, 200, 255, 77, 99],
                "day 12     period 9  speed 200  255 degrees       until 99:77",
            ),
        ] {
            assert_eq!(Entry::of(&value).expect("an entry").to_string(), line);
        }
    }
}
