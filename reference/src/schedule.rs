//! The weekly schedule, parameter 0077: an entry for each period of each day, beside the rows.

use std::collections::BTreeMap;
use std::ops::RangeInclusive;

pub const NUMBER: u16 = 0x0077;
pub const DAYS: RangeInclusive<u8> = 1..=7;
pub const PERIODS: RangeInclusive<u8> = 1..=4;

/// What an entry holds: speed, temperature, minute and hour of its end.
pub type Entry = [u8; 4];

/// The fields of an entry, in order.
#[derive(Clone, Copy, Debug, PartialEq, Eq)]
pub enum Field {
    Speed,
    Temperature,
    Minute,
    Hour,
}

pub const FIELDS: [Field; 4] = [Field::Speed, Field::Temperature, Field::Minute, Field::Hour];

impl Field {
    pub fn contains(self, byte: u8) -> bool {
        match self {
            Field::Speed => byte <= 5,
            Field::Temperature => byte == 0 || (15..=30).contains(&byte),
            Field::Minute => byte <= 59,
            Field::Hour => byte <= 23,
        }
    }
}

/// The first field, if any, whose byte is outside its range.
pub fn bad_field(entry: &Entry) -> Option<Field> {
    let fields = FIELDS.into_iter().zip(entry);
    fields
        .filter(|(field, byte)| !field.contains(**byte))
        .map(|(field, _)| field)
        .next()
}

/// The days that a written day stands for; none if it stands for none.
fn written_days(day: u8) -> Option<RangeInclusive<u8>> {
    match day {
        0 => Some(1..=7),
        1..=7 => Some(day..=day),
        8 => Some(1..=5),
        9 => Some(6..=7),
        _ => None,
    }
}

/// What the function and value of a command on 0077 call for.
#[derive(Debug, PartialEq, Eq)]
pub enum Request {
    Read {
        day: u8,
        period: u8,
    },
    Write {
        days: RangeInclusive<u8>,
        period: u8,
        entry: Entry,
    },
    Fault(Fault),
}

/// Why a command on 0077 is reported as unknown.
#[derive(Clone, Copy, Debug, PartialEq, Eq)]
pub enum Fault {
    Function,
    Length,
    Day,
    Period,
}

/// Judges a command; of several faults the first counts.
pub fn judge(function: u8, value: &[u8]) -> Request {
    match function {
        1 => judge_read(value),
        2 | 3 => judge_write(value),
        _ => Request::Fault(Fault::Function),
    }
}

fn judge_read(value: &[u8]) -> Request {
    let [day, period] = *value else {
        return Request::Fault(Fault::Length);
    };
    if !DAYS.contains(&day) {
        return Request::Fault(Fault::Day);
    }
    if !PERIODS.contains(&period) {
        return Request::Fault(Fault::Period);
    }
    Request::Read { day, period }
}

fn judge_write(value: &[u8]) -> Request {
    let [day, period, entry @ ..] = value else {
        return Request::Fault(Fault::Length);
    };
    let Ok(entry) = Entry::try_from(entry) else {
        return Request::Fault(Fault::Length);
    };
    let Some(days) = written_days(*day) else {
        return Request::Fault(Fault::Day);
    };
    let period = *period;
    if !PERIODS.contains(&period) {
        return Request::Fault(Fault::Period);
    }
    Request::Write {
        days,
        period,
        entry,
    }
}

/// The entries by day and period.
#[derive(Clone, Debug, PartialEq, Eq)]
pub struct Schedule {
    entries: BTreeMap<(u8, u8), Entry>,
}

impl Schedule {
    /// Every entry at its lowest values.
    pub fn start() -> Schedule {
        let places = DAYS.flat_map(|day| PERIODS.map(move |period| (day, period)));
        Schedule {
            entries: places.map(|place| (place, [0; 4])).collect(),
        }
    }

    /// Each entry with its day and period, in this order.
    pub fn entries(&self) -> impl Iterator<Item = (u8, u8, &Entry)> {
        self.entries
            .iter()
            .map(|((day, period), entry)| (*day, *period, entry))
    }

    pub fn entry(&self, day: u8, period: u8) -> &Entry {
        &self.entries[&(day, period)]
    }

    /// Whether every entry is one that a write stores.
    pub fn is_legal(&self) -> bool {
        self.entries
            .values()
            .all(|entry| bad_field(entry).is_none())
    }

    /// Runs one command; gives the value to report, or none where 0077 is reported as unknown.
    pub fn run(&mut self, function: u8, value: &[u8]) -> Option<Vec<u8>> {
        match judge(function, value) {
            Request::Read { day, period } => Some(self.shown(day, period)),
            Request::Write {
                days,
                period,
                entry,
            } => {
                let first = *days.start();
                if bad_field(&entry).is_none() {
                    self.store(days, period, entry);
                }
                Some(self.shown(first, period))
            }
            Request::Fault(_) => None,
        }
    }

    fn store(&mut self, days: RangeInclusive<u8>, period: u8, entry: Entry) {
        for day in days {
            self.entries.insert((day, period), entry);
        }
    }

    /// The six bytes of a report.
    fn shown(&self, day: u8, period: u8) -> Vec<u8> {
        [&[day, period][..], self.entry(day, period)].concat()
    }

    /// Writes an entry without any check: bytes past the fourth are dropped, missing ones become 0.
    pub fn poke(&mut self, day: u8, period: u8, value: &[u8]) {
        let mut entry = [0; 4];
        for (stored, byte) in entry.iter_mut().zip(value) {
            *stored = *byte;
        }
        self.entries.insert((day, period), entry);
    }
}

#[cfg(test)]
mod tests {
    use super::*;

    /// A schedule with another legal entry at each place.
    fn filled() -> Schedule {
        let mut schedule = Schedule::start();
        for day in DAYS {
            for period in PERIODS {
                schedule.poke(day, period, &[period, 15 + day, 10 + day, 5 + period]);
            }
        }
        schedule
    }

    /// The days whose entry differs at the period; no entry of another period may.
    fn changed(before: &Schedule, after: &Schedule, period: u8) -> Vec<u8> {
        let differs = |place: &(u8, u8, &Entry)| before.entry(place.0, place.1) != place.2;
        let places: Vec<(u8, u8, &Entry)> = after.entries().filter(differs).collect();
        assert!(places.iter().all(|place| place.1 == period));
        places.iter().map(|place| place.0).collect()
    }

    #[test]
    fn there_are_28_entries_and_they_start_at_zero() {
        let schedule = Schedule::start();
        let places: Vec<(u8, u8)> = schedule.entries().map(|(day, p, _)| (day, p)).collect();
        assert_eq!(places.len(), 28);
        assert_eq!(places[..5], [(1, 1), (1, 2), (1, 3), (1, 4), (2, 1)]);
        assert_eq!(places[27], (7, 4));
        assert!(schedule.entries().all(|(_, _, entry)| *entry == [0; 4]));
        assert!(schedule.is_legal());
    }

    #[test]
    fn fields_end_where_the_request_says() {
        let edges: [(Field, &[u8], &[u8]); 4] = [
            (Field::Speed, &[0, 1, 5], &[6, 255]),
            (Field::Temperature, &[0, 15, 30], &[1, 14, 31, 255]),
            (Field::Minute, &[0, 59], &[60, 255]),
            (Field::Hour, &[0, 23], &[24, 59, 255]),
        ];
        for (place, (field, legal, illegal)) in edges.into_iter().enumerate() {
            assert_eq!(FIELDS[place], field);
            for (byte, bad) in legal
                .iter()
                .map(|byte| (byte, None))
                .chain(illegal.iter().map(|byte| (byte, Some(field))))
            {
                let mut entry = [5, 15, 23, 23];
                entry[place] = *byte;
                assert_eq!(bad_field(&entry), bad, "{entry:?}");
                let mut schedule = Schedule::start();
                schedule.poke(4, 2, &entry);
                assert_eq!(schedule.is_legal(), bad.is_none(), "{entry:?}");
            }
        }
        assert_eq!(bad_field(&[6, 31, 60, 24]), Some(Field::Speed));
        assert_eq!(bad_field(&[5, 31, 60, 24]), Some(Field::Temperature));
        assert_eq!(bad_field(&[5, 30, 60, 24]), Some(Field::Minute));
    }

    #[test]
    fn a_read_gives_its_own_entry() {
        let mut schedule = filled();
        for day in DAYS {
            for period in PERIODS {
                let entry = [day, period, period, 15 + day, 10 + day, 5 + period];
                assert_eq!(schedule.run(1, &[day, period]), Some(entry.to_vec()));
            }
        }
        assert_eq!(schedule, filled());
    }

    #[test]
    fn other_reads_are_unknown() {
        for (value, fault) in [
            (&[][..], Fault::Length),
            (&[1], Fault::Length),
            (&[1, 1, 0], Fault::Length),
            (&[1, 1, 0, 0, 0, 0], Fault::Length),
            (&[0, 5, 0], Fault::Length),
            (&[0, 1], Fault::Day),
            (&[8, 1], Fault::Day),
            (&[9, 1], Fault::Day),
            (&[10, 5], Fault::Day),
            (&[255, 1], Fault::Day),
            (&[1, 0], Fault::Period),
            (&[7, 5], Fault::Period),
            (&[7, 255], Fault::Period),
        ] {
            assert_eq!(judge(1, value), Request::Fault(fault), "{value:?}");
            assert_eq!(filled().run(1, value), None);
        }
    }

    #[test]
    fn a_write_changes_the_entries_of_its_days_at_its_period() {
        let groups: [(u8, &[u8]); 10] = [
            (0, &[1, 2, 3, 4, 5, 6, 7]),
            (1, &[1]),
            (2, &[2]),
            (3, &[3]),
            (4, &[4]),
            (5, &[5]),
            (6, &[6]),
            (7, &[7]),
            (8, &[1, 2, 3, 4, 5]),
            (9, &[6, 7]),
        ];
        for (day, days) in groups {
            for (function, period) in [2, 3]
                .into_iter()
                .flat_map(|f| PERIODS.map(move |p| (f, p)))
            {
                let mut schedule = filled();
                let report = schedule.run(function, &[day, period, 5, 30, 59, 23]);
                assert_eq!(report, Some(vec![days[0], period, 5, 30, 59, 23]));
                assert_eq!(changed(&filled(), &schedule, period), days);
                for day in days {
                    assert_eq!(schedule.entry(*day, period), &[5, 30, 59, 23]);
                }
            }
        }
    }

    #[test]
    fn a_bad_field_stores_nothing_on_any_day() {
        for bad in [[6, 15, 0, 0], [0, 14, 0, 0], [0, 0, 60, 0], [0, 0, 0, 24]] {
            for (day, first) in [(0, 1), (8, 1), (9, 6), (1, 1), (7, 7)] {
                let mut schedule = filled();
                let value = [&[day, 3][..], &bad].concat();
                let held = vec![first, 3, 3, 15 + first, 10 + first, 8];
                assert_eq!(schedule.run(3, &value), Some(held));
                assert_eq!(schedule, filled());
            }
        }
    }

    #[test]
    fn faults_of_a_write_come_before_its_fields() {
        for function in [2, 3] {
            for (value, fault) in [
                (&[1][..], Fault::Length),
                (&[1, 1], Fault::Length),
                (&[10, 5, 6, 1, 60], Fault::Length),
                (&[1, 1, 1, 15, 0], Fault::Length),
                (&[1, 1, 1, 15, 0, 0, 0], Fault::Length),
                (&[10, 5, 6, 1, 60, 24], Fault::Day),
                (&[255, 1, 1, 15, 0, 0], Fault::Day),
                (&[0, 0, 6, 1, 60, 24], Fault::Period),
                (&[9, 5, 1, 15, 0, 0], Fault::Period),
            ] {
                assert_eq!(judge(function, value), Request::Fault(fault), "{value:?}");
                let mut schedule = filled();
                assert_eq!(schedule.run(function, value), None);
                assert_eq!(schedule, filled());
            }
        }
    }

    #[test]
    fn raise_and_lower_are_unknown_with_any_value() {
        for function in [4, 5] {
            for value in [&[][..], &[1], &[1, 1], &[1, 1, 1, 15, 0, 0]] {
                let fault = Request::Fault(Fault::Function);
                assert_eq!(judge(function, value), fault);
                let mut schedule = filled();
                assert_eq!(schedule.run(function, value), None);
                assert_eq!(schedule, filled());
            }
        }
    }

    #[test]
    fn pokes_drop_and_pad() {
        let mut schedule = Schedule::start();
        schedule.poke(2, 3, &[9, 8, 7, 6, 5]);
        assert_eq!(schedule.entry(2, 3), &[9, 8, 7, 6]);
        schedule.poke(2, 3, &[1, 2]);
        assert_eq!(schedule.entry(2, 3), &[1, 2, 0, 0]);
        schedule.poke(2, 3, &[]);
        assert_eq!(schedule, Schedule::start());
    }
}
