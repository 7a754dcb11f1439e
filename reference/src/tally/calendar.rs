//! What calls meet of the calendar: which dates are stored, and why others are not.

use super::{is_search, request};
use crate::calendar::{self, Fault, days_in};
use crate::call::{self, Call};
use crate::record::Record;
use crate::rows::{self, CALENDAR_ROW};

/// Outcomes of writes of four bytes, and 70 for the calendar alone.
const OUTCOMES: [&str; 12] = [
    "stored",
    "stored: 29 February",
    "stored: 28 February of a common year",
    "stored: 1 March",
    "not stored, bad year",
    "not stored, bad month",
    "not stored, day 0",
    "not stored, 29 February of a common year",
    "not stored, 30 February",
    "not stored, 31st of a month of 30 days",
    "not stored, wrong weekday",
    "packet refused 70",
];

/// The names of all outcomes that a comparison has to meet.
pub fn expected() -> impl Iterator<Item = String> {
    OUTCOMES.into_iter().map(named)
}

fn named(outcome: &str) -> String {
    format!("0070 {outcome}")
}

/// The names that a call met; the record is the one after it.
pub fn met(line: &str, answer: &str, record: &Record) -> Vec<String> {
    let Some(Call::Packet { packet, .. }) = call::parse(line) else {
        return Vec::new();
    };
    if answer == "refused 70" {
        return Vec::from_iter(is_illegal(record).then(|| named("packet refused 70")));
    }
    let Some((id, commands)) = request(&packet).filter(|_| !answer.starts_with("refused ")) else {
        return Vec::new();
    };
    let writes = commands
        .iter()
        .filter(|command| command.number == CALENDAR_ROW && matches!(command.function, 2 | 3))
        .filter(|_| !is_search(id, record));
    writes
        .filter_map(|command| <[u8; 4]>::try_from(&command.value[..]).ok())
        .flat_map(outcomes)
        .map(named)
        .collect()
}

/// Whether a record is illegal because of its calendar alone.
fn is_illegal(record: &Record) -> bool {
    let mut mended = record.clone();
    let Some(row) = rows::find(record.unit_type, CALENDAR_ROW) else {
        return false;
    };
    let held = mended.values.insert(row.number, row.start());
    mended.check().is_ok() && !held.is_some_and(|held| row.contains(&held))
}

fn outcomes(value: [u8; 4]) -> Vec<&'static str> {
    let [day, _, month, year] = value;
    let outcome = match calendar::judge(value) {
        Ok(()) => {
            let known = match (day, month) {
                (29, 2) => Some("stored: 29 February"),
                (28, 2) if days_in(2, year) == 28 => Some("stored: 28 February of a common year"),
                (1, 3) => Some("stored: 1 March"),
                _ => None,
            };
            return ["stored"].into_iter().chain(known).collect();
        }
        Err(Fault::Year) => "not stored, bad year",
        Err(Fault::Month) => "not stored, bad month",
        Err(Fault::Weekday) => "not stored, wrong weekday",
        Err(Fault::Day) => match (day, month) {
            (0, _) => "not stored, day 0",
            (29, 2) => "not stored, 29 February of a common year",
            (30, 2) => "not stored, 30 February",
            (31, 4 | 6 | 9 | 11) => "not stored, 31st of a month of 30 days",
            _ => return Vec::new(),
        },
    };
    vec![outcome]
}

#[cfg(test)]
mod tests {
    use std::collections::BTreeSet;

    use super::*;
    use crate::generate;
    use crate::packet;
    use crate::record::{CLIENT, setup};
    use crate::units::MICRA;

    const ID: [u8; 16] = *b"002D6E1B34565815";

    fn names(id: &[u8], data: &[u8], answer: &str) -> Vec<String> {
        let (record, _) = setup(&ID, b"", CLIENT, MICRA);
        let packet = packet::write(id, b"", 3, data);
        let length = 256;
        met(
            &Call::Packet { length, packet }.to_string(),
            answer,
            &record,
        )
    }

    #[test]
    fn writes_are_named_by_their_outcome() {
        for (value, expected) in [
            ([29, 2, 2, 0], &["stored", "stored: 29 February"][..]),
            ([16, 1, 11, 26], &["stored"]),
            ([29, 4, 2, 1], &["not stored, 29 February of a common year"]),
            ([31, 1, 4, 0], &["not stored, 31st of a month of 30 days"]),
            ([1, 1, 1, 0], &["not stored, wrong weekday"]),
            ([32, 1, 1, 0], &[]),
        ] {
            let data = [&[0xFE, 4, 0x70][..], &value].concat();
            let expected: Vec<String> = expected.iter().map(|name| named(name)).collect();
            assert_eq!(names(&ID, &data, "response 00"), expected);
            assert!(names(&ID, &data, "refused 8").is_empty());
            assert!(names(&packet::CODE_WORD, &data, "silence").is_empty());
        }
        assert!(names(&ID, &[0xFE, 3, 0x70, 1, 6, 1], "response 00").is_empty());
    }

    #[test]
    fn generated_lists_meet_every_february() {
        let mut years = BTreeSet::new();
        for line in generate::list(1, 40_000) {
            let Some(Call::Packet { packet, .. }) = call::parse(&line) else {
                continue;
            };
            let commands = request(&packet).map_or(Vec::new(), |(_, commands)| commands);
            let writes = commands
                .iter()
                .filter(|command| command.number == CALENDAR_ROW);
            years.extend(writes.filter_map(|command| match command.value[..] {
                [29, _, 2, year] => Some(year),
                _ => None,
            }));
        }
        assert!((0..=99).all(|year| years.contains(&year)), "{years:?}");
    }

    #[test]
    fn a_refused_record_is_named_where_the_calendar_alone_is_illegal() {
        let (mut record, _) = setup(&ID, b"", CLIENT, MICRA);
        assert!(met("packet 0 -", "refused 70", &record).is_empty());
        record.values.insert(CALENDAR_ROW, vec![1, 1, 1, 0]);
        assert_eq!(
            met("packet 0 -", "refused 70", &record),
            ["0070 packet refused 70"]
        );
        record.mode = 3;
        assert!(met("packet 0 -", "refused 70", &record).is_empty());
    }
}
