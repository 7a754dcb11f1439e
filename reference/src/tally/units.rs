//! What calls meet of the unit types: boards of each, rows that a type lacks, refusals of a wrong type.

use super::{is_search, request};
use crate::block::Command;
use crate::call::{self, Call};
use crate::record::Record;
use crate::rows::{self, Stars, UNIT_TYPE_ROW};
use crate::schedule;
use crate::units::{self, MICRA};

/// The type that has every row of VENTO Expert.
const FULL_EXPERT: u8 = 3;
/// The row whose size differs between the products.
const FILTER_COUNTDOWN: u16 = 0x0064;

/// What boards of every type meet.
const ON_EACH: &str = "set up, packet accepted, search reports 00B9, record shown, 0064 measured, \
    000B measured, 0064 of the other product's size refused 31, \
    measure refused 30 where another type has the row, a row of the other product unknown, \
    poke of a row that the type lacks";

/// What boards of VENTO Expert meet.
const ON_EXPERT: &str = "0077 unknown under 01, 0077 silent under 02, 0077 unknown under 03, \
    0077 unknown under 04, 0077 unknown under 05, poke of an entry";

/// Rows with stars on the types that have them, and on those that lack them.
const STARRED: [&str; 6] = [
    "type 3: one star known",
    "type 3: two stars known",
    "type 4: one star known",
    "type 4: two stars unknown",
    "type 5: one star unknown",
    "type 5: two stars unknown",
];

/// Other calls in which the type plays a part.
const CALLS: [&str; 7] = [
    "set-up without a type",
    "set-up refused with 22, the type wrong too",
    "packet refused 70, no unit type",
    "packet refused 70, another type than 00B9",
    "measure refused 70, no unit type",
    "measure refused 70, another type than 00B9",
    "record of no unit type shown",
];

/// The names of all outcomes that a comparison has to meet.
pub fn expected() -> Vec<String> {
    let names = |unit_type: u8, outcomes: &'static str| {
        let outcomes = outcomes.split(", ");
        outcomes.map(move |outcome| named(unit_type, outcome))
    };
    let on_each = units::ALL.flat_map(|unit_type| names(unit_type, ON_EACH));
    let on_expert = units::EXPERT.flat_map(|unit_type| names(unit_type, ON_EXPERT));
    let others = STARRED.into_iter().chain(CALLS).map(String::from);
    on_each.chain(on_expert).chain(others).collect()
}

fn named(unit_type: u8, outcome: &str) -> String {
    format!("type {unit_type}: {outcome}")
}

/// The names that a call met; the record is the one after it.
pub fn met(line: &str, answer: &str, record: &Record) -> Vec<String> {
    let Some(call) = call::parse(line) else {
        return Vec::new();
    };
    let outcomes = match &call {
        Call::Setup { unit_type, .. } => return setup_names(*unit_type, answer),
        _ if answer == "refused 70" => return Vec::from_iter(refused_name(line, record)),
        Call::Packet { packet, .. } if !answer.starts_with("refused ") => {
            packet_outcomes(packet, answer, record)
        }
        call => Vec::from_iter(call_outcome(call, answer, record)),
    };
    match units::ALL.contains(&record.unit_type) {
        true => outcomes
            .iter()
            .map(|outcome| named(record.unit_type, outcome))
            .collect(),
        false if call == Call::Record => vec!["record of no unit type shown".to_string()],
        false => Vec::new(),
    }
}

fn setup_names(unit_type: Option<u8>, answer: &str) -> Vec<String> {
    match (answer, unit_type) {
        ("accepted", None) => vec![named(MICRA, "set up"), "set-up without a type".to_string()],
        ("accepted", Some(unit_type)) => vec![named(unit_type, "set up")],
        ("refused 22", Some(unit_type)) if !units::ALL.contains(&unit_type) => {
            vec!["set-up refused with 22, the type wrong too".to_string()]
        }
        _ => Vec::new(),
    }
}

/// The cause of a refusal 70 that is the unit type alone.
fn refused_name(line: &str, record: &Record) -> Option<String> {
    let call = line.split(' ').next()?;
    let row = &record.values[&UNIT_TYPE_ROW];
    let mended = Record {
        unit_type: row[0],
        ..record.clone()
    };
    mended.check().ok()?;
    let cause = match units::ALL.contains(&record.unit_type) {
        true => "another type than 00B9",
        false => "no unit type",
    };
    Some(format!("{call} refused 70, {cause}"))
}

fn call_outcome(call: &Call, answer: &str, record: &Record) -> Option<&'static str> {
    let lacks = |number: &u16| rows::find(record.unit_type, *number).is_none();
    let exists = |number: &u16| {
        let mut types = units::ALL;
        types.any(|unit_type| rows::find(unit_type, *number).is_some())
    };
    match call {
        Call::Record => Some("record shown"),
        Call::PokeEntry { .. } if !record.has_schedule() => Some("poke of an entry"),
        Call::PokeRow { number, .. } if lacks(number) && exists(number) => {
            Some("poke of a row that the type lacks")
        }
        Call::Measure { number, value } => match (number, answer) {
            (&FILTER_COUNTDOWN, "accepted") => Some("0064 measured"),
            (&FILTER_COUNTDOWN, "refused 31") if matches!(value.len(), 3 | 4) => {
                Some("0064 of the other product's size refused 31")
            }
            (0x000B, "accepted") => Some("000B measured"),
            (number, "refused 30") if lacks(number) && exists(number) => {
                Some("measure refused 30 where another type has the row")
            }
            _ => None,
        },
        _ => None,
    }
}

fn packet_outcomes(packet: &[u8], answer: &str, record: &Record) -> Vec<&'static str> {
    let Some((id, commands)) = request(packet) else {
        return Vec::new();
    };
    let mut outcomes = vec!["packet accepted"];
    if !is_search(id, record) {
        outcomes.extend(
            commands
                .iter()
                .filter_map(|command| command_outcome(command, record.unit_type)),
        );
        return outcomes;
    }
    let asked = commands
        .iter()
        .any(|command| command.number == UNIT_TYPE_ROW);
    if asked && answer != "silence" {
        outcomes.push("search reports 00B9");
    }
    outcomes
}

/// What a command on a row or on 0077 meets because of the unit type.
fn command_outcome(command: &Command, unit_type: u8) -> Option<&'static str> {
    let Command {
        number, function, ..
    } = command;
    if *number == schedule::NUMBER && unit_type != MICRA {
        return Some(match function {
            1 => "0077 unknown under 01",
            2 => "0077 silent under 02",
            3 => "0077 unknown under 03",
            4 => "0077 unknown under 04",
            _ => "0077 unknown under 05",
        });
    }
    let known = rows::find(unit_type, *number).is_some();
    let stars = rows::find(FULL_EXPERT, *number).map(|row| row.stars);
    let other = match unit_type {
        MICRA => stars.is_some(),
        _ => stars.is_none() && rows::find(MICRA, *number).is_some(),
    };
    match (stars, known) {
        (_, false) if other => Some("a row of the other product unknown"),
        _ if unit_type == MICRA => None,
        (Some(Stars::One), true) => Some("one star known"),
        (Some(Stars::One), false) => Some("one star unknown"),
        (Some(Stars::Two), true) => Some("two stars known"),
        (Some(Stars::Two), false) => Some("two stars unknown"),
        _ => None,
    }
}

#[cfg(test)]
mod tests {
    use std::collections::BTreeSet;

    use super::*;
    use crate::generate;
    use crate::packet::{self, CODE_WORD};
    use crate::record::{CLIENT, setup};
    use crate::replay::Session;

    const ID: [u8; 16] = *b"002D6E1B34565815";

    fn board(unit_type: u8) -> Record {
        setup(&ID, b"", CLIENT, unit_type).0
    }

    fn packet_names(unit_type: u8, id: &[u8], data: &[u8], answer: &str) -> Vec<String> {
        let packet = packet::write(id, b"", 1, data);
        let length = 256;
        let line = Call::Packet { length, packet }.to_string();
        met(&line, answer, &board(unit_type))
    }

    #[test]
    fn rows_are_named_by_type_and_stars() {
        for (unit_type, low, expected) in [
            (3, 0x16, Some("one star known")),
            (4, 0xB8, Some("one star known")),
            (5, 0x2D, Some("one star unknown")),
            (3, 0x63, Some("two stars known")),
            (4, 0x3A, Some("two stars unknown")),
            (5, 0x3F, Some("two stars unknown")),
            (3, 0x77, Some("0077 unknown under 01")),
            (4, 0x9F, Some("a row of the other product unknown")),
            (2, 0x16, Some("a row of the other product unknown")),
            (2, 0x44, Some("a row of the other product unknown")),
            (2, 0x63, None),
            (2, 0x77, None),
            (3, 0x01, None),
            (5, 0x65, None),
        ] {
            let outcomes = ["packet accepted"].into_iter().chain(expected);
            let expected: Vec<String> = outcomes.map(|name| named(unit_type, name)).collect();
            let names = packet_names(unit_type, &ID, &[low], "response 00");
            assert_eq!(names, expected);
        }
        assert!(packet_names(3, &ID, &[0x16], "refused 8").is_empty());
        let search = packet_names(4, &CODE_WORD, &[0x16, 0xB9], "response 00");
        let expected = ["packet accepted", "search reports 00B9"];
        assert_eq!(search, expected.map(|name| named(4, name)));
    }

    #[test]
    fn other_calls_are_named_by_the_type() {
        for (line, answer, expected) in [
            (
                "setup 00 - 1",
                "accepted",
                &["type 2: set up", CALLS[0]][..],
            ),
            ("setup 00 - 1 5", "accepted", &["type 5: set up"]),
            ("setup 00 - 3 6", "refused 22", &[CALLS[1]]),
            ("setup 00 - 3 5", "refused 22", &[]),
            (
                "measure 0064 000000",
                "accepted",
                &["type 4: 0064 measured"],
            ),
            ("measure 0064 00", "refused 31", &[]),
            ("poke 0077:1.1 00", "poked", &["type 4: poke of an entry"]),
            ("poke 0065 00", "poked", &[]),
            ("record", "record", &["type 4: record shown"]),
        ] {
            assert_eq!(met(line, answer, &board(4)), expected, "{line}");
        }
        let mut record = board(4);
        for (unit_type, name) in [(7, CALLS[2]), (5, CALLS[3])] {
            record.unit_type = unit_type;
            assert_eq!(met("packet 0 -", "refused 70", &record), [name]);
        }
        record.mode = 0;
        assert!(met("packet 0 -", "refused 70", &record).is_empty());
    }

    /// Every row of every type with every function, and every writable row and every measured one with another value.
    #[test]
    fn generated_lists_meet_every_row_of_every_type() {
        let (mut met, mut changed) = (BTreeSet::new(), BTreeSet::new());
        let mut session = Session::new();
        for line in generate::list(1, 40_000) {
            let before = session.record.clone();
            let answer = session.line(line.as_bytes()).unwrap_or_default();
            let unit_type = session.record.unit_type;
            let Some(call) = call::parse(&line).filter(|_| !answer.starts_with("refused ")) else {
                continue;
            };
            if let Call::Packet { packet, .. } = &call {
                let (_, commands) = request(packet).expect("a packet that was accepted");
                let commands = commands.iter();
                met.extend(commands.map(|command| (unit_type, command.number, command.function)));
            }
            if matches!(call, Call::Packet { .. } | Call::Measure { .. }) {
                let rows = session.record.rows().zip(before.rows());
                let changes = rows.filter(|(row, held)| row != held);
                changed.extend(changes.map(|(row, _)| (unit_type, row.0)));
            }
        }
        for unit_type in units::ALL {
            for number in rows::of(unit_type).keys() {
                let functions = 1..=5;
                assert!(functions.into_iter().all(|function| {
                    let command = (unit_type, *number, function);
                    met.contains(&command)
                }));
                let identity = matches!(*number, rows::ID_ROW | UNIT_TYPE_ROW);
                let change = changed.contains(&(unit_type, *number));
                assert_eq!(change, !identity, "{unit_type} {number:04X}");
            }
        }
    }
}
