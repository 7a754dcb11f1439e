//! What calls meet of the weekly schedule of Micra: the outcome of each command on 0077, and what else names an entry.

use super::{is_search, request};
use crate::block::Command;
use crate::call::{self, Call};
use crate::packet::LONGEST;
use crate::record::Record;
use crate::replay::BAD_LINE;
use crate::schedule::{self, Entry, FIELDS, Fault, Field, NUMBER, Request, Schedule};

/// Outcomes of reads, raises and lowers.
const READS: [&str; 13] = [
    "read: entry reported",
    "read: FD, no value",
    "read: FD, another length",
    "read: FD, day 0",
    "read: FD, day 8",
    "read: FD, day 9",
    "read: FD, day over 9",
    "read: FD, period 0",
    "read: FD, period over 4",
    "04: FD, no value",
    "04: FD, a value",
    "05: FD, no value",
    "05: FD, a value",
];

/// Outcomes of writes, which 02 and 03 have each.
const WRITES: [&str; 20] = [
    "one day stored",
    "day 0 stored",
    "day 8 stored",
    "day 9 stored",
    "one day not stored, bad speed",
    "one day not stored, bad temperature",
    "one day not stored, bad minute",
    "one day not stored, bad hour",
    "group not stored, bad speed",
    "group not stored, bad temperature",
    "group not stored, bad minute",
    "group not stored, bad hour",
    "fault, shorter than six bytes",
    "fault, longer than six bytes",
    "fault, day over 9",
    "fault, day over 9 and a bad field",
    "fault, period 0",
    "fault, period 0 and a bad field",
    "fault, period over 4",
    "fault, period over 4 and a bad field",
];

/// The bounds of the fields: stored up to them, not stored past them.
const STORED: &str = "speed 0, speed 5, temperature 0, temperature 15, temperature 30, minute 0, \
    minute 59, hour 0, hour 23";
const NOT_STORED: &str =
    "speed 6, temperature 1, temperature 14, temperature 31, minute 60, hour 24";

/// Other calls in which the schedule plays a part.
const CALLS: [&str; 15] = [
    "passed over in a search",
    "write refused with 7 or 8",
    "write refused with 12",
    "entry in a response of 256 bytes",
    "packet refused 70, bad speed",
    "packet refused 70, bad temperature",
    "packet refused 70, bad minute",
    "packet refused 70, bad hour",
    "measure refused 70 for an entry",
    "measure refused 30",
    "poke of an entry",
    "poke without a place",
    "poke of an entry, bad line",
    "entry read by the tool",
    "entries in the record",
];

/// The names of all outcomes that a comparison has to meet.
pub fn expected() -> Vec<String> {
    let mut names: Vec<String> = READS.into_iter().chain(CALLS).map(String::from).collect();
    for function in [2, 3] {
        names.extend(WRITES.map(|write| format!("0{function}: {write}")));
    }
    names.extend(STORED.split(", ").map(|bound| format!("stored: {bound}")));
    let past = NOT_STORED.split(", ");
    names.extend(past.map(|bound| format!("not stored: {bound}")));
    names.iter().map(|name| format!("0077 {name}")).collect()
}

/// The names that a call met; the record is the one after it.
pub fn met(line: &str, answer: &str, record: &Record) -> Vec<String> {
    let names = match call::parse(line) {
        Some(Call::Packet { packet, .. }) => packet_names(&packet, answer, record),
        Some(call) => call_name(&call, answer, record).into_iter().collect(),
        None if answer == BAD_LINE && line.starts_with("poke 0077:") => {
            vec!["poke of an entry, bad line".to_string()]
        }
        None => Vec::new(),
    };
    names.iter().map(|name| format!("0077 {name}")).collect()
}

fn call_name(call: &Call, answer: &str, record: &Record) -> Option<String> {
    let name = match call {
        Call::PokeEntry { .. } if record.has_schedule() => "poke of an entry",
        Call::PokeRow { number, .. } if *number == NUMBER => "poke without a place",
        Call::Measure { .. } if answer == "refused 70" => {
            illegal_field(record)?;
            "measure refused 70 for an entry"
        }
        Call::Measure { number, .. } if *number == NUMBER => "measure refused 30",
        Call::Read { .. } if answer.contains(" 0077=0") => "entry read by the tool",
        Call::Record if has_entries(record) => "entries in the record",
        _ => return None,
    };
    Some(name.to_string())
}

/// Whether the record shows an entry that is not at its start.
fn has_entries(record: &Record) -> bool {
    record.has_schedule() && record.schedule != Schedule::start()
}

/// The first bad field of a record that is illegal because of its entries alone.
fn illegal_field(record: &Record) -> Option<Field> {
    let without_entries = Record {
        schedule: Schedule::start(),
        ..record.clone()
    };
    without_entries.check().ok()?;
    record
        .schedule
        .entries()
        .find_map(|(_, _, entry)| schedule::bad_field(entry))
}

fn packet_names(packet: &[u8], answer: &str, record: &Record) -> Vec<String> {
    if answer == "refused 70" {
        let field = illegal_field(record).map(word);
        return Vec::from_iter(field.map(|field| format!("packet refused 70, bad {field}")));
    }
    let Some((id, mut commands)) = request(packet).filter(|_| record.has_schedule()) else {
        return Vec::new();
    };
    commands.retain(|command| command.number == NUMBER);
    if answer.starts_with("refused ") {
        return Vec::from_iter(refused_name(&commands, answer));
    }
    if is_search(id, record) {
        return vec!["passed over in a search".to_string(); commands.len()];
    }
    let full = answer.len() == "response ".len() + 2 * LONGEST;
    let reported = |command: &Command| command.function == 1 && fault(command).is_none();
    let mut names: Vec<String> = commands.iter().flat_map(command_names).collect();
    if full && commands.iter().any(reported) {
        names.push("entry in a response of 256 bytes".to_string());
    }
    names
}

/// A write that would have been stored, had its packet been accepted.
fn refused_name(commands: &[Command], answer: &str) -> Option<String> {
    let stores = |command: &Command| match schedule::judge(command.function, &command.value) {
        Request::Write { entry, .. } => schedule::bad_field(&entry).is_none(),
        _ => false,
    };
    commands.iter().find(|command| stores(command))?;
    match answer {
        "refused 7" | "refused 8" => Some("write refused with 7 or 8".to_string()),
        "refused 12" => Some("write refused with 12".to_string()),
        _ => None,
    }
}

fn fault(command: &Command) -> Option<Fault> {
    match schedule::judge(command.function, &command.value) {
        Request::Fault(fault) => Some(fault),
        _ => None,
    }
}

/// The outcome of an accepted command.
fn command_names(command: &Command) -> Vec<String> {
    let Command {
        function, value, ..
    } = command;
    match schedule::judge(*function, value) {
        Request::Read { .. } => vec!["read: entry reported".to_string()],
        Request::Write { entry, .. } => write_names(*function, value[0], &entry),
        Request::Fault(fault) if matches!(function, 2 | 3) => {
            let name = write_fault(fault, value);
            vec![format!("0{function}: fault, {name}")]
        }
        Request::Fault(Fault::Function) => {
            let name = if value.is_empty() { "no" } else { "a" };
            vec![format!("0{function}: FD, {name} value")]
        }
        Request::Fault(fault) => vec![format!("read: FD, {}", read_fault(fault, value))],
    }
}

fn write_names(function: u8, day: u8, entry: &Entry) -> Vec<String> {
    let bytes = FIELDS.into_iter().zip(entry);
    match schedule::bad_field(entry) {
        None => {
            let days = match day {
                0 | 8 | 9 => format!("day {day}"),
                _ => "one day".to_string(),
            };
            let stored = format!("0{function}: {days} stored");
            bytes
                .map(|(field, byte)| format!("stored: {} {byte}", word(field)))
                .chain([stored])
                .collect()
        }
        Some(bad) => {
            let days = match day {
                0 | 8 | 9 => "group",
                _ => "one day",
            };
            let not_stored = format!("0{function}: {days} not stored, bad {}", word(bad));
            bytes
                .filter(|(field, byte)| !field.contains(**byte))
                .map(|(field, byte)| format!("not stored: {} {byte}", word(field)))
                .chain([not_stored])
                .collect()
        }
    }
}

fn write_fault(fault: Fault, value: &[u8]) -> String {
    let name = match (fault, value) {
        (Fault::Day, _) => "day over 9",
        (Fault::Period, [_, 0, ..]) => "period 0",
        (Fault::Period, _) => "period over 4",
        (_, value) if value.len() < 6 => return "shorter than six bytes".to_string(),
        _ => return "longer than six bytes".to_string(),
    };
    let entry = [value[2], value[3], value[4], value[5]];
    match schedule::bad_field(&entry) {
        Some(_) => format!("{name} and a bad field"),
        None => name.to_string(),
    }
}

fn read_fault(fault: Fault, value: &[u8]) -> String {
    match (fault, value) {
        (Fault::Day, [day @ (0 | 8 | 9), _]) => format!("day {day}"),
        (Fault::Day, _) => "day over 9".to_string(),
        (Fault::Period, [_, 0]) => "period 0".to_string(),
        (Fault::Period, _) => "period over 4".to_string(),
        (_, []) => "no value".to_string(),
        _ => "another length".to_string(),
    }
}

fn word(field: Field) -> &'static str {
    match field {
        Field::Speed => "speed",
        Field::Temperature => "temperature",
        Field::Minute => "minute",
        Field::Hour => "hour",
    }
}

#[cfg(test)]
mod tests {
    use super::*;
    use crate::packet::{self, CODE_WORD};
    use crate::record::{CLIENT, setup};
    use crate::units::MICRA;

    const ID: [u8; 16] = *b"002D6E1B34565815";

    /// The names that a packet's call meets, without their number.
    fn names(id: &[u8], function: u8, data: &[u8], answer: &str) -> Vec<String> {
        let (record, _) = setup(&ID, b"", CLIENT, MICRA);
        let length = 256;
        let packet = packet::write(id, b"", function, data);
        let line = Call::Packet { length, packet }.to_string();
        met(&line, answer, &record)
            .iter()
            .map(|name| name.strip_prefix("0077 ").unwrap().to_string())
            .collect()
    }

    #[test]
    fn commands_are_named_by_their_outcome() {
        for (function, data, expected) in [
            (1, &[0xFE, 2, 0x77, 1, 1][..], "read: entry reported"),
            (1, &[0x77], "read: FD, no value"),
            (1, &[0xFE, 1, 0x77, 1], "read: FD, another length"),
            (1, &[0xFE, 2, 0x77, 8, 0], "read: FD, day 8"),
            (1, &[0xFE, 2, 0x77, 10, 0], "read: FD, day over 9"),
            (1, &[0xFE, 2, 0x77, 1, 5], "read: FD, period over 4"),
            (4, &[0x77], "04: FD, no value"),
            (5, &[0xFE, 2, 0x77, 1, 1], "05: FD, a value"),
            (2, &[0x77, 1], "02: fault, shorter than six bytes"),
            (
                3,
                &[0xFE, 7, 0x77, 0, 1, 0, 0, 0, 0, 0],
                "03: fault, longer than six bytes",
            ),
            (
                3,
                &[0xFE, 6, 0x77, 10, 0, 0, 0, 0, 0],
                "03: fault, day over 9",
            ),
            (
                2,
                &[0xFE, 6, 0x77, 1, 0, 6, 0, 0, 0],
                "02: fault, period 0 and a bad field",
            ),
        ] {
            assert_eq!(names(&ID, function, data, "silence"), [expected]);
        }
        assert!(names(&ID, 1, &[0xFF, 1, 0x77, 0xFF, 0, 1], "silence").is_empty());
    }

    #[test]
    fn writes_are_named_by_their_bounds_too() {
        let stored = names(&ID, 2, &[0xFE, 6, 0x77, 9, 4, 5, 0, 59, 7], "silence");
        let bounds = [
            "stored: speed 5",
            "stored: temperature 0",
            "stored: minute 59",
        ];
        assert_eq!(stored[..3], bounds);
        assert_eq!(stored[3..], ["stored: hour 7", "02: day 9 stored"]);
        let bad = names(&ID, 3, &[0xFE, 6, 0x77, 7, 4, 5, 31, 59, 24], "silence");
        assert_eq!(
            bad[..2],
            ["not stored: temperature 31", "not stored: hour 24"]
        );
        assert_eq!(bad[2..], ["03: one day not stored, bad temperature"]);
    }

    #[test]
    fn refusals_and_searches_are_named_apart() {
        let write = [0xFE, 6, 0x77, 0, 1, 0, 0, 0, 0];
        for (answer, expected) in [
            ("refused 8", "write refused with 7 or 8"),
            ("refused 12", "write refused with 12"),
        ] {
            assert_eq!(names(&ID, 3, &write, answer), [expected]);
        }
        assert!(names(&ID, 3, &write, "refused 4").is_empty());
        assert!(names(&ID, 1, &[0x77], "refused 12").is_empty());
        let search = names(&CODE_WORD, 1, &[0x77, 1], "silence");
        assert_eq!(search, ["passed over in a search"]);
        let full = format!("response {}", "00".repeat(256));
        let entry = names(&ID, 1, &[0xFE, 2, 0x77, 1, 1], &full);
        assert_eq!(entry[1..], ["entry in a response of 256 bytes"]);
    }

    #[test]
    fn other_calls_are_named_by_the_record() {
        let (mut record, _) = setup(&ID, b"", CLIENT, MICRA);
        assert!(met("packet 0 -", "refused 70", &record).is_empty());
        assert!(met("record", "record id=", &record).is_empty());
        record.schedule.poke(7, 4, &[0, 0, 60, 24]);
        for (line, answer, expected) in [
            (
                "packet 0 -",
                "refused 70",
                "0077 packet refused 70, bad minute",
            ),
            (
                "measure 0077 -",
                "refused 70",
                "0077 measure refused 70 for an entry",
            ),
            ("measure 0077 -", "refused 30", "0077 measure refused 30"),
            ("poke 0077:1.1 -", "poked", "0077 poke of an entry"),
            ("poke 0077 00", "poked", "0077 poke without a place"),
            (
                "poke 0077:1 00",
                "bad line",
                "0077 poke of an entry, bad line",
            ),
            ("record", "record id=", "0077 entries in the record"),
            (
                "read - - -",
                "reports 0077=010100000000",
                "0077 entry read by the tool",
            ),
        ] {
            assert_eq!(met(line, answer, &record), [expected]);
        }
        assert!(met("read - - -", "reports 0077=unknown", &record).is_empty());
        record.mode = 3;
        assert!(met("packet 0 -", "refused 70", &record).is_empty());
    }
}
