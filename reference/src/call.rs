//! The calls of a call list: their written form and its strict reading.

use std::fmt;

use crate::block::Command;
use crate::capture::Captured;
use crate::hex;
use crate::schedule;

/// The longest buffer that a call of board or tool may ask for.
pub const LONGEST_BUFFER: usize = 1024;
/// The longest buffer for a capture or a table.
pub const MOST_ROOM: usize = 1_048_576;

/// One call of the list.
#[derive(Clone, Debug, PartialEq, Eq)]
pub enum Call {
    Setup {
        id: Vec<u8>,
        password: Vec<u8>,
        mode: u8,
        /// The line may leave it out: Micra.
        unit_type: Option<u8>,
    },
    Packet {
        length: usize,
        packet: Vec<u8>,
    },
    Measure {
        number: u16,
        value: Vec<u8>,
    },
    Record,
    PokeRow {
        number: u16,
        value: Vec<u8>,
    },
    PokeEntry {
        day: u8,
        period: u8,
        value: Vec<u8>,
    },
    PokeId(Vec<u8>),
    PokePassword(Vec<u8>),
    PokeMode(u8),
    PokeType(u8),
    Write {
        length: usize,
        id: Vec<u8>,
        password: Vec<u8>,
        commands: Vec<Command>,
    },
    Read {
        id: Vec<u8>,
        password: Vec<u8>,
        packet: Vec<u8>,
    },
    List {
        packet: Vec<u8>,
    },
    CaptureRead {
        capture: Vec<u8>,
    },
    CaptureWrite {
        room: usize,
        /// Parts of any length; the writer is given their bytes one after another.
        ids: Vec<Vec<u8>>,
        records: Vec<Captured>,
    },
    Summary {
        capture: Vec<u8>,
    },
    Rewrite {
        room: usize,
        capture: Vec<u8>,
    },
    Export {
        room: usize,
        capture: Vec<u8>,
    },
    Import {
        table: Vec<u8>,
    },
}

/// The call of a line; none if it has none of the forms.
pub fn parse(line: &str) -> Option<Call> {
    let fields: Vec<&str> = line.split(' ').collect();
    match fields[..] {
        ["setup", id, password, mode] => parse_setup(id, password, mode, None),
        ["setup", id, password, mode, unit_type] => {
            parse_setup(id, password, mode, Some(parse_byte(unit_type)?))
        }
        ["packet", length, packet] => Some(Call::Packet {
            length: parse_decimal(length, LONGEST_BUFFER)?,
            packet: hex::parse_field(packet)?,
        }),
        ["measure", number, value] => Some(Call::Measure {
            number: hex::parse_number(number)?,
            value: hex::parse_field(value)?,
        }),
        ["record"] => Some(Call::Record),
        ["poke", field, value] => parse_poke(field, value),
        ["write", length, id, password, ref commands @ ..] => Some(Call::Write {
            length: parse_decimal(length, LONGEST_BUFFER)?,
            id: hex::parse_field(id)?,
            password: hex::parse_field(password)?,
            commands: commands
                .iter()
                .map(|command| parse_command(command))
                .collect::<Option<_>>()?,
        }),
        ["read", id, password, packet] => Some(Call::Read {
            id: hex::parse_field(id)?,
            password: hex::parse_field(password)?,
            packet: hex::parse_field(packet)?,
        }),
        ["list", packet] => Some(Call::List {
            packet: hex::parse_field(packet)?,
        }),
        _ => parse_capture_call(&fields),
    }
}

fn parse_setup(id: &str, password: &str, mode: &str, unit_type: Option<u8>) -> Option<Call> {
    Some(Call::Setup {
        id: hex::parse_field(id)?,
        password: hex::parse_field(password)?,
        mode: parse_byte(mode)?,
        unit_type,
    })
}

fn parse_capture_call(fields: &[&str]) -> Option<Call> {
    match fields {
        ["capread", capture] => Some(Call::CaptureRead {
            capture: hex::parse_field(capture)?,
        }),
        ["capwrite", room, ids, records @ ..] => Some(Call::CaptureWrite {
            room: parse_decimal(room, MOST_ROOM)?,
            ids: parse_ids(ids)?,
            records: records
                .iter()
                .map(|record| parse_captured(record))
                .collect::<Option<_>>()?,
        }),
        ["summary", capture] => Some(Call::Summary {
            capture: hex::parse_field(capture)?,
        }),
        ["rewrite", room, capture] => Some(Call::Rewrite {
            room: parse_decimal(room, MOST_ROOM)?,
            capture: hex::parse_field(capture)?,
        }),
        ["export", room, capture] => Some(Call::Export {
            room: parse_decimal(room, MOST_ROOM)?,
            capture: hex::parse_field(capture)?,
        }),
        ["import", table] => Some(Call::Import {
            table: hex::parse_field(table)?,
        }),
        _ => None,
    }
}

/// Bytes joined by commas, at least one in each part; `-` alone for no part.
fn parse_ids(field: &str) -> Option<Vec<Vec<u8>>> {
    if field == "-" {
        return Some(Vec::new());
    }
    let parts = field.split(',').map(hex::parse_field);
    parts.map(|part| part.filter(|id| !id.is_empty())).collect()
}

/// `I.D.C.HEX`.
fn parse_captured(field: &str) -> Option<Captured> {
    let parts: Vec<&str> = field.split('.').collect();
    let [index, direction, counter, packet] = parts[..] else {
        return None;
    };
    Some(Captured {
        index: parse_decimal(index, u16::MAX.into())? as u16,
        direction: parse_byte(direction)?,
        counter: parse_decimal(counter, u32::MAX as usize)? as u32,
        packet: hex::parse_field(packet)?,
    })
}

fn parse_poke(field: &str, value: &str) -> Option<Call> {
    match field {
        "id" => Some(Call::PokeId(hex::parse_field(value)?)),
        "password" => Some(Call::PokePassword(hex::parse_field(value)?)),
        "mode" => Some(Call::PokeMode(parse_byte(value)?)),
        "type" => Some(Call::PokeType(parse_byte(value)?)),
        place => {
            let value = hex::parse_field(value)?;
            if let Some((day, period)) = parse_place(place) {
                return Some(Call::PokeEntry { day, period, value });
            }
            let number = hex::parse_number(place)?;
            Some(Call::PokeRow { number, value })
        }
    }
}

/// `0077:D.P`, a day and a period of the schedule.
fn parse_place(field: &str) -> Option<(u8, u8)> {
    let (number, place) = field.split_once(':')?;
    let [day, b'.', period] = *place.as_bytes() else {
        return None;
    };
    let (day, period) = (day.wrapping_sub(b'0'), period.wrapping_sub(b'0'));
    let exists = hex::parse_number(number)? == schedule::NUMBER
        && schedule::DAYS.contains(&day)
        && schedule::PERIODS.contains(&period);
    exists.then_some((day, period))
}

/// `F:NNNN:VALUE`.
fn parse_command(field: &str) -> Option<Command> {
    let parts: Vec<&str> = field.split(':').collect();
    let [function, number, value] = parts[..] else {
        return None;
    };
    Some(Command {
        function: parse_byte(function)?,
        number: hex::parse_number(number)?,
        value: hex::parse_field(value)?,
    })
}

/// Decimal digits without sign or leading zero, at most `limit`.
pub fn parse_decimal(field: &str, limit: usize) -> Option<usize> {
    let digits_only = field.bytes().all(|byte| byte.is_ascii_digit());
    let leading_zero = field.len() > 1 && field.starts_with('0');
    if !digits_only || leading_zero {
        return None;
    }
    let number: usize = field.parse().ok()?;
    (number <= limit).then_some(number)
}

fn parse_byte(field: &str) -> Option<u8> {
    parse_decimal(field, 255).map(|number| number as u8)
}

impl fmt::Display for Call {
    fn fmt(&self, output: &mut fmt::Formatter) -> fmt::Result {
        match self {
            Call::Setup {
                id,
                password,
                mode,
                unit_type,
            } => {
                let unit_type = unit_type.map(|unit_type| format!(" {unit_type}"));
                let last = unit_type.unwrap_or_default();
                write!(output, "setup {} {mode}{last}", identity(id, password))
            }
            Call::Packet { length, packet } => {
                write!(output, "packet {length} {}", hex::field(packet))
            }
            Call::Measure { number, value } => {
                write!(output, "measure {number:04X} {}", hex::field(value))
            }
            Call::Record => write!(output, "record"),
            Call::Write {
                length,
                id,
                password,
                commands,
            } => {
                write!(output, "write {length} {}", identity(id, password))?;
                commands
                    .iter()
                    .try_for_each(|command| write_command(output, command))
            }
            other => write_reading(output, other),
        }
    }
}

fn write_reading(output: &mut fmt::Formatter, call: &Call) -> fmt::Result {
    match call {
        Call::Read {
            id,
            password,
            packet,
        } => {
            let expected = identity(id, password);
            write!(output, "read {expected} {}", hex::field(packet))
        }
        Call::List { packet } => write!(output, "list {}", hex::field(packet)),
        other => write_capture_call(output, other),
    }
}

fn write_capture_call(output: &mut fmt::Formatter, call: &Call) -> fmt::Result {
    match call {
        Call::CaptureRead { capture } => write!(output, "capread {}", hex::field(capture)),
        Call::CaptureWrite { room, ids, records } => {
            write!(output, "capwrite {room} {}", joined(ids))?;
            let mut records = records.iter();
            records.try_for_each(|record| write!(output, " {}", captured(record)))
        }
        Call::Summary { capture } => write!(output, "summary {}", hex::field(capture)),
        Call::Rewrite { room, capture } => {
            write!(output, "rewrite {room} {}", hex::field(capture))
        }
        Call::Export { room, capture } => {
            write!(output, "export {room} {}", hex::field(capture))
        }
        Call::Import { table } => write!(output, "import {}", hex::field(table)),
        poke => write_poke(output, poke),
    }
}

fn write_poke(output: &mut fmt::Formatter, call: &Call) -> fmt::Result {
    let (place, value) = match call {
        Call::PokeRow { number, value } => (format!("{number:04X}"), hex::field(value)),
        Call::PokeEntry { day, period, value } => {
            let number = schedule::NUMBER;
            (format!("{number:04X}:{day}.{period}"), hex::field(value))
        }
        Call::PokeId(id) => ("id".to_string(), hex::field(id)),
        Call::PokePassword(password) => ("password".to_string(), hex::field(password)),
        Call::PokeMode(mode) => ("mode".to_string(), mode.to_string()),
        Call::PokeType(unit_type) => ("type".to_string(), unit_type.to_string()),
        _ => unreachable!("only pokes come here"),
    };
    write!(output, "poke {place} {value}")
}

fn identity(id: &[u8], password: &[u8]) -> String {
    format!("{} {}", hex::field(id), hex::field(password))
}

/// Parts of bytes joined by commas.
fn joined(ids: &[Vec<u8>]) -> String {
    match ids {
        [] => "-".to_string(),
        _ => ids
            .iter()
            .map(|id| hex::digits(id))
            .collect::<Vec<_>>()
            .join(","),
    }
}

/// `I.D.C.HEX`, as calls and answers have it.
pub fn captured(record: &Captured) -> String {
    let Captured {
        index,
        direction,
        counter,
        packet,
    } = record;
    format!("{index}.{direction}.{counter}.{}", hex::field(packet))
}

fn write_command(output: &mut fmt::Formatter, command: &Command) -> fmt::Result {
    let Command {
        function,
        number,
        value,
    } = command;
    write!(output, " {function}:{number:04X}:{}", hex::field(value))
}

#[cfg(test)]
mod tests {
    use super::*;

    const FORMS: [&str; 34] = [
        "setup - - 0",
        "setup 00 31313131 255",
        "setup 00 31313131 1 0",
        "setup - - 2 255",
        "packet 0 -",
        "packet 1024 FDFD",
        "measure 001E CEFF",
        "measure FFFF -",
        "record",
        "poke 0001 02",
        "poke 0077 01",
        "poke 0077:1.1 -",
        "poke 0077:7.4 05000000FF",
        "poke id -",
        "poke password 31",
        "poke mode 7",
        "poke type 0",
        "poke type 255",
        "write 256 00 31",
        "write 256 00 - 1:0001:- 255:FFFF:00FF",
        "read 00 31 FDFD",
        "list -",
        "capread -",
        "capread 564C47",
        "capwrite 0 -",
        "capwrite 1048576 00 65535.255.4294967295.-",
        "capwrite 22 0001,02 0.0.0.FDFD 0.1.10.00",
        "summary -",
        "rewrite 0 -",
        "rewrite 1048576 564C47",
        "export 0 -",
        "export 1048576 564C47",
        "import -",
        "import 22",
    ];

    #[test]
    fn lines_are_read_and_written_alike() {
        for line in FORMS {
            assert_eq!(parse(line).unwrap().to_string(), line);
        }
    }

    /// The hand-made list has the full range of them.
    const NO_FORMS: [&str; 39] = [
        "",
        "record\r",
        "tick 5",
        "setup 00 31 1 256",
        "setup 00 31 1 02",
        "setup 00 31 1 -",
        "setup 00 31 1 2 2",
        "setup 00 31 256 2",
        "poke type 256",
        "poke type -",
        "setup 00 31 99999999999999999999999",
        "packet 256 FD FD",
        "write 256 00 31 1:0001:-  1:0001:-",
        "poke mode 1 1",
        "poke 0077:0.1 00",
        "poke 0077:8.1 00",
        "poke 0077:1.0 00",
        "poke 0077:1.5 00",
        "poke 0078:1.1 00",
        "poke 77:1.1 00",
        "poke 0077:1:1 00",
        "poke 0077:1.1 0",
        "capwrite 1048577 -",
        "capwrite 0 00,",
        "capwrite 0 00,-",
        "capwrite 0 - 65536.0.0.-",
        "capwrite 0 - 0.256.0.-",
        "capwrite 0 - 0.0.4294967296.-",
        "capwrite 0 - 0.0.0.",
        "capwrite 0 - 0.0.0.00.",
        "rewrite -",
        "rewrite 0 - -",
        "rewrite 1048577 -",
        "export -",
        "export 0 - -",
        "export 1048577 -",
        "import",
        "import 0 -",
        "import 2",
    ];

    #[test]
    fn other_lines_have_no_form() {
        for line in NO_FORMS {
            assert_eq!(parse(line), None, "{line}");
        }
    }
}
