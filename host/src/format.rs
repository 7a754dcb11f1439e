//! Reports as they are shown: the listing, a table for people, JSON Lines for programs. All of it is printable ASCII, whatever a board
//! sends.

use crate::calendar;
use crate::entry::{Entry, Place};
use crate::escape::{self, quoted};
use crate::hex;
use crate::outcome::Line;
use crate::reading::Shown;
use crate::report::HEAD;
use crate::rows::{self, Row};

#[derive(Clone, Copy, Debug, PartialEq, Eq)]
pub enum Format {
    Listing,
    /// The listing of the weekly schedule, in words.
    Schedule,
    Table,
    Json,
}

/// The reports of a board, under its name where there is a head.
pub fn show(format: Format, name: Option<&str>, has_head: bool, lines: &[Line]) -> String {
    let head = |word| match name {
        Some(name) if has_head => format!("{word}{name}\n"),
        _ => String::new(),
    };
    match format {
        Format::Listing => head("board,") + &listing(lines),
        Format::Schedule => head("board ") + &each(lines, schedule_line),
        Format::Table => head("board ") + &table(lines),
        Format::Json => each(lines, |line| json(name, line)),
    }
}

fn each(lines: &[Line], show: impl Fn(&Line) -> String) -> String {
    lines.iter().map(|line| show(line) + "\n").collect()
}

fn listing(lines: &[Line]) -> String {
    format!("{HEAD}\n{}", each(lines, |line| line.report.line()))
}

/// An entry in words; where it is unknown, its place.
fn schedule_line(line: &Line) -> String {
    let value = line.report.value.as_deref();
    let place = || Place::of(&line.command.value).map(Place::reported);
    match (value.and_then(Entry::of), place()) {
        (Some(entry), _) => entry.to_string(),
        (None, Some(place)) => format!("{place}: unknown"),
        (None, None) => line.report.line(),
    }
}

fn table(lines: &[Line]) -> String {
    let mut cells = vec![["name", "number", "value", "raw"].map(String::from)];
    cells.extend(lines.iter().map(row));
    let width = |column: usize| cells.iter().map(|row| row[column].len()).max().unwrap_or(0);
    let (first, second, third) = (width(0), width(1), width(2));
    let lines = cells.iter().map(|[name, number, value, raw]| {
        format!("{name:<first$}  {number:<second$}  {value:<third$}  {raw}\n")
    });
    lines.collect()
}

fn row(line: &Line) -> [String; 4] {
    let report = line.report;
    let name = row_of(line).map_or("-", |row| row.name);
    let value = shown(line).map_or_else(|| String::from("unknown"), |shown| shown.to_string());
    let raw = report.value.as_deref().map(hex::digits);
    [
        String::from(name),
        format!("0x{:04X}", report.number),
        value,
        raw.unwrap_or_else(|| String::from("-")),
    ]
}

/// An object on a line. What there is none of is null.
fn json(board: Option<&str>, line: &Line) -> String {
    let report = line.report;
    let (value, unit) = match shown(line) {
        None => (None, None),
        Some(Shown::Number(digits, "")) => (Some(digits), None),
        Some(Shown::Number(digits, unit)) => (Some(digits), Some(quoted(unit))),
        Some(Shown::Text(text)) => (Some(quoted(&text)), None),
        Some(Shown::Entry(entry)) => (Some(quoted(&entry.words())), None),
    };
    let members = [
        (
            "time",
            Some(quoted(&calendar::timestamp(line.response.time))),
        ),
        ("board", board.map(quoted)),
        ("id", Some(quoted(&escape::identity(line.response.id())))),
        ("number", Some(format!("\"0x{:04X}\"", report.number))),
        ("name", row_of(line).map(|row| quoted(row.name))),
        ("value", value),
        ("unit", unit),
        (
            "raw",
            report.value.as_deref().map(|raw| quoted(&hex::digits(raw))),
        ),
    ];
    let members = members.map(|(name, value)| {
        format!(
            "\"{name}\":{}",
            value.unwrap_or_else(|| String::from("null"))
        )
    });
    format!("{{{}}}", members.join(","))
}

fn row_of(line: &Line) -> Option<&'static Row> {
    rows::find(line.unit_type, line.report.number)
}

/// A report's value by the reading of its row; bytes where there is no such row.
fn shown(line: &Line) -> Option<Shown> {
    let value = line.report.value.as_deref()?;
    Some(match row_of(line) {
        Some(row) => row.reading.show(value),
        None => Shown::Text(format!("0x{}", hex::digits(value))),
    })
}

#[cfg(test)]
mod tests {
    use super::*;
    use crate::exchange::Response;
    use crate::ffi::{self, Command, ID_SIZE};
    use crate::report::Report;
    use crate::unit_type::UnitType;
    use std::time::UNIX_EPOCH;

    /// A packet with this ID.
    fn response(id: [u8; ID_SIZE]) -> Response {
        Response {
            sender: ([127, 0, 0, 1], 4000).into(),
            time: UNIX_EPOCH,
            bytes: ffi::write(&id, b"", &[]).expect("a packet"),
            reports: Vec::new(),
        }
    }

    /// Strings, and outside them nothing but what numbers, null and the marks between them are made of.
    fn is_json(line: &str) -> bool {
        let (mut in_string, mut escaped) = (false, false);
        for character in line.chars() {
            match character {
                _ if escaped => escaped = false,
                '\\' if in_string => escaped = true,
                '"' => in_string = !in_string,
                _ if in_string => {}
                _ if "{}:,-.0123456789nul".contains(character) => {}
                _ => return false,
            }
        }
        !in_string && line.starts_with("{\"") && line.ends_with('}')
    }

    #[test]
    fn every_value_of_every_row_is_printable_in_every_format() {
        for unit_type in UnitType::ALL {
            let numbers = rows::of(unit_type).map(|row| row.number);
            for number in numbers.chain([0x0101]) {
                check_number(unit_type, number);
            }
        }
    }

    fn check_number(unit_type: UnitType, number: u16) {
        for length in [0, 1, 2, 3, 4, 6, 16, 64, 255] {
            for value in (0..=255_u8).step_by(17) {
                let bytes: Vec<u8> = (0..length).map(|at: u8| value.wrapping_add(at)).collect();
                let report = Report::new(number, Some(&bytes));
                check(unit_type, &report, [value; ID_SIZE]);
            }
        }
        check(unit_type, &Report::new(number, None), [0; ID_SIZE]);
    }

    fn check(unit_type: UnitType, report: &Report, id: [u8; ID_SIZE]) {
        let (command, response) = (Command::new(1, report.number, &[]), response(id));
        let line = Line {
            unit_type,
            command: &command,
            report,
            response: &response,
        };
        for format in [
            Format::Listing,
            Format::Schedule,
            Format::Table,
            Format::Json,
        ] {
            let text = show(format, Some("flat-1"), true, &[line]);
            let printable = |byte: u8| byte == b'\n' || (b' '..=b'~').contains(&byte);
            assert!(text.bytes().all(printable), "{text}");
            assert!(text.ends_with('\n') && text.lines().count() <= 3, "{text}");
            assert!(format != Format::Json || is_json(text.trim_end()), "{text}");
        }
    }

    #[test]
    fn several_boards_have_a_head_each() {
        let (command, report) = (Command::new(1, 2, &[]), Report::new(2, Some(&[3])));
        let response = response([b'A'; ID_SIZE]);
        let lines = [Line {
            unit_type: UnitType::Micra,
            command: &command,
            report: &report,
            response: &response,
        }];
        for (format, has_head, text) in [
            (Format::Listing, false, "number,value\n0x0002,03\n"),
            (Format::Listing, true, "board,flat-1\nnumber,value\n0x0002,03\n"),
            (
                Format::Table,
                true,
                "board flat-1\nname        number  value  raw\nspeed-mode  0x0002  3      03\n",
            ),
            (
                Format::Json,
                false,
                "{\"time\":\"1970-01-01T00:00:00.000Z\",\"board\":\"flat-1\",\"id\":\"AAAAAAAAAAAAAAAA\",\"number\":\"0x0002\",\"name\":\"speed-mode\",\"value\":3,\"unit\":null,\"raw\":\"03\"}\n",
            ),
        ] {
            assert_eq!(show(format, Some("flat-1"), has_head, &lines), text);
        }
    }
}
