//! The rows that each unit type has, and the weekly schedule (0x0077): their numbers, sizes and readings, with the names that the command
//! line takes. A name is the guide's wording, shortened where it is long.
//!
//! Only the client reads these tables, one for each product; the board has its own.

mod expert;
mod micra;

use std::fmt;
use std::ops::RangeInclusive;

use crate::reading::Reading;
use crate::unit_type::{self, UnitType};

pub struct Row {
    /// The unit types that have it.
    pub types: &'static [UnitType],
    pub number: u16,
    pub name: &'static str,
    pub size: Size,
    pub access: Access,
    pub reading: Reading,
    /// The guide's wording.
    pub wording: &'static str,
}

#[derive(Clone, Copy, Debug, PartialEq, Eq)]
pub enum Size {
    Bytes(usize),
    /// From a shortest to a longest length.
    Between(usize, usize),
}

impl Size {
    pub fn range(self) -> RangeInclusive<usize> {
        match self {
            Bytes(count) => count..=count,
            Between(shortest, longest) => shortest..=longest,
        }
    }
}

impl fmt::Display for Size {
    fn fmt(&self, formatter: &mut fmt::Formatter<'_>) -> fmt::Result {
        match self {
            Bytes(count) => write!(formatter, "{count}"),
            Between(shortest, longest) => write!(formatter, "{shortest}-{longest}"),
        }
    }
}

impl Row {
    /// As messages call it: `speed-mode (0x0002)`.
    pub fn title(&self) -> String {
        format!("{} (0x{:04X})", self.name, self.number)
    }

    /// How a value is written.
    pub fn form(&self) -> String {
        let form = self.reading.form();
        match self.access {
            Invert => format!("{form}|invert"),
            _ => form,
        }
    }
}

/// What a row can be asked for.
#[derive(Clone, Copy, Debug, PartialEq, Eq)]
pub enum Access {
    Read,
    /// Written too.
    Write,
    /// Written too, and a written 2 inverts it.
    Invert,
    /// Written, raised and lowered too.
    Step,
}

use Access::{Invert, Read, Step, Write};
use Size::{Between, Bytes};

const fn row(
    types: &'static [UnitType],
    number: u16,
    name: &'static str,
    size: Size,
    access: Access,
    reading: Reading,
    wording: &'static str,
) -> Row {
    Row {
        types,
        number,
        name,
        size,
        access,
        reading,
        wording,
    }
}

/// The rows of both products.
fn all() -> impl Iterator<Item = &'static Row> {
    micra::ROWS.iter().chain(&expert::ROWS)
}

/// The rows of a unit type, numbers ascending.
pub fn of(unit_type: UnitType) -> impl Iterator<Item = &'static Row> {
    all().filter(move |row| row.types.contains(&unit_type))
}

pub fn find(unit_type: UnitType, number: u16) -> Option<&'static Row> {
    of(unit_type).find(|row| row.number == number)
}

/// Whether a number is a unit type's weekly schedule.
pub fn is_schedule(unit_type: UnitType, number: u16) -> bool {
    let row = find(unit_type, number);
    row.is_some_and(|row| matches!(row.reading, Reading::Entry))
}

/// A parameter's number: the name of a row that the unit type has, or four hex digits with or without 0x.
pub fn parse_number(unit_type: UnitType, text: &str) -> Result<u16, String> {
    if let Some(row) = of(unit_type).find(|row| row.name == text) {
        return Ok(row.number);
    }
    if let Some(number) = parse_digits(text) {
        return Ok(number);
    }
    let others = types_with(text);
    if !others.is_empty() {
        let others = unit_type::list(&others);
        return Err(format!(
            "`{text}` is no row of {unit_type}: it is one of {others}"
        ));
    }
    let list = match unit_type {
        UnitType::Micra => String::from("udgornwy rows"),
        other => format!("udgornwy rows --type {}", other.number()),
    };
    Err(format!(
        "`{text}` is neither a row's name (`{list}` lists them) nor a number like 0x0001"
    ))
}

/// The unit types with a row of this name.
fn types_with(name: &str) -> Vec<UnitType> {
    let has = |unit_type: &UnitType| of(*unit_type).any(|row| row.name == name);
    UnitType::ALL.into_iter().filter(has).collect()
}

fn parse_digits(text: &str) -> Option<u16> {
    let digits = text.strip_prefix("0x").unwrap_or(text);
    let bytes: [u8; 2] = crate::hex::parse(digits)?.try_into().ok()?;
    Some(u16::from_be_bytes(bytes))
}

/// A parameter as messages call it: its row, or the number alone.
pub fn title(unit_type: UnitType, number: u16) -> String {
    find(unit_type, number).map_or_else(|| format!("0x{number:04X}"), Row::title)
}

/// The table as `udgornwy rows` prints it.
pub fn table(unit_type: UnitType) -> String {
    let head = line([
        "number",
        "bytes",
        "name",
        "functions",
        "value",
        "the guide's words",
    ]);
    std::iter::once(head)
        .chain(of(unit_type).map(row_line))
        .collect()
}

fn row_line(row: &Row) -> String {
    line([
        &format!("0x{:04X}", row.number),
        &row.size.to_string(),
        row.name,
        access_text(row.access),
        &row.form(),
        row.wording,
    ])
}

fn line([number, size, name, access, form, wording]: [&str; 6]) -> String {
    format!("{number:<7} {size:<6} {name:<29} {access:<9}  {form:<38} {wording}\n")
}

fn access_text(access: Access) -> &'static str {
    match access {
        Read => "get",
        Write | Invert => "get set",
        Step => "all",
    }
}

#[cfg(test)]
mod tests {
    use super::*;

    #[test]
    fn numbers_ascend_and_names_are_unlike_numbers_and_each_other() {
        for unit_type in UnitType::ALL {
            assert!(of(unit_type).is_sorted_by(|one, next| one.number < next.number));
            for row in of(unit_type) {
                assert!(parse_digits(row.name).is_none(), "{}", row.name);
                let number = parse_number(unit_type, row.name);
                assert_eq!(number, Ok(row.number), "{}", row.name);
            }
        }
    }

    /// The schedule is among those of the Micra.
    #[test]
    fn each_type_has_so_many_rows() {
        let counts = UnitType::ALL.map(|unit_type| of(unit_type).count());
        assert_eq!(counts, [73, 50, 43, 39]);
        let schedules = UnitType::ALL.map(|unit_type| is_schedule(unit_type, 0x0077));
        assert_eq!(schedules, [true, false, false, false]);
    }

    /// So that a name means the same whichever board is asked. The VENTO Expert has a manual speed too, and its countdown has a byte fewer.
    #[test]
    fn a_name_of_both_products_has_one_number_and_one_kind_of_value() {
        let mut differing = Vec::new();
        for row in &micra::ROWS {
            for other in expert::ROWS.iter().filter(|other| other.name == row.name) {
                assert_eq!(row.number, other.number, "{}", row.name);
                if row.form() != other.form() {
                    differing.push(row.name);
                }
            }
        }
        assert_eq!(differing, ["speed-mode", "filter-replacement-countdown"]);
    }

    #[test]
    fn a_name_of_other_types_is_told_with_them() {
        for (unit_type, name, types) in [
            (UnitType::Micra, "humidity", "types 3, 4 and 5"),
            (UnitType::Micra, "0-10v-sensor-signal", "types 3 and 4"),
            (UnitType::ExpertA50, "schedule-setup", "type 2"),
            (
                UnitType::ExpertDuo,
                "filter-replacement-timer",
                "types 2 and 3",
            ),
            (UnitType::ExpertA30, "0-10v-sensor-status", "types 3 and 4"),
            (UnitType::ExpertA30, "supply-fan-level-1", "type 3"),
        ] {
            let error = format!("`{name}` is no row of {unit_type}: it is one of {types}");
            assert_eq!(parse_number(unit_type, name), Err(error));
        }
    }

    #[test]
    fn numbers_have_four_digits() {
        for unit_type in UnitType::ALL {
            assert_eq!(parse_number(unit_type, "0x0063"), Ok(0x63));
            assert_eq!(parse_number(unit_type, "001e"), Ok(0x1E));
            for bad in [
                "",
                "1",
                "0x1",
                "0x00001",
                "0X0001",
                "00 1",
                "speed",
                "Speed-mode",
                "+001",
            ] {
                assert!(parse_number(unit_type, bad).is_err(), "{bad}");
            }
        }
    }
}
