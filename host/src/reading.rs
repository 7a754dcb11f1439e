//! What a row's bytes mean to a reader, and the bytes of such a text. What has no meaning in the guide is bytes.

use std::fmt;

use crate::calendar;
use crate::entry;
use crate::escape;
use crate::fields::{self, Field};
use crate::hex;
use crate::unit_type::UnitType;

#[derive(Clone, Copy)]
pub enum Reading {
    /// An unsigned number of one or two bytes, low byte first: its unit, and the values that have a name.
    Number(&'static str, &'static [(u16, &'static str)]),
    /// Signed tenths of a degree.
    Tenths,
    /// Several numbers, with a text that shows their form.
    Fields(&'static [Field], &'static str),
    /// Day, weekday, month and year of a date that exists.
    Date,
    Text,
    /// A board's ID.
    Identity,
    /// A unit type, with its product.
    Product,
    /// An entry of the weekly schedule.
    Entry,
    Hex,
}

use Reading::{Fields, Number};

pub const NUMBER: Reading = Number("", &[]);
pub const PERCENT: Reading = Number("%", &[]);
pub const MINUTES: Reading = Number("min", &[]);
pub const HOURS: Reading = Number("h", &[]);
pub const DAYS: Reading = Number("d", &[]);
pub const MILLIVOLTS: Reading = Number("mV", &[]);
pub const TURNS: Reading = Number("rpm", &[]);
pub const DEGREES: Reading = Number(CELSIUS, &[]);
pub const DEGREES_OR_NONE: Reading = Number(CELSIUS, &[(0, "ventilation only")]);
pub const SPEED: Reading = Number("", &[(0, "standby")]);
pub const MANUAL_OR_SPEED: Reading = Number("", &[(255, "manual")]);
pub const SWITCH: Reading = Number("", &[(0, "off"), (1, "on")]);
pub const NIGHT_OR_PARTY: Reading = Number("", &[(0, "off"), (1, "night"), (2, "party")]);
pub const OPERATION: Reading = Number(
    "",
    &[(0, "ventilation"), (1, "heat recovery"), (2, "supply")],
);
pub const SETPOINT_STATUS: Reading = Number("", &[(0, "below setpoint"), (1, "over setpoint")]);
pub const ALARM: Reading = Number("", &[(0, "no"), (1, "alarm"), (2, "warning")]);
pub const SENSOR: Reading = Number(
    "",
    &[
        (0, "exhaust duct"),
        (1, "control panel"),
        (2, "supply duct"),
    ],
);
pub const HEATER: Reading = Number("", &[(0, "off"), (1, "electric")]);
pub const FILTER: Reading = Number("", &[(0, "clean"), (3, "replacement timer activated")]);
pub const FILTER_INDICATOR: Reading = Number("", &[(0, "not required"), (1, "replace filter")]);
pub const PRESENCE: Reading = Number("", &[(0, "not available"), (1, "available")]);
pub const WIFI_MODE: Reading = Number("", &[(1, "client"), (2, "access point")]);
pub const ENCRYPTION: Reading = Number(
    "",
    &[
        (48, "OPEN"),
        (50, "WPA_PSK"),
        (51, "WPA2_PSK"),
        (52, "WPA_WPA2_PSK"),
    ],
);
pub const CONNECTION: Reading = Number("", &[(0, "not connected"), (1, "connected")]);
pub const BACKLIGHT: Reading = Number("", &[(0, "static"), (1, "dynamic")]);
pub const TIME: Reading = Fields(&fields::TIME, "HH:MM:SS");
pub const SHORT_TIME: Reading = Fields(&fields::SHORT_TIME, "HH:MM");
pub const COUNTDOWN: Reading = Fields(&fields::COUNTDOWN, "1h02m03s");
pub const DURATION: Reading = Fields(&fields::DURATION, "180d23h59m");
pub const LONG_DURATION: Reading = Fields(&fields::LONG_DURATION, "364d23h59m");
pub const ADDRESS: Reading = Fields(&fields::ADDRESS, "192.168.4.1");
pub const FIRMWARE: Reading = Fields(&fields::FIRMWARE, "1.12 2021-03-04");

/// Degrees Celsius, as UDUNITS has them.
const CELSIUS: &str = "degC";

/// Two measured values that are no temperatures.
const MARKS: [(i16, &str); 2] = [(i16::MIN, "sensor missing"), (i16::MAX, "short circuit")];

/// A value as it is shown.
#[derive(Clone, Debug, PartialEq, Eq)]
pub enum Shown {
    /// Digits that are a number of JSON too, and the unit, if any.
    Number(String, &'static str),
    Text(String),
    Entry(entry::Entry),
}

impl fmt::Display for Shown {
    fn fmt(&self, formatter: &mut fmt::Formatter<'_>) -> fmt::Result {
        match self {
            Shown::Number(digits, "") => write!(formatter, "{digits}"),
            Shown::Number(digits, unit) => write!(formatter, "{digits} {unit}"),
            Shown::Text(text) => write!(formatter, "{text}"),
            Shown::Entry(entry) => write!(formatter, "{entry}"),
        }
    }
}

impl Reading {
    /// The bytes as they are shown: as bytes where they have no such reading.
    pub fn show(self, bytes: &[u8]) -> Shown {
        let shown = match self {
            Number(unit, names) => show_number(unit, names, bytes),
            Reading::Tenths => show_tenths(bytes),
            Fields(fields, _) => fields::show(fields, bytes).map(Shown::Text),
            Reading::Date => calendar::show(bytes).map(Shown::Text),
            Reading::Text => Some(Shown::Text(escape::printable(bytes))),
            Reading::Identity => Some(Shown::Text(escape::identity(bytes))),
            Reading::Product => show_product(bytes),
            Reading::Entry => entry::Entry::of(bytes).map(Shown::Entry),
            Reading::Hex => None,
        };
        shown.unwrap_or_else(|| Shown::Text(format!("0x{}", hex::digits(bytes))))
    }

    /// The bytes of a text that `show` gives, the unit left out or not.
    pub fn parse(self, text: &str, size: usize) -> Option<Vec<u8>> {
        match self {
            Number(unit, names) => parse_number(unit, names, text, size),
            Reading::Tenths => parse_tenths(text),
            Fields(fields, _) => {
                let mut bytes = vec![0; size];
                fields::parse(fields, text, &mut bytes).map(|()| bytes)
            }
            Reading::Date => calendar::parse(text).ok(),
            Reading::Text => Some(text.as_bytes().to_vec()),
            Reading::Product => parse_product(text, size),
            Reading::Identity | Reading::Entry | Reading::Hex => None,
        }
    }

    /// What is wrong with a text that is written as `form` says and is no value.
    pub fn objection(self, text: &str) -> Option<String> {
        match self {
            Reading::Date => calendar::parse(text).err()?,
            _ => None,
        }
    }

    /// How a value is written.
    pub fn form(self) -> String {
        match self {
            Number(unit, names) => number_form(unit, names),
            Reading::Tenths => format!("21.5 {CELSIUS}"),
            Fields(_, form) => String::from(form),
            Reading::Date => String::from("2026-01-31"),
            Reading::Text => String::from("text"),
            Reading::Identity => String::from("ID"),
            Reading::Product => String::from("number"),
            Reading::Entry => String::from("schedule"),
            Reading::Hex => String::from("bytes"),
        }
    }
}

/// One or two bytes, low byte first.
fn number_of(bytes: &[u8]) -> Option<u16> {
    match *bytes {
        [low] => Some(u16::from(low)),
        [low, high] => Some(u16::from_le_bytes([low, high])),
        _ => None,
    }
}

fn show_number(unit: &'static str, names: &[(u16, &str)], bytes: &[u8]) -> Option<Shown> {
    let number = number_of(bytes)?;
    let named = name_of(names, number).map(Shown::Text);
    Some(named.unwrap_or_else(|| Shown::Number(number.to_string(), unit)))
}

fn parse_number(unit: &str, names: &[(u16, &str)], text: &str, size: usize) -> Option<Vec<u8>> {
    let digits = || digits_of(without_unit(text, unit));
    let number = named(names, text).or_else(digits)?;
    match (size, number.to_le_bytes()) {
        (1, [low, 0]) => Some(vec![low]),
        (2, bytes) => Some(bytes.to_vec()),
        _ => None,
    }
}

fn number_form(unit: &str, names: &[(u16, &str)]) -> String {
    let mut forms: Vec<String> = names.iter().map(|(_, name)| name.to_string()).collect();
    // Where two values and more have names, all have.
    if forms.len() < 2 {
        forms.push(format!("number {unit}").trim_end().to_string());
    }
    forms.join("|")
}

/// A type that none of the guides has is a number.
fn show_product(bytes: &[u8]) -> Option<Shown> {
    match UnitType::of(number_of(bytes)?) {
        Some(unit_type) => Some(Shown::Text(unit_type.words())),
        None => show_number("", &[], bytes),
    }
}

fn parse_product(text: &str, size: usize) -> Option<Vec<u8>> {
    let mut all = UnitType::ALL.into_iter();
    let named = all.find(|unit_type| unit_type.words() == text);
    let digits = named.map(|unit_type| unit_type.number().to_string());
    parse_number("", &[], digits.as_deref().unwrap_or(text), size)
}

fn show_tenths(bytes: &[u8]) -> Option<Shown> {
    let tenths = i16::from_le_bytes(bytes.try_into().ok()?);
    let number = || {
        let sign = if tenths < 0 { "-" } else { "" };
        let (whole, tenth) = (tenths.unsigned_abs() / 10, tenths.unsigned_abs() % 10);
        Shown::Number(format!("{sign}{whole}.{tenth}"), CELSIUS)
    };
    let mark = name_of(&MARKS, tenths).map(Shown::Text);
    Some(mark.unwrap_or_else(number))
}

fn parse_tenths(text: &str) -> Option<Vec<u8>> {
    if let Some(mark) = named(&MARKS, text) {
        return Some(mark.to_le_bytes().to_vec());
    }
    let text = without_unit(text, CELSIUS);
    let (is_negative, size) = match text.strip_prefix('-') {
        Some(size) => (true, size),
        None => (false, text.strip_prefix('+').unwrap_or(text)),
    };
    let (whole, tenth) = size.split_once('.').unwrap_or((size, "0"));
    if tenth.len() != 1 {
        return None;
    }
    let tenths = i32::from(digits_of(whole)?) * 10 + i32::from(digits_of(tenth)?);
    let tenths = if is_negative { -tenths } else { tenths };
    let tenths = i16::try_from(tenths).ok()?;
    let is_mark = name_of(&MARKS, tenths).is_some();
    (!is_mark).then(|| tenths.to_le_bytes().to_vec())
}

fn name_of<T: PartialEq>(names: &[(T, &str)], value: T) -> Option<String> {
    let found = names.iter().find(|(named, _)| *named == value);
    found.map(|(_, name)| String::from(*name))
}

fn named<T: Copy>(names: &[(T, &str)], text: &str) -> Option<T> {
    let found = names.iter().find(|(_, name)| *name == text);
    found.map(|(value, _)| *value)
}

fn without_unit<'a>(text: &'a str, unit: &str) -> &'a str {
    let number = text.strip_suffix(unit).unwrap_or(text);
    number.trim_end_matches(' ')
}

/// A number without a sign.
fn digits_of(text: &str) -> Option<u16> {
    let digits = text.bytes().all(|byte| byte.is_ascii_digit());
    text.parse().ok().filter(|_| digits)
}

#[cfg(test)]
mod tests {
    use super::*;

    fn both_ways(reading: Reading, bytes: &[u8], text: &str) {
        assert_eq!(reading.show(bytes).to_string(), text);
        assert_eq!(
            reading.parse(text, bytes.len()).as_deref(),
            Some(bytes),
            "{text}"
        );
    }

    #[test]
    fn readings_go_both_ways() {
        for (reading, bytes, text) in [
            (SWITCH, &[0][..], "off"),
            (SWITCH, &[1], "on"),
            (SWITCH, &[7], "7"),
            (NUMBER, &[3], "3"),
            (PERCENT, &[100], "100 %"),
            (MINUTES, &[59], "59 min"),
            (DAYS, &[0x6D, 1], "365 d"),
            (DEGREES, &[21], "21 degC"),
            (DEGREES_OR_NONE, &[0], "ventilation only"),
            (SPEED, &[0], "standby"),
            (SPEED, &[5], "5"),
            (ENCRYPTION, &[52], "WPA_WPA2_PSK"),
            (Reading::Tenths, &[0xCE, 0xFF], "-5.0 degC"),
            (Reading::Tenths, &[0xFF, 0xFF], "-0.1 degC"),
            (Reading::Tenths, &[0, 0], "0.0 degC"),
            (Reading::Tenths, &[0xD7, 0], "21.5 degC"),
            (Reading::Tenths, &[0xFE, 0x7F], "3276.6 degC"),
            (Reading::Tenths, &[0x01, 0x80], "-3276.7 degC"),
            (Reading::Tenths, &[0x00, 0x80], "sensor missing"),
            (Reading::Tenths, &[0xFF, 0x7F], "short circuit"),
            (Reading::Text, b"Home 2", "Home 2"),
            (TIME, &[5, 30, 8], "08:30:05"),
            (Reading::Date, &[16, 1, 11, 26], "2026-11-16 monday"),
        ] {
            both_ways(reading, bytes, text);
        }
    }

    #[test]
    fn readings_of_the_vento_expert_go_both_ways() {
        for (reading, bytes, text) in [
            (MANUAL_OR_SPEED, &[3][..], "3"),
            (MANUAL_OR_SPEED, &[255], "manual"),
            (NIGHT_OR_PARTY, &[2], "party"),
            (OPERATION, &[1], "heat recovery"),
            (SETPOINT_STATUS, &[1], "over setpoint"),
            (ALARM, &[0], "no"),
            (ALARM, &[2], "warning"),
            (FILTER_INDICATOR, &[1], "replace filter"),
            (MILLIVOLTS, &[0x88, 0x13], "5000 mV"),
            (TURNS, &[0x2A, 0x05], "1322 rpm"),
            (Reading::Product, &[2, 0], "2 Micra 100 WiFi"),
            (Reading::Product, &[5, 0], "5 VENTO Expert A30"),
            (Reading::Product, &[6, 0], "6"),
            (Reading::Product, &[3, 1], "259"),
            (SHORT_TIME, &[30, 8], "08:30"),
            (DURATION, &[59, 23, 181], "181d23h59m"),
            (LONG_DURATION, &[59, 23, 0xFF, 0xFF], "65535d23h59m"),
        ] {
            both_ways(reading, bytes, text);
        }
    }

    #[test]
    fn a_unit_may_be_left_out() {
        for (reading, size, text, bytes) in [
            (DEGREES, 1, "21", &[21][..]),
            (DEGREES, 1, "21degC", &[21]),
            (PERCENT, 1, "70%", &[70]),
            (DAYS, 2, "70", &[70, 0]),
            (MILLIVOLTS, 2, "3000mV", &[0xB8, 0x0B]),
            (Reading::Product, 2, "4", &[4, 0]),
            (Reading::Tenths, 2, "-5", &[0xCE, 0xFF]),
            (Reading::Tenths, 2, "+21.5", &[0xD7, 0]),
        ] {
            assert_eq!(reading.parse(text, size).as_deref(), Some(bytes), "{text}");
        }
    }

    #[test]
    fn texts_that_are_no_reading() {
        for bad in ["", "-1", "+1", "256", "1.0", "On", "21 C", "degC", "1e1"] {
            assert_eq!(SWITCH.parse(bad, 1), None, "{bad}");
            assert_eq!(DEGREES.parse(bad, 1), None, "{bad}");
        }
        for bad in [
            "", "-", ".", "5.", ".5", "5.55", "--5", "5.-1", "3276.7", "-3276.8", "9999", "1e1",
            "CEFF", "nan",
        ] {
            assert_eq!(Reading::Tenths.parse(bad, 2), None, "{bad}");
        }
    }

    #[test]
    fn what_has_no_reading_is_bytes() {
        for (reading, bytes, text) in [
            (Reading::Hex, &[1, 0xAB][..], "0x01AB"),
            (TIME, &[60, 0, 0], "0x3C0000"),
            (SHORT_TIME, &[60, 0], "0x3C00"),
            (DURATION, &[0, 24, 0], "0x001800"),
            (Reading::Date, &[4, 0x85, 0x37, 0x42], "0x04853742"),
            (FIRMWARE, &[0; 6], "0x000000000000"),
            (Reading::Text, b"\x1B[2J", "\\x1B[2J"),
            (
                Reading::Identity,
                &[0; 16],
                "00000000000000000000000000000000",
            ),
        ] {
            assert_eq!(reading.show(bytes).to_string(), text);
        }
    }
}
