//! Values as the command line takes them.

use crate::entry;
use crate::hex;
use crate::rows::{self, Access, Row, Size};
use crate::unit_type::UnitType;

/// The longest value that a command can carry.
const LONGEST: usize = 255;

/// What inverts a switch that can be inverted.
pub const INVERT: u8 = 2;

/// `ROW=VALUE`: the number, and the value's bytes as a write to a board of the unit type sends them.
pub fn parse_assignment(unit_type: UnitType, text: &str) -> Result<(u16, Vec<u8>), String> {
    let (number, value) = split(unit_type, text)?;
    Ok((number, parse_value(unit_type, number, value)?))
}

/// `ROW=VALUE`, a measured value. Rows of two bytes and more also take their bytes without 0x, which no other form looks like.
pub fn parse_measurement(unit_type: UnitType, text: &str) -> Result<(u16, Vec<u8>), String> {
    let (number, value) = split(unit_type, text)?;
    let bytes = hex::parse(value).filter(|bytes| bytes.len() > 1);
    match (bytes, rows::find(unit_type, number)) {
        (Some(bytes), Some(row)) if row.size == Size::Bytes(bytes.len()) => Ok((number, bytes)),
        _ => Ok((number, parse_value(unit_type, number, value)?)),
    }
}

fn split(unit_type: UnitType, text: &str) -> Result<(u16, &str), String> {
    let Some((row, value)) = text.split_once('=') else {
        return Err(format!("`{text}` has no value: write ROW=VALUE"));
    };
    Ok((rows::parse_number(unit_type, row)?, value))
}

fn parse_value(unit_type: UnitType, number: u16, text: &str) -> Result<Vec<u8>, String> {
    if let Some(digits) = text.strip_prefix("0x") {
        return parse_bytes(digits);
    }
    if let Some(characters) = text.strip_prefix("text:") {
        return sized(characters.as_bytes().to_vec());
    }
    if rows::is_schedule(unit_type, number) {
        return Err(String::from(entry::HINT));
    }
    match rows::find(unit_type, number) {
        Some(row) => parse_reading(row, text),
        None => Err(format!(
            "0x{number:04X} is no row of {unit_type}: write its bytes, like 0x4600"
        )),
    }
}

/// Bytes in stored order, as the listing shows them.
fn parse_bytes(digits: &str) -> Result<Vec<u8>, String> {
    match hex::parse(digits) {
        Some(bytes) => sized(bytes),
        None => Err(format!("`{digits}` is not bytes of two hex digits each")),
    }
}

fn sized(bytes: Vec<u8>) -> Result<Vec<u8>, String> {
    match bytes.len() {
        1..=LONGEST => Ok(bytes),
        length => Err(format!("a value has 1 to {LONGEST} bytes, not {length}")),
    }
}

fn parse_reading(row: &Row, text: &str) -> Result<Vec<u8>, String> {
    if row.access == Access::Invert && text == "invert" {
        return Ok(vec![INVERT]);
    }
    let size = *row.size.range().start();
    if let Some(bytes) = row.reading.parse(text, size) {
        return sized(bytes);
    }
    let forms = || {
        format!(
            "write {}, or bytes like 0x{}",
            row.form(),
            "00".repeat(size)
        )
    };
    let reason = row.reading.objection(text).unwrap_or_else(forms);
    Err(format!("`{text}` is no value of {}: {reason}", row.title()))
}

#[cfg(test)]
mod tests {
    use super::*;

    const MICRA: UnitType = UnitType::Micra;

    #[test]
    fn values_are_readings_bytes_or_text() {
        for (text, number, value) in [
            ("0x0002=3", 0x02, &[3][..]),
            ("speed-mode=3", 0x02, &[3]),
            ("unit-on-off=on", 0x01, &[1]),
            ("unit-on-off=2", 0x01, &[2]),
            ("unit-on-off=invert", 0x01, &[2]),
            ("minimum-fan-speed=255", 0x36, &[255]),
            ("minimum-fan-speed=70%", 0x36, &[70]),
            ("temperature-setpoint-normal=21", 0x18, &[21]),
            ("temperature-setpoint-timer=ventilation only", 0x0D, &[0]),
            ("0063=70", 0x63, &[70, 0]),
            ("filter-replacement-timer=365", 0x63, &[0x6D, 1]),
            ("0x0063=0x4600", 0x63, &[0x46, 0]),
            ("0x0070=0x0401010a", 0x70, &[4, 1, 1, 10]),
            ("rtc-calendar=2026-11-16", 0x70, &[16, 1, 11, 26]),
            ("rtc-time=08:30:00", 0x6F, &[0, 30, 8]),
            ("wifi-ip-address=192.168.4.1", 0x9C, &[192, 168, 4, 1]),
            ("0x0077=0x01", 0x77, &[1]),
            ("wifi-name=text:a=b c", 0x95, b"a=b c"),
            ("wifi-name=a=b c", 0x95, b"a=b c"),
            ("wifi-name=7", 0x95, b"7"),
            ("wifi-name=0x07", 0x95, &[7]),
            ("0x0101=0x07", 0x101, &[7]),
        ] {
            assert_eq!(
                parse_assignment(MICRA, text),
                Ok((number, value.to_vec())),
                "{text}"
            );
        }
    }

    #[test]
    fn values_that_are_none() {
        for bad in [
            "0x0002",
            "0x0002=",
            "=1",
            "0x0002=-1",
            "0x0002=256",
            "0x0063=65536",
            "0x0002=1.0",
            "0x0002=3x",
            "0x0002=0x",
            "0x0002=0x3",
            "0x0002=0x0g",
            "0x0077=1",
            "0x0070=1",
            "rtc-calendar=2026-02-29",
            "rtc-calendar=2026-11-16 tuesday",
            "0x0095=",
            "0x0095=text:",
            "0x0101=7",
            "sound-generator=invert",
            "speed-mode=invert",
            "temperature-setpoint-normal=21.5",
            "nothing=1",
            "0x0002=99999999999999999999",
        ] {
            assert!(parse_assignment(MICRA, bad).is_err(), "{bad}");
        }
        let long = |count| format!("0x0095=0x{}", "41".repeat(count));
        assert!(parse_assignment(MICRA, &long(255)).is_ok());
        assert!(parse_assignment(MICRA, &long(256)).is_err());
    }

    #[test]
    fn measured_values_are_readings_or_bytes() {
        for (text, number, value) in [
            ("0x001E=CEFF", 0x1E, &[0xCE, 0xFF][..]),
            ("0x001E=1000", 0x1E, &[0x10, 0]),
            ("intake-air-temperature=-5.0", 0x1F, &[0xCE, 0xFF]),
            ("intake-air-temperature=sensor missing", 0x1F, &[0, 0x80]),
            ("boost-mode=0x10", 0x06, &[0x10]),
            ("boost-mode=01", 0x06, &[1]),
            ("boost-mode=on", 0x06, &[1]),
            ("weekly-schedule-temperature=21", 0x74, &[21]),
            ("0x000B=1h02m03s", 0x0B, &[3, 2, 1]),
            ("0x000B=030201", 0x0B, &[3, 2, 1]),
            ("wifi-current-ip-address=10.0.0.7", 0xA3, &[10, 0, 0, 7]),
        ] {
            assert_eq!(
                parse_measurement(MICRA, text),
                Ok((number, value.to_vec())),
                "{text}"
            );
        }
        for bad in [
            "0x001E",
            "0x001E=",
            "0x001E=CEF",
            "boost-mode=0A",
            "0x0111=7",
        ] {
            assert!(parse_measurement(MICRA, bad).is_err(), "{bad}");
        }
    }

    /// The same row of another unit type may take other values.
    #[test]
    fn values_go_by_the_unit_type() {
        let (expert, a30) = (UnitType::ExpertA50, UnitType::ExpertA30);
        for (text, number, value) in [
            ("speed-mode=manual", 0x02, &[255][..]),
            ("speed-mode=3", 0x02, &[3]),
            ("night-party-timer=party", 0x07, &[2]),
            ("night-timer-setpoint=08:30", 0x302, &[30, 8]),
            ("0x0303=23:59", 0x303, &[59, 23]),
            ("humidity-threshold=60%", 0x19, &[60]),
            ("supply-fan-level-1=255", 0x3A, &[255]),
            ("ventilator-operation-mode=heat recovery", 0xB7, &[1]),
            ("relay-sensor-activation=invert", 0x14, &[2]),
            ("filter-replacement-timer=71", 0x63, &[71, 0]),
        ] {
            let parsed = parse_assignment(expert, text);
            assert_eq!(parsed, Ok((number, value.to_vec())), "{text}");
        }
        for (unit_type, bad) in [
            (MICRA, "speed-mode=manual"),
            (MICRA, "0x0007=party"),
            (MICRA, "humidity-threshold=60"),
            (expert, "night-party-timer=invert"),
            (expert, "0x0007=on"),
            (expert, "night-timer-setpoint=08:30:00"),
            (expert, "supply-fan-level-1=70%"),
            (expert, "supply-fan-speed-1=70"),
            (expert, "0x0077=1"),
            (a30, "filter-replacement-timer=71"),
            (a30, "0x0063=71"),
        ] {
            assert!(parse_assignment(unit_type, bad).is_err(), "{bad}");
        }
        let error = parse_assignment(a30, "0x0063=71").expect_err("no row");
        assert!(error.starts_with("0x0063 is no row of type 5 (VENTO Expert A30): "));
    }

    #[test]
    fn measured_values_go_by_the_unit_type() {
        for (text, number, value) in [
            ("humidity=55 %", 0x25, &[55][..]),
            ("rtc-battery-voltage=3000 mV", 0x24, &[0xB8, 0x0B]),
            ("fan-1-speed=1322 rpm", 0x4A, &[0x2A, 5]),
            ("machine-hours=400d05h06m", 0x7E, &[6, 5, 0x90, 1]),
            (
                "filter-replacement-countdown=180d23h59m",
                0x64,
                &[59, 23, 180],
            ),
            ("0x0064=3B17B4", 0x64, &[59, 23, 180]),
            ("alarm-indicator=warning", 0x83, &[2]),
            ("humidity-sensor-status=over setpoint", 0x304, &[1]),
        ] {
            let parsed = parse_measurement(UnitType::ExpertA30, text);
            assert_eq!(parsed, Ok((number, value.to_vec())), "{text}");
            let micra = parse_measurement(MICRA, text);
            assert_ne!(micra, Ok((number, value.to_vec())), "{text}");
        }
    }

    /// What is shown can be written: each byte, in every place of every row.
    #[test]
    fn what_is_shown_is_taken() {
        for unit_type in UnitType::ALL {
            let rows = rows::of(unit_type).filter(|row| row.number != entry::NUMBER);
            for row in rows {
                for size in [*row.size.range().start(), *row.size.range().end()] {
                    assert_shown_is_taken(unit_type, row, size);
                }
            }
        }
    }

    fn assert_shown_is_taken(unit_type: UnitType, row: &Row, size: usize) {
        for byte in 0..=255 {
            let mut bytes = vec![b'1'; size];
            bytes[usize::from(byte) % size] = byte;
            let shown = row.reading.show(&bytes).to_string();
            let is_escaped = shown.contains('\\');
            let is_identity = row.number == 0x007C;
            let taken = parse_value(unit_type, row.number, &shown);
            assert!(
                is_escaped || is_identity || taken == Ok(bytes),
                "{}: {shown}",
                row.name
            );
        }
    }
}
