//! The reports of a response, from its listing.

use crate::ffi;
use crate::hex;

/// What a response says of a parameter.
#[derive(Clone, Debug, PartialEq, Eq)]
pub struct Report {
    pub number: u16,
    /// None where the board does not know the parameter.
    pub value: Option<Vec<u8>>,
}

impl Report {
    pub fn new(number: u16, value: Option<&[u8]>) -> Report {
        Report {
            number,
            value: value.map(<[u8]>::to_vec),
        }
    }

    /// As a line of the listing.
    pub fn line(&self) -> String {
        let value = match &self.value {
            Some(value) => hex::digits(value),
            None => String::from(UNKNOWN),
        };
        format!("0x{:04X},{value}", self.number)
    }
}

/// The line before the reports.
pub const HEAD: &str = "number,value";

const UNKNOWN: &str = "unknown";

/// The reports of a response that the reader has accepted.
pub fn reports(response: &[u8]) -> Result<Vec<Report>, String> {
    let listing = ffi::list(response).map_err(|refusal| format!("the listing is {refusal}"))?;
    let listing = String::from_utf8_lossy(&listing);
    let lines = listing.lines().skip_while(|line| *line == HEAD);
    let reports = lines.map(parse).collect::<Option<_>>();
    reports.ok_or_else(|| String::from("the listing has another form"))
}

fn parse(line: &str) -> Option<Report> {
    let (number, value) = line.strip_prefix("0x")?.split_once(',')?;
    let number = <[u8; 2]>::try_from(hex::parse(number)?).ok()?;
    let value = match value {
        UNKNOWN => None,
        digits => Some(hex::parse(digits)?),
    };
    Some(Report {
        number: u16::from_be_bytes(number),
        value,
    })
}

#[cfg(test)]
mod tests {
    use super::*;
    use crate::packing;
    use crate::questions;
    use crate::unit_type::UnitType;

    #[test]
    fn lines_are_reports_and_reports_are_lines() {
        for (line, number, value) in [
            ("0x0063,4600", 0x63, Some(&[0x46, 0][..])),
            ("0x0402,01", 0x402, Some(&[1])),
            ("0x0101,unknown", 0x101, None),
        ] {
            let report = Report::new(number, value);
            assert_eq!(report.line(), line);
            assert_eq!(parse(line), Some(report));
        }
        for bad in [
            "",
            "number,value",
            "refused,2",
            "0x0063",
            "0x0063,",
            "0x63,46",
            "0x0063,4",
        ] {
            assert_eq!(parse(bad), None, "{bad}");
        }
    }

    /// Every row of every unit type and an unknown one, as the library lists them.
    #[test]
    fn reports_have_the_lines_of_the_listing() {
        for unit_type in UnitType::ALL {
            check_listing(unit_type);
        }
    }

    fn check_listing(unit_type: UnitType) {
        let id = b"002D6E1B34565815";
        let Ok(mut board) = ffi::set_up(id, b"", 1, unit_type.number()) else {
            panic!("this board is set up");
        };
        let mut commands = questions::reads(unit_type, &["all"]).expect("all rows");
        commands.push(questions::read(0x0101));
        for commands in packing::pack(unit_type, &commands, b"").expect("packets") {
            let request = ffi::write(id, b"", commands).expect("a request");
            let ffi::Answer::Response(response) = ffi::packet(&mut board, &request) else {
                panic!("no response");
            };
            let listing = ffi::list(&response).expect("a listing");
            let lines = reports(&response).expect("reports");
            let lines: String = lines.iter().map(|report| report.line() + "\n").collect();
            assert_eq!(format!("{HEAD}\n{lines}").into_bytes(), listing);
        }
    }
}
