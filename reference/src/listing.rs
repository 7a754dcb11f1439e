//! The listing of one response: a header and a line for each report, or the refusal alone.

use crate::block::Report;
use crate::hex;
use crate::packet;
use crate::refusal::Refusal;
use crate::tool;

/// The reports of a response from any board. Checks 2 to 6, 9, 10.
pub fn reports(response: &[u8]) -> Result<Vec<Report>, Refusal> {
    let frame = packet::read(response)?;
    tool::read_reports(frame.function, frame.data)
}

/// The lines of the listing, without their line ends.
pub fn lines(response: &[u8]) -> Vec<String> {
    match reports(response) {
        Ok(reports) => {
            let header = "number,value".to_string();
            std::iter::once(header)
                .chain(reports.iter().map(line))
                .collect()
        }
        Err(refusal) => vec![format!("refused,{}", refusal.number())],
    }
}

fn line(report: &Report) -> String {
    match report {
        Report::Value { number, value } => format!("0x{number:04X},{}", hex::digits(value)),
        Report::Unknown { number } => format!("0x{number:04X},unknown"),
    }
}

#[cfg(test)]
mod tests {
    use super::*;

    fn listed(function: u8, data: &[u8]) -> String {
        let response = packet::write(b"002D6E1B34565815", b"1*", function, data);
        lines(&response).join("|")
    }

    #[test]
    fn reports_are_listed_in_stored_byte_order() {
        assert_eq!(
            listed(
                6,
                &[0xFF, 1, 0xFD, 1, 4, 5, 0xFF, 2, 0xFE, 2, 0x40, 0x51, 0x68]
            ),
            "number,value|0x0101,unknown|0x0104,05|0x0240,5168"
        );
        assert_eq!(listed(6, &[0xAB, 0xCD]), "number,value|0x00AB,CD");
        assert_eq!(listed(6, &[]), "number,value");
    }

    #[test]
    fn refusals_are_listed_alone() {
        assert_eq!(listed(1, &[1]), "refused,9");
        assert_eq!(listed(6, &[1]), "refused,10");
        assert_eq!(lines(&[]), ["refused,2"]);
        assert_eq!(lines(&[0; 257]), ["refused,2"]);
        assert_eq!(lines(&[0; 24]), ["refused,3"]);
    }
}
