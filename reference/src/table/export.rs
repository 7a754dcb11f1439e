//! Export: the table of a capture.

use super::{HEADER, LINE_END, Row};
use crate::block::Report;
use crate::capture::{self, Captured, RESPONSE};
use crate::hex;
use crate::listing;
use crate::packet::ID_SIZE;
use crate::refusal::Refusal;

/// The table of a capture, and what is told beside it.
#[derive(Debug, PartialEq, Eq)]
pub struct Table {
    pub text: String,
    /// The responses that are left out because the listing refuses them.
    pub refused: usize,
    /// Why the capture is refused; the table has what stands before that.
    pub refusal: Option<Refusal>,
}

/// What was exported of a capture.
#[derive(Debug, PartialEq, Eq)]
pub struct Exported {
    pub length: usize,
    pub refused: usize,
    pub refusal: Option<Refusal>,
}

/// Writes the table of a capture to the front of the buffer. Checks 54.
pub fn export(buffer: &mut [u8], capture: &[u8]) -> Result<Exported, Refusal> {
    let Table {
        text,
        refused,
        refusal,
    } = table(capture);
    let length = capture::put(buffer, text.as_bytes())?;
    Ok(Exported {
        length,
        refused,
        refusal,
    })
}

/// The table of a capture: a line for each report of its responses, in order. Requests are passed over.
pub fn table(capture: &[u8]) -> Table {
    let reading = capture::read(capture);
    let mut table = Table {
        text: format!("{HEADER}{LINE_END}"),
        refused: 0,
        refusal: reading.refusal,
    };
    let records = reading.records.iter();
    for record in records.filter(|record| record.direction == RESPONSE) {
        let board = reading.ids[usize::from(record.index)];
        match listing::reports(&record.packet) {
            Ok(reports) => table.add(board, record, reports),
            Err(_) => table.refused += 1,
        }
    }
    table
}

impl Table {
    fn add(&mut self, board: [u8; ID_SIZE], record: &Captured, reports: Vec<Report>) {
        for report in reports {
            self.text += &line(&Row {
                board,
                direction: record.direction,
                counter: record.counter,
                report,
            });
        }
    }
}

/// The line of a row, with its line end. An unknown parameter has no value bytes.
fn line(row: &Row) -> String {
    let (number, value) = match &row.report {
        Report::Value { number, value } => (number, &value[..]),
        Report::Unknown { number } => (number, &[][..]),
    };
    let fields = [
        format!("x{}", hex::digits(&row.board)),
        row.direction.to_string(),
        row.counter.to_string(),
        format!("0x{number:04X}"),
        format!("x{}", hex::digits(value)),
    ];
    let quoted = fields.map(|field| format!("\"{field}\""));
    quoted.join(",") + LINE_END
}
