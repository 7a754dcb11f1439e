//! Exports a capture as a table, a file of its own.

use std::fmt;
use std::io::{Read, Write};
use std::ops::ControlFlow;
use std::path::Path;

use crate::capture::{self, Capture, Source, WINDOW};
use crate::ffi::captures::LONGEST_HEAD;
use crate::ffi::tables::{self, TEXT_PER_BYTE};
use crate::new_file::{self, Failure};
use crate::output;
use crate::refusal::Refusal;

/// What became of a capture.
#[derive(Clone, Copy, Debug, PartialEq, Eq)]
pub struct Exported {
    /// So many responses are refused, and left out.
    pub refused: u64,
    /// Of the capture.
    pub refusal: Option<Refusal>,
}

/// The lines that the program `export` prints behind the table.
impl fmt::Display for Exported {
    fn fmt(&self, formatter: &mut fmt::Formatter<'_>) -> fmt::Result {
        writeln!(formatter, "refused,{}", self.refused)?;
        match self.refusal {
            None => Ok(()),
            Some(refusal) => writeln!(formatter, "capture,{}", refusal.0),
        }
    }
}

/// Exports a capture as a new file. One that 53 refuses is exported up to there, and its refusal is the error; after any other error
/// there is no file.
pub fn run(source: &Source, place: &Path) -> Result<(), String> {
    let kept = new_file::open(source, place).and_then(|input| keep(input, place));
    let exported = match kept {
        Ok(exported) => exported,
        Err(Failure::Refused(refusal)) => Exported {
            refused: 0,
            refusal: Some(refusal),
        },
        Err(failure) => return Err(failure.words(source, place)),
    };
    output::say(&exported.to_string());
    capture::accepted(exported.refusal)
}

/// Exports a capture as a file that is there only when it is whole.
pub fn keep(input: impl Read, place: &Path) -> Result<Exported, Failure> {
    new_file::keep(place, |file| export(input, file, WINDOW))
}

/// Exports a capture through a window of this size, or of the longest head's where that is more. One that 53 refuses is exported up to
/// there.
pub fn export(
    input: impl Read,
    mut output: impl Write,
    window: usize,
) -> Result<Exported, Failure> {
    let opened = Capture::open(input, window).map_err(Failure::Input)?;
    let mut capture = opened.map_err(Failure::Refused)?;
    let (head, ids) = (capture.head, capture.ids.clone());
    let header = tables::header().map_err(Failure::Refused)?;
    output.write_all(&header).map_err(Failure::Output)?;
    let mut text = vec![0; TEXT_PER_BYTE * window.max(LONGEST_HEAD)];
    let (mut length, mut refused) = (0, 0);
    loop {
        let taken = capture.take(|window, start, end| {
            let rows = tables::export_window(&mut text, window, start, end, &ids, head, refused)?;
            (length, refused) = (rows.length, rows.refused);
            rows.ending
        });
        let taken = taken.map_err(Failure::Input)?;
        output.write_all(&text[..length]).map_err(Failure::Output)?;
        if let ControlFlow::Break(refusal) = taken {
            return Ok(Exported { refused, refusal });
        }
    }
}
