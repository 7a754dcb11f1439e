//! Reads a table, and says how many reports it has.

use std::collections::HashSet;
use std::fmt;
use std::io::{self, Read};

use crate::capture::Source;
use crate::ffi::tables::{self, Fault, Next};
use crate::output;

/// Says how many reports a table has; of one that is refused, those before the line at fault, which is the error.
pub fn run(source: &Source) -> Result<(), String> {
    let text = read(source).map_err(|error| format!("cannot read {source}: {error}"))?;
    let imported = import(&text);
    output::put(format!("{imported}\n").as_bytes())?;
    match imported.fault {
        None => Ok(()),
        Some(Fault { line, refusal }) => Err(format!("{source}: line {line}: {refusal}")),
    }
}

fn read(source: &Source) -> io::Result<Vec<u8>> {
    let mut text = Vec::new();
    source.open()?.read_to_end(&mut text)?;
    Ok(text)
}

/// What a table has, up to its end or to a line that is refused.
#[derive(Clone, Copy, Debug, PartialEq, Eq)]
pub struct Imported {
    pub reports: usize,
    /// That have a report.
    pub boards: usize,
    pub fault: Option<Fault>,
}

impl fmt::Display for Imported {
    fn fmt(&self, formatter: &mut fmt::Formatter<'_>) -> fmt::Result {
        let count = |number: usize, word: &str| match number {
            1 => format!("1 {word}"),
            _ => format!("{number} {word}s"),
        };
        let (reports, boards) = (count(self.reports, "report"), count(self.boards, "board"));
        write!(formatter, "{reports} of {boards}")
    }
}

pub fn import(text: &[u8]) -> Imported {
    let (mut reports, mut boards) = (0, HashSet::new());
    let mut next = match tables::open_table(text) {
        Ok(rest) => tables::next_row(rest),
        Err(fault) => Next::Refused(fault),
    };
    while let Next::Row(row, rest) = next {
        reports += 1;
        boards.insert(row.board);
        next = tables::next_row(rest);
    }
    Imported {
        reports,
        boards: boards.len(),
        fault: match next {
            Next::Refused(fault) => Some(fault),
            _ => None,
        },
    }
}
