//! Tables: the reports of a capture's responses as RFC 4180 text, a line for each, and the way back.

mod export;
mod import;
#[cfg(test)]
mod tests;

use crate::block::Report;
use crate::packet::ID_SIZE;

pub use export::{Exported, Table, export, table};
pub use import::{Imported, Line, import, lines};

/// The first line, without its line end.
pub const HEADER: &str = r#""board","direction","counter","number","value""#;
/// CR LF.
pub const LINE_END: &str = "\r\n";

/// One line of a table: a report, and of which board and when it is.
#[derive(Clone, Debug, PartialEq, Eq)]
pub struct Row {
    /// The capture's ID of the board.
    pub board: [u8; ID_SIZE],
    /// That of a response; a table has no other.
    pub direction: u8,
    /// Milliseconds.
    pub counter: u32,
    pub report: Report,
}
