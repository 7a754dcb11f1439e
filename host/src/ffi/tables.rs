//! The functions of include/udgornwy.h for tables, each behind one safe function.

use super::captures::Head;
use super::{accepted, written, Reply};
use crate::refusal::Refusal;

const HEADER: usize = 48;
/// So many bytes of text for each byte of records are always enough.
pub const TEXT_PER_BYTE: usize = 40;
/// The digits of a board's ID.
const ID_DIGITS: usize = 32;

/// What became of a whole capture.
#[derive(Clone, Copy, Debug, PartialEq, Eq)]
pub struct Exported {
    pub length: usize,
    /// So many responses are refused.
    pub refused: u64,
    /// Of the capture: 50 to 52 have the header alone, 53 has what stands before the fault.
    pub refusal: Option<Refusal>,
}

/// What became of the records of a window.
#[derive(Clone, Copy, Debug, PartialEq, Eq)]
pub struct Rows {
    pub length: usize,
    /// So many responses are refused so far.
    pub refused: u64,
    /// How many bytes are left, the start of a record; 53: a field outside its range.
    pub ending: Result<usize, Refusal>,
}

/// A line that is refused. The header is line 1.
#[derive(Clone, Copy, Debug, PartialEq, Eq)]
pub struct Fault {
    pub line: u64,
    pub refusal: Refusal,
}

/// What is left of a table, from the line with this number on.
#[derive(Clone, Copy, Debug, PartialEq, Eq)]
pub struct Rest<'a> {
    pub text: &'a [u8],
    pub line: u64,
}

/// A report of a board. ID and value are uppercase digits, two for each byte; an unknown parameter has no value.
#[derive(Clone, Copy, Debug, PartialEq, Eq)]
pub struct Row<'a> {
    pub board: &'a [u8],
    pub counter: u32,
    pub number: u16,
    pub value: &'a [u8],
}

/// What stands first in what is left of a table.
#[derive(Clone, Copy, Debug, PartialEq, Eq)]
pub enum Next<'a> {
    /// A row, and what follows its line.
    Row(Row<'a>, Rest<'a>),
    End,
    Refused(Fault),
}

#[repr(C)]
struct ExportedTable {
    refusal: u16,
    capture: u16,
    length: usize,
    refused: u64,
}

#[repr(C)]
struct ExportedRows {
    refusal: u16,
    ending: u16,
    length: usize,
    refused: u64,
    left: usize,
}

#[repr(C)]
struct OpenedTable {
    refusal: u16,
    line: u64,
    /// How many bytes are left after the header.
    rest: usize,
}

#[repr(C)]
struct TableRow {
    /// 0 row, 1 end, 2 refused.
    kind: u8,
    page: u8,
    low: u8,
    refusal: u16,
    counter: u32,
    line: u64,
    /// How many bytes are left where the ID's digits start, where the value's start and end, and after the line.
    board: usize,
    value: usize,
    value_end: usize,
    rest: usize,
}

extern "C" {
    fn udgornwy_table_header(buffer: *mut u8, buffer_length: usize) -> Reply;
    fn udgornwy_export_table(
        buffer: *mut u8,
        buffer_length: usize,
        capture: *const u8,
        capture_length: usize,
    ) -> ExportedTable;
    fn udgornwy_export_window(
        text: *mut u8,
        text_length: usize,
        window: *mut u8,
        window_length: usize,
        start: usize,
        end: usize,
        ids: *const u8,
        ids_length: usize,
        version: u16,
        boards: u16,
        refused: u64,
    ) -> ExportedRows;
    fn udgornwy_open_table(text: *const u8, text_length: usize) -> OpenedTable;
    fn udgornwy_next_row(text: *const u8, text_length: usize, line: u64) -> TableRow;
    fn udgornwy_read_hex(
        bytes: *mut u8,
        bytes_length: usize,
        digits: *const u8,
        digits_length: usize,
    ) -> Reply;
}

/// The header of a table, with the end of its line.
pub fn header() -> Result<Vec<u8>, Refusal> {
    let mut buffer = [0; HEADER];
    // SAFETY: the slice is live.
    let reply = unsafe { udgornwy_table_header(buffer.as_mut_ptr(), buffer.len()) };
    written(&reply, &buffer).map(<[u8]>::to_vec)
}

/// Exports a whole capture. Refusal 54 leaves the buffer as it was.
pub fn export_table(buffer: &mut [u8], capture: &[u8]) -> Result<Exported, Refusal> {
    // SAFETY: both slices are live and do not overlap.
    let exported = unsafe {
        udgornwy_export_table(
            buffer.as_mut_ptr(),
            buffer.len(),
            capture.as_ptr(),
            capture.len(),
        )
    };
    accepted(exported.refusal).map(|()| Exported {
        length: exported.length,
        refused: exported.refused,
        refusal: accepted(exported.capture).err(),
    })
}

/// Exports the records of a capture with this head and these IDs that stand in a window from `start` to `end`, and moves the bytes that
/// are left to its start. So many responses were refused before. The text needs `TEXT_PER_BYTE` for each byte from `start` to `end`.
pub fn export_window(
    text: &mut [u8],
    window: &mut [u8],
    start: usize,
    end: usize,
    ids: &[u8],
    head: Head,
    refused: u64,
) -> Result<Rows, Refusal> {
    // SAFETY: all slices are live, and none overlaps another.
    let rows = unsafe {
        udgornwy_export_window(
            text.as_mut_ptr(),
            text.len(),
            window.as_mut_ptr(),
            window.len(),
            start,
            end,
            ids.as_ptr(),
            ids.len(),
            head.version.number(),
            head.boards,
            refused,
        )
    };
    accepted(rows.refusal).map(|()| Rows {
        length: rows.length,
        refused: rows.refused,
        ending: accepted(rows.ending).map(|()| rows.left),
    })
}

/// Reads the header of a table, and gives what is left after it.
pub fn open_table(text: &[u8]) -> Result<Rest<'_>, Fault> {
    // SAFETY: the slice is live.
    let opened = unsafe { udgornwy_open_table(text.as_ptr(), text.len()) };
    let line = opened.line;
    match accepted(opened.refusal) {
        Err(refusal) => Err(Fault { line, refusal }),
        Ok(()) => Ok(Rest {
            text: last(text, opened.rest),
            line,
        }),
    }
}

/// The first row of what is left of a table.
pub fn next_row(rest: Rest<'_>) -> Next<'_> {
    let text = rest.text;
    // SAFETY: the slice is live.
    let next = unsafe { udgornwy_next_row(text.as_ptr(), text.len(), rest.line) };
    match next.kind {
        0 => {
            let row = Row {
                board: &last(text, next.board)[..ID_DIGITS],
                counter: next.counter,
                number: u16::from_be_bytes([next.page, next.low]),
                value: &last(text, next.value)[..next.value - next.value_end],
            };
            let after = Rest {
                text: last(text, next.rest),
                line: next.line,
            };
            Next::Row(row, after)
        }
        1 => Next::End,
        _ => Next::Refused(Fault {
            line: next.line,
            refusal: Refusal(next.refusal),
        }),
    }
}

/// Puts the bytes of uppercase digits into the first bytes of a buffer, and says how many they are.
pub fn read_hex(bytes: &mut [u8], digits: &[u8]) -> Result<usize, Refusal> {
    // SAFETY: both slices are live and do not overlap.
    let reply = unsafe {
        udgornwy_read_hex(
            bytes.as_mut_ptr(),
            bytes.len(),
            digits.as_ptr(),
            digits.len(),
        )
    };
    accepted(reply.refusal).map(|()| reply.length)
}

/// The last so many bytes.
fn last(text: &[u8], count: usize) -> &[u8] {
    &text[text.len() - count..]
}
