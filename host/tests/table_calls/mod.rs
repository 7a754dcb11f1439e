//! The calls of the list that are about tables.

use crate::capture_calls::{dirty, Pieces, FILLER};
use crate::refused;
use udgornwy::export;
use udgornwy::ffi::tables::{self, Exported, Fault, Next, Row};
use udgornwy::hex::digits;
use udgornwy::new_file::Failure;
use udgornwy::refusal::Refusal;

/// The whole capture at once; in pieces, through the narrowest window and a wider one, where the buffer has room for it, the table is the
/// same.
pub fn export(room: &str, capture: &[u8]) -> String {
    let mut buffer = vec![FILLER; room.parse().expect("a length")];
    let answer = tables::export_table(&mut buffer, capture);
    let (table, rest) = buffer.split_at(answer.map_or(0, |exported| exported.length));
    let text = match answer {
        Err(refusal) => refused(&refusal),
        Ok(exported) => {
            for window in [0, 20_000] {
                let pieces = export_pieces(capture, window);
                assert_eq!(pieces, (exported, table.to_vec()));
            }
            let last = last_lines(&exported).replace('\n', " ");
            format!("table {} {}", digits(table), last.trim_end())
        }
    };
    text + dirty(rest)
}

fn last_lines(exported: &Exported) -> String {
    let Exported {
        refused, refusal, ..
    } = *exported;
    export::Exported { refused, refusal }.to_string()
}

/// A refused head, of which no file is made, has the table's header here.
fn export_pieces(capture: &[u8], window: usize) -> (Exported, Vec<u8>) {
    let mut table = Vec::new();
    let (refused, refusal) = match export::export(Pieces::of(capture), &mut table, window) {
        Ok(exported) => (exported.refused, exported.refusal),
        Err(Failure::Refused(refusal)) => {
            assert_eq!(table, b"");
            table = tables::header().expect("room for a header");
            (0, Some(refusal))
        }
        Err(failure) => panic!("{failure:?}"),
    };
    let exported = Exported {
        length: table.len(),
        refused,
        refusal,
    };
    (exported, table)
}

pub fn import(table: &[u8]) -> String {
    let mut answer = String::from("reports");
    let mut next = match tables::open_table(table) {
        Ok(rest) => tables::next_row(rest),
        Err(fault) => Next::Refused(fault),
    };
    while let Next::Row(row, rest) = next {
        answer += &format!(" {}", show(row));
        next = tables::next_row(rest);
    }
    match next {
        Next::Refused(Fault { line, refusal }) => {
            format!("{answer} {} line {line}", refused(&refusal))
        }
        _ => answer,
    }
}

/// `ID.D.C.NNNN=HEX`, or `ID.D.C.NNNN=unknown`. The digits are read as bytes and shown again.
fn show(row: Row) -> String {
    let value = match row.value {
        b"" => String::from("unknown"),
        value => digits(&bytes_of(value)),
    };
    let id = digits(&bytes_of(row.board));
    format!("{id}.1.{}.{:04X}={value}", row.counter, row.number)
}

/// A buffer with a byte less takes none of them.
fn bytes_of(text: &[u8]) -> Vec<u8> {
    let mut bytes = vec![FILLER; text.len() / 2];
    let short = &mut bytes[1..];
    assert_eq!(tables::read_hex(short, text), Err(Refusal(63)));
    assert_eq!(dirty(&bytes), "");
    assert_eq!(tables::read_hex(&mut bytes, text), Ok(text.len() / 2));
    bytes
}
