//! Tables: exported from captures, and imported.

mod exporting;
mod fields;
mod importing;
mod lines;
mod quoting;
mod refusing;

use super::Edges;
use crate::hex;

/// The ID of a second board.
const C: &str = "FDABCDEF00112233445566778899AABB";
/// The first line of a table.
const HEADER: &str = r#""board","direction","counter","number","value""#;
/// A line of board A, whose ID stands for `@`.
const GOOD: &str = r#""@","1","5","0x0001","x00""#;

pub fn add(edges: &mut Edges) {
    exporting::add(edges);
    refusing::add(edges);
    importing::add(edges);
    quoting::add(edges);
    fields::add(edges);
    lines::add(edges);
}

/// A text written by hand, in which `@` is the ID of board A in a table and `%` that of board C.
fn text(by_hand: &str) -> String {
    by_hand
        .replace('@', "x30303244364531423334353635383135")
        .replace('%', &format!("x{C}"))
}

/// The header and these lines, each with its line end.
fn table(lines: &[&str]) -> String {
    let lines = lines.iter().map(|line| format!("{}\r\n", text(line)));
    format!("{HEADER}\r\n{}", lines.collect::<String>())
}

/// The answer of an export: these lines behind the header, and what is told beside.
fn exported(lines: &[&str], beside: &str) -> String {
    let table = hex::digits(table(lines).as_bytes());
    format!("table {table} {beside}")
}

/// The import of any bytes. In the answer `@` and `%` are the IDs without their `x`.
fn import_bytes(edges: &mut Edges, table: &[u8], answer: &str) {
    let line = format!("import {}", hex::field(table));
    edges.line(line, text(answer).replace(" x", " "));
}

fn import(edges: &mut Edges, by_hand: &str, answer: &str) {
    import_bytes(edges, text(by_hand).as_bytes(), answer);
}
