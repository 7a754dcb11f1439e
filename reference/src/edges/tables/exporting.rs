//! The table of a capture: which reports it has, and how they are written.

use super::{C, exported};
use crate::edges::captures::{A, FORMS, Form, TWO};
use crate::edges::examples::{E1, E2};
use crate::edges::{Edges, ID, PASSWORD, ZERO_ID, bytes, framed};
use crate::hex;
use crate::packet;

pub fn add(edges: &mut Edges) {
    for form in FORMS {
        guide_response(edges, form);
        boards(edges, form);
        reports(edges, form);
        counters(edges, form);
        requests(edges, form);
    }
    senders(edges);
    long_values(edges);
    many_boards(edges);
}

/// Exports a capture of boards A and C with these records.
pub fn export(edges: &mut Edges, form: Form, records: &[String], lines: &[&str], beside: &str) {
    let capture = format!("VLG #2 {A} {C} {}", records.join(" "));
    let field = hex::field(&form.bytes(&capture));
    edges.line(format!("export 100000 {field}"), exported(lines, beside));
}

/// A response of a board; the counter is given as its four bytes.
pub fn response(index: usize, counter: &str, packet: &str) -> String {
    let [low, high] = (bytes(packet).len() as u16).to_le_bytes();
    format!("#{index} 01 {counter} {low:02X} {high:02X} {packet}")
}

/// A response of board A at 5 with this data block.
fn reporting(data: &str) -> String {
    response(0, "05 00 00 00", &framed(&ID, PASSWORD, 6, data))
}

fn guide_response(edges: &mut Edges, form: Form) {
    edges.rule("The guide's response as a table: header, quotes, prefixes, CR LF");
    let records = [response(0, "EB 03 00 00", E2)];
    let lines = [
        r#""x30303244364531423334353635383135","1","1003","0x0001","x00""#,
        r#""x30303244364531423334353635383135","1","1003","0x0002","x03""#,
    ];
    export(edges, form, &records, &lines, "refused,0");
    edges.rule("A capture without a record is the header alone, and `refused,0` stands behind it");
    export(edges, form, &[], &[], "refused,0");
}

fn boards(edges: &mut Edges, form: Form) {
    edges.rule("The board is the capture's by index, whatever ID the response bears; lines are in the capture's order");
    let of_board = |index, id| response(index, "05 00 00 00", &framed(id, b"", 6, "01 00"));
    let records = [
        of_board(1, &ID),
        of_board(0, &ZERO_ID),
        of_board(1, &packet::CODE_WORD),
    ];
    let lines = [
        r#""xFDABCDEF00112233445566778899AABB","1","5","0x0001","x00""#,
        r#""@","1","5","0x0001","x00""#,
        r#""%","1","5","0x0001","x00""#,
    ];
    export(edges, form, &records, &lines, "refused,0");
    edges.rule("Two boards of one ID");
    let capture = format!("VLG #2 {A} {A} {} {}", records[0], records[1]);
    let field = hex::field(&form.bytes(&capture));
    let lines = [r#""@","1","5","0x0001","x00""#; 2];
    edges.line(format!("export 500 {field}"), exported(&lines, "refused,0"));
}

/// Data blocks of a response, and number and value of each line.
const BLOCKS: [(&str, &[(&str, &str)]); 13] = [
    ("", &[]),
    ("FF 01", &[]),
    ("FB FF", &[("0x00FB", "xFF")]),
    ("0A FC", &[("0x000A", "xFC")]),
    ("FD 01", &[("0x0001", "x")]),
    ("FD FB FD FB", &[("0x00FB", "x"), ("0x00FB", "x")]),
    ("FE 01 01 22", &[("0x0001", "x22")]),
    ("FE 04 9C 0D 0A 22 2C", &[("0x009C", "x0D0A222C")]),
    ("FF FF 01 00", &[("0xFF01", "x00")]),
    ("FF FC FD 01", &[("0xFC01", "x")]),
    (
        "01 00 FF 01 01 00 FF 00 01 00",
        &[("0x0001", "x00"), ("0x0101", "x00"), ("0x0001", "x00")],
    ),
    (
        "FF 01 FD 01 04 05 FF 02 FE 02 40 51 68",
        &[("0x0101", "x"), ("0x0104", "x05"), ("0x0240", "x5168")],
    ),
    ("FE 06 77 01 02 03 0F 3B 17", &[("0x0077", "x0102030F3B17")]),
];

fn reports(edges: &mut Edges, form: Form) {
    edges.rule("A line for each report in order: pages, values of several bytes in their order, unknown parameters `x`");
    for (data, reports) in BLOCKS {
        let lines: Vec<String> = reports
            .iter()
            .map(|(number, value)| format!(r#""@","1","5","{number}","{value}""#))
            .collect();
        let lines: Vec<&str> = lines.iter().map(String::as_str).collect();
        export(edges, form, &[reporting(data)], &lines, "refused,0");
    }
}

/// Counters as they stand in a record, low byte first, and in a table.
const COUNTERS: [(&str, &str); 13] = [
    ("00 00 00 00", "0"),
    ("01 00 00 00", "1"),
    ("09 00 00 00", "9"),
    ("0A 00 00 00", "10"),
    ("63 00 00 00", "99"),
    ("64 00 00 00", "100"),
    ("FF 00 00 00", "255"),
    ("00 01 00 00", "256"),
    ("00 00 01 00", "65536"),
    ("FF C9 9A 3B", "999999999"),
    ("00 CA 9A 3B", "1000000000"),
    ("00 00 00 80", "2147483648"),
    ("FF FF FF FF", "4294967295"),
];

fn counters(edges: &mut Edges, form: Form) {
    edges.rule("Counters are decimal without leading zeros");
    let packet = framed(&ID, PASSWORD, 6, "01 00");
    for (bytes, counter) in COUNTERS {
        let line = format!(r#""@","1","{counter}","0x0001","x00""#);
        let records = [response(0, bytes, &packet)];
        export(edges, form, &records, &[&line], "refused,0");
    }
}

fn requests(edges: &mut Edges, form: Form) {
    edges.rule("Requests are left out and not counted, also where they are refused or responses by their packet");
    let request = |packet: &str| response(0, "05 00 00 00", packet).replacen("#0 01", "#0 00", 1);
    let records = [
        request(E1),
        request(""),
        response(0, "05 00 00 00", E2),
        request(E2),
        request("FD FD 02"),
    ];
    let lines = [
        r#""@","1","5","0x0001","x00""#,
        r#""@","1","5","0x0002","x03""#,
    ];
    export(edges, form, &records, &lines, "refused,0");
    export(edges, form, &records[..2], &[], "refused,0");
}

fn senders(edges: &mut Edges) {
    edges.rule("ID and password of a response are taken as they are");
    for id in [ID, ZERO_ID, packet::CODE_WORD, [0xFF; 16]] {
        for password in [&b""[..], b"1112", &[0, 0xFF], b"12345678"] {
            let records = [response(
                0,
                "05 00 00 00",
                &framed(&id, password, 6, "01 00"),
            )];
            let lines = [r#""@","1","5","0x0001","x00""#];
            export(edges, TWO, &records, &lines, "refused,0");
        }
    }
}

fn long_values(edges: &mut Edges) {
    edges.rule("The longest value that a response can have, 229 bytes, and 116 reports");
    let long = format!("FE E5 96 {}", "5A".repeat(229));
    let records = [response(0, "FF FF FF FF", &framed(&ID, b"", 6, &long))];
    let line = format!(r#""@","1","4294967295","0x0096","x{}""#, "5A".repeat(229));
    export(edges, TWO, &records, &[&line], "refused,0");
    let many = "01 00 ".repeat(116);
    let records = [response(0, "05 00 00 00", &framed(&ID, b"", 6, &many))];
    let lines = [r#""@","1","5","0x0001","x00""#; 116];
    export(edges, TWO, &records, &lines, "refused,0");
}

fn many_boards(edges: &mut Edges) {
    edges.rule("Indices of 256 and more have their own ID");
    let ids: String = (0..1_000).map(|board| format!("{board:032X}")).collect();
    let packet = framed(&ID, PASSWORD, 6, "01 00");
    let records = [255, 256, 999].map(|index| response(index, "05 00 00 00", &packet));
    let capture = format!("VLG #1000 {ids} {}", records.join(" "));
    let field = hex::field(&TWO.bytes(&capture));
    let lines = [
        r#""x000000000000000000000000000000FF","1","5","0x0001","x00""#,
        r#""x00000000000000000000000000000100","1","5","0x0001","x00""#,
        r#""x000000000000000000000000000003E7","1","5","0x0001","x00""#,
    ];
    edges.line(format!("export 228 {field}"), exported(&lines, "refused,0"));
}
