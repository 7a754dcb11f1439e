//! What an export leaves out, tells beside the table, or refuses.

use std::slice;

use super::exporting::{export, response};
use super::{GOOD, exported};
use crate::edges::captures::{FORMS, Form, ONE_BOARD};
use crate::edges::examples::E2;
use crate::edges::{Edges, ID, PASSWORD, bytes, framed};
use crate::hex;

pub fn add(edges: &mut Edges) {
    for form in FORMS {
        refused_responses(edges, form);
        counts(edges, form);
        faults(edges, form);
        cuts(edges, form);
        rooms(edges, form);
    }
    refused_heads(edges);
}

/// A response of board A at 5 that gives `GOOD`.
fn good() -> String {
    response(0, "05 00 00 00", &framed(&ID, PASSWORD, 6, "01 00"))
}

/// Packets that the listing refuses, with 2 to 6, 9 and 10.
fn refused_packets() -> Vec<String> {
    let framed = |function, data| framed(&ID, PASSWORD, function, data);
    vec![
        String::new(),
        "00".to_string(),
        E2[..3 * 23 - 1].to_string(),
        "00".repeat(24),
        E2.replace("FD FD", "FD FC"),
        E2.replace("E6 00", "E7 00"),
        E2.replace("E6 00", "00 E6"),
        E2.replace("FD FD 02", "FD FD 03").replace("E6 00", "E7 00"),
        E2.replace("02 10", "02 0F").replace("E6 00", "E5 00"),
        E2.replace("00 04", "00 09").replace("E6 00", "EB 00"),
        framed(1, "01"),
        framed(5, "01"),
        framed(7, "01 00"),
        framed(6, "01"),
        framed(6, "01 00 02"),
        framed(6, "01 00 FC 06"),
        framed(6, "01 00 FD FC"),
        framed(6, "FE 00 01"),
        framed(6, "FE 02 63 46"),
        framed(6, "FF"),
    ]
}

fn refused_responses(edges: &mut Edges, form: Form) {
    edges.rule("A response that the listing refuses is left out whole and counted");
    let packets = refused_packets();
    let refused = packets
        .iter()
        .map(|packet| response(1, "05 00 00 00", packet));
    let refused: Vec<String> = refused.collect();
    for record in &refused {
        export(edges, form, slice::from_ref(record), &[], "refused,1");
        let records = [good(), record.clone(), good()];
        export(edges, form, &records, &[GOOD, GOOD], "refused,1");
    }
    export(edges, form, &refused, &[], "refused,20");
}

fn counts(edges: &mut Edges, form: Form) {
    edges.rule("Refused responses are counted over 9, 99 and 255");
    let empty = response(0, "00 00 00 00", "");
    for count in [2, 9, 10, 99, 100, 255, 256, 300] {
        let records = vec![empty.clone(); count];
        export(edges, form, &records, &[], &format!("refused,{count}"));
    }
}

/// Bytes behind a capture of boards A and C that are refused with 53.
const FAULTS: [&str; 6] = [
    "00",
    "#2 01 00 00 00 00 00 00",
    "#0 02 00 00 00 00 00 00",
    "#0 01 00 00 00 00 01 01",
    "#0 01 00 00 00 00 02 00 AA",
    "#2 01 00 00 00 00 00 00 #0 01 00 00 00 00 00 00",
];

fn faults(edges: &mut Edges, form: Form) {
    edges.rule("53: what stands before is exported, and `capture,53` told behind the count");
    for fault in FAULTS {
        let fault = fault.to_string();
        let beside = "refused,0 capture,53";
        export(edges, form, slice::from_ref(&fault), &[], beside);
        export(edges, form, &[good(), fault.clone()], &[GOOD], beside);
        let refused = response(1, "00 00 00 00", "AA");
        let records = [good(), refused, fault];
        export(edges, form, &records, &[GOOD], "refused,1 capture,53");
    }
}

fn cuts(edges: &mut Edges, form: Form) {
    edges.rule("A capture cut after each of its bytes: a head, a response, an empty one");
    let capture = format!("{ONE_BOARD} {} #0 01 05 00 00 00 00 00", good());
    let whole = form.bytes(&capture);
    // The packet has 30 bytes.
    let ends = match form.version {
        1 => [22, 60, 68],
        _ => [23, 62, 71],
    };
    for length in 0..=whole.len() {
        let (lines, beside): (&[&str], &str) = match length {
            0..=2 => (&[], "refused,0 capture,50"),
            3..=4 => (&[], "refused,0 capture,51"),
            _ if length < ends[0] => (&[], "refused,0 capture,52"),
            _ if length == ends[0] => (&[], "refused,0"),
            _ if length < ends[1] => (&[], "refused,0 capture,53"),
            _ if length == ends[1] => (&[GOOD], "refused,0"),
            _ if length < ends[2] => (&[GOOD], "refused,0 capture,53"),
            _ => (&[GOOD], "refused,1"),
        };
        let field = hex::field(&whole[..length]);
        edges.line(format!("export 200 {field}"), exported(lines, beside));
    }
}

fn rooms(edges: &mut Edges, form: Form) {
    edges.rule("54 up to one byte less than the whole table, the last lines not counted; a longer buffer's rest stays");
    let responses = [good(), good()].join(" ");
    for (records, lines, size) in [("", &[][..], 48), (&responses, &[GOOD; 2], 168)] {
        for (fault, beside) in [("", "refused,0"), (" 00", "refused,0 capture,53")] {
            let capture = format!("{ONE_BOARD} {records}{fault}");
            let field = hex::field(&form.bytes(&capture));
            for room in [
                0, 1, 46, 47, 48, 49, 107, 108, 167, 168, 169, 65_536, 1_048_576,
            ] {
                let answer = match room < size {
                    true => "refused 54".to_string(),
                    false => exported(lines, beside),
                };
                edges.line(format!("export {room} {field}"), answer);
            }
        }
    }
}

/// Heads that are refused, with what stands behind them.
const HEADS: [(&str, u8); 12] = [
    ("", 50),
    ("56 4C", 50),
    ("56 4C 48 02 00 01 00", 50),
    ("76 4C 47 01 00 01", 50),
    ("56 4C 47", 51),
    ("56 4C 47 02", 51),
    ("56 4C 47 03 00 01 00", 51),
    ("56 4C 47 00 01 01 00", 51),
    ("56 4C 47 01 00 00", 52),
    ("56 4C 47 01 00 11 00", 52),
    ("56 4C 47 02 00 E9 03 00", 52),
    ("56 4C 47 02 00 01 00 00", 52),
];

fn refused_heads(edges: &mut Edges) {
    edges.rule("50, 51 and 52: the header alone, no response refused; 54 comes first");
    for (head, number) in HEADS {
        let field = hex::field(&bytes(head));
        let answer = exported(&[], &format!("refused,0 capture,{number}"));
        for room in [48, 49, 1_048_576] {
            edges.line(format!("export {room} {field}"), &answer[..]);
        }
        for room in [0, 47] {
            edges.line(format!("export {room} {field}"), "refused 54");
        }
    }
}
