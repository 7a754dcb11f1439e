//! Records: their fields, lengths, counters and packets.

use super::{A, FORMS, Form, Given, ONE_BOARD, TWO, record, take, written};
use crate::edges::examples::E1;
use crate::edges::{Edges, bytes};
use crate::hex;

pub fn add(edges: &mut Edges) {
    for form in FORMS {
        faults(edges, form, &FAULTS);
        behind_a_fault(edges, form);
        lengths(edges, form);
        counters(edges, form);
        damaged_packets(edges, form);
    }
    faults(edges, TWO, &WIDE_INDICES);
    writer_lengths(edges);
}

/// Reads, sums up and rewrites a capture of board A and one record, with bytes behind it.
fn take_record(edges: &mut Edges, form: Form, record: &str, shown: &str, number: u8) {
    let given = Given {
        capture: &format!("{ONE_BOARD} {record}"),
        shown: &format!(" id:{A} rec:{shown}"),
        lines: &format!("0,{number},1"),
    };
    take(edges, form, &given, "");
}

/// A head of board A, and what is given of it.
const HEAD: Given = Given {
    capture: ONE_BOARD,
    shown: " id:30303244364531423334353635383135",
    lines: "",
};

/// Records that a capture of one board cannot have, and records without all their bytes.
const FAULTS: [&str; 13] = [
    "#1 00 00 00 00 00 00 00",
    "#2 00 00 00 00 00 00 00",
    "#255 00 00 00 00 00 00 00",
    "#0 02 00 00 00 00 00 00",
    "#0 03 00 00 00 00 00 00",
    "#0 80 00 00 00 00 00 00",
    "#0 FF 00 00 00 00 00 00",
    "#1 02 00 00 00 00 01 01",
    "#1 00 00 00 00 00 02 00 AA",
    "#0 00 00 00 00 00 02 00 AA",
    "#0 00 00 00 00 00 00 01 AA",
    "#0 02 00 00 00 00 00 00 #0 00 01 00 00 00 00 00",
    "00",
];

/// Indices whose low byte a capture of one board has.
const WIDE_INDICES: [&str; 5] = [
    "#256 00 00 00 00 00 00 00",
    "#512 01 00 00 00 00 00 00",
    "#32768 00 00 00 00 00 00 00",
    "#65280 00 00 00 00 00 00 00",
    "#65535 00 00 00 00 00 00 00",
];

fn faults(edges: &mut Edges, form: Form, faults: &[&str]) {
    edges.rule("53: index at or above the board count, direction above 1, bytes missing; the records before are given");
    let two_records = Given {
        capture: &format!("{ONE_BOARD} #0 00 01 00 00 00 00 00 #0 01 02 00 00 00 01 00 AA"),
        shown: &format!(" id:{A} rec:0.0.1.- rec:0.1.2.AA"),
        lines: "0,2,2",
    };
    for given in [HEAD, two_records] {
        take(edges, form, &given, "");
        for fault in faults {
            take(edges, form, &given, fault);
        }
    }
}

fn behind_a_fault(edges: &mut Edges, form: Form) {
    edges.rule("53 ends the reading: a capture behind another is a record with a wrong index");
    take(edges, form, &HEAD, ONE_BOARD);
    edges.rule("Zero bytes make records, the last one may be cut short");
    let size = form.width + 7;
    for zeros in [1, size - 1, size, size + 1, 2 * size] {
        let count = zeros / size;
        let given = match count {
            0 => HEAD,
            _ => Given {
                capture: &format!("{ONE_BOARD}{}", format!(" {}", record(0, "")).repeat(count)),
                shown: &format!(" id:{A}{}", " rec:0.0.0.-".repeat(count)),
                lines: &format!("0,2,{count}"),
            },
        };
        take(edges, form, &given, &"00".repeat(zeros % size));
    }
}

/// The lengths that a packet may have, and those that it may not, low byte first.
const LENGTHS: [(usize, &str); 4] = [(0, "00 00"), (1, "01 00"), (255, "FF 00"), (256, "00 01")];
const WRONG_LENGTHS: [(usize, &str); 4] = [
    (257, "01 01"),
    (511, "FF 01"),
    (512, "00 02"),
    (65_535, "FF FF"),
];

fn lengths(edges: &mut Edges, form: Form) {
    edges.rule("Packets of 0 to 256 bytes; 257 and more are 53, also where the bytes are there");
    for (length, size) in LENGTHS {
        let packet = "AA".repeat(length);
        let record = format!("#0 01 00 00 00 00 {size} {packet}");
        let field = hex::field(&bytes(&packet));
        let number = if length < 24 { 2 } else { 3 };
        take_record(edges, form, &record, &format!("0.1.0.{field}"), number);
        if length > 0 {
            take(edges, form, &HEAD, &record[..record.len() - 2]);
        }
    }
    for (length, size) in WRONG_LENGTHS {
        for present in [0, 1, 256, length.min(600)] {
            let behind = format!("#0 00 00 00 00 00 {size} {}", "AA".repeat(present));
            take(edges, form, &HEAD, &behind);
        }
    }
}

fn writer_lengths(edges: &mut Edges) {
    edges.rule("Writer: packets of 0 to 256 bytes; 257 and more are 53");
    for (length, size) in LENGTHS {
        let packet = "AA".repeat(length);
        let field = hex::field(&bytes(&packet));
        let capture = format!("{ONE_BOARD} #0 01 00 00 00 00 {size} {packet}");
        edges.line(format!("capwrite 288 {A} 0.1.0.{field}"), written(&capture));
    }
    for length in [257, 258, 300, 512, 1_024, 30_000] {
        let packet = "AA".repeat(length);
        edges.line(format!("capwrite 40000 {A} 0.1.0.{packet}"), "refused 53");
    }
}

/// Counters, low byte first.
const COUNTERS: [(&str, &str); 9] = [
    ("0", "00 00 00 00"),
    ("1", "01 00 00 00"),
    ("255", "FF 00 00 00"),
    ("256", "00 01 00 00"),
    ("65535", "FF FF 00 00"),
    ("65536", "00 00 01 00"),
    ("16777216", "00 00 00 01"),
    ("2147483648", "00 00 00 80"),
    ("4294967295", "FF FF FF FF"),
];

fn counters(edges: &mut Edges, form: Form) {
    edges.rule("Counters of four bytes, in any order of time");
    for (counter, digits) in COUNTERS {
        let record = format!("#0 00 {digits} 00 00");
        let shown = format!("0.0.{counter}.-");
        take_record(edges, form, &record, &shown, 2);
        let capture = format!("{ONE_BOARD} {record}");
        edges.line(format!("capwrite 32 {A} {shown}"), written(&capture));
    }
}

fn damaged_packets(edges: &mut Edges, form: Form) {
    edges.rule("Damaged packets are kept as they are: a wrong sum, a cut packet, any bytes");
    let wrong_sum = E1.replace("DE 00", "DF 00");
    for (packet, number) in [
        (E1, 0),
        (&wrong_sum[..], 4),
        (&E1[..3 * 23 - 1], 2),
        (&E1[3..], 3),
        ("00", 2),
        ("56 4C 47", 2),
    ] {
        let shown = format!("0.0.0.{}", hex::field(&bytes(packet)));
        take_record(edges, form, &record(0, packet), &shown, number);
        let capture = format!("{ONE_BOARD} {}", record(0, packet));
        edges.line(format!("capwrite 288 {A} {shown}"), written(&capture));
    }
}
