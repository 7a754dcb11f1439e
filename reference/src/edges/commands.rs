//! What a command does: unknown numbers, functions that a row lacks, order, silence, refusal 12.

use super::{Edges, ID, PASSWORD};
use crate::hex;

pub fn add(edges: &mut Edges) {
    unknown(edges);
    pages(edges);
    missing_functions(edges);
    read_only(edges);
    order(edges);
    inversion(edges);
    lengths(edges);
    response_length(edges);
    response_edges(edges);
}

fn unknown(edges: &mut Edges) {
    edges.set_up(&ID, PASSWORD, 1);
    edges.rule("Unknown parameters: FD under 01, 03, 04 and 05, silent under 02");
    let numbers = [
        0x00, 0x04, 0x05, 0x0C, 0x0E, 0x13, 0x16, 0x17, 0x19, 0x1C, 0x23, 0x24, 0x25, 0x2D, 0x31,
        0x34, 0x35, 0x38, 0x39, 0x44, 0x48, 0x5F, 0x61, 0x62, 0x65, 0x69, 0x6B, 0x6E, 0x71, 0x75,
        0x76, 0x78, 0x7B, 0x7D, 0x7E, 0x7F, 0x80, 0x81, 0x82, 0x83, 0x84, 0x85, 0x87, 0x89, 0x92,
        0x97, 0x98, 0xA0, 0xA2, 0xA4, 0xB5, 0xB7, 0xB8, 0xBA, 0xEF, 0xF1, 0xFB,
    ];
    for number in numbers {
        let number = format!("{number:02X}");
        let report = format!("FD {number}");
        for function in [1, 4, 5] {
            edges.expect(function, &number, &report);
            edges.expect(function, &format!("FE 01 {number} 00"), &report);
        }
        edges.expect(3, &format!("{number} 00"), &report);
        edges.expect(3, &format!("FE 02 {number} 00 00"), &report);
        edges.ask(2, &format!("{number} 00"), "silence");
    }
    edges.record(1, &[]);
}

fn pages(edges: &mut Edges) {
    edges.rule("Rows of one page are unknown on every other; pages 1 and 4 have their own");
    for page in 1..=255 {
        let start = format!("FF {page:02X}");
        let reports = match page {
            1 => "FD 00 FD 01 FD 02 FE 02 11 00 00 FE 06 12 00 00 00 00 00 00 FD 7C FD B9",
            4 => "00 00 01 00 02 00 FD 11 FD 12 FD 7C FD B9",
            _ => "FD 00 FD 01 FD 02 FD 11 FD 12 FD 7C FD B9",
        };
        let reads = format!("{start} 00 01 02 11 12 7C B9");
        edges.expect(1, &reads, &format!("{start} {reports}"));
        let known = page == 4;
        let write = format!("{start} 02 01 FC 01 02");
        let held = if known { "02 01" } else { "FD 02" };
        edges.expect(2, &write, &format!("{start} {held}"));
    }
    edges.record(1, &[("0402", "01")]);
    edges.ask(2, "FF 04 02 00", "silence");
}

/// Reads of rows that lack 04 and 05, with their start values.
const NOT_ORDERED: [(&str, &str); 6] = [
    (
        "01 07 14 15 68 72 9B",
        "01 00 07 00 14 00 15 00 68 00 72 00 9B 00",
    ),
    ("FF 04 00 01 02", "FF 04 00 00 01 00 02 00"),
    ("94 99 9A 95", "94 01 99 30 9A 01 95 41"),
    (
        "96 6F 70",
        "FE 08 96 30 30 30 30 30 30 30 30 FE 03 6F 00 00 00 FE 04 70 01 06 01 00",
    ),
    ("9C 9D", "FE 04 9C 00 00 00 00 FE 04 9D 00 00 00 00"),
    ("9E 9F", "FE 04 9E 00 00 00 00 FE 04 9F 00 00 00 00"),
];

/// The read-only rows that start at zero: size, page and low bytes.
const READ_ONLY: [(usize, &str, &str); 7] = [
    (1, "", "06 32 33 73 74 88 93 A1 B6"),
    (2, "", "1E 1F 20 21 22 6A"),
    (2, "FF 01", "11"),
    (3, "", "0B"),
    (4, "", "64 A3"),
    (6, "", "86"),
    (6, "FF 01", "12"),
];

fn missing_functions(edges: &mut Edges) {
    edges.rule("04 and 05 on rows of three functions, on 007C and on 00B9 report the value held");
    let identity = format!("FE 10 7C {}", hex::field(&ID));
    for function in [4, 5] {
        for (data, reports) in NOT_ORDERED {
            edges.expect(function, data, reports);
        }
        edges.expect(function, "7C B9", &format!("{identity} FE 02 B9 02 00"));
    }
    edges.rule("007C and 00B9 are not written");
    let two_bytes = "FE 02 1E 01 01 FE 02 B9 03 00";
    edges.expect(3, two_bytes, "FE 02 1E 00 00 FE 02 B9 02 00");
    let other_id = format!("FE 10 7C {}", "41".repeat(16));
    edges.expect(3, &other_id, &identity);
    for data in [two_bytes, &other_id] {
        edges.ask(2, data, "silence");
    }
    edges.record(1, &[]);
}

fn read_only(edges: &mut Edges) {
    edges.rule("Read-only rows: all functions but 02 report the value held, 02 is silent");
    for (size, page, rows) in READ_ONLY {
        for low in rows.split(' ') {
            let with_size = |value: &str| match size {
                1 => format!("{page} {low} {value}"),
                _ => format!("{page} FE {size:02X} {low} {}", value.repeat(size)),
            };
            let held = with_size("00");
            for function in [1, 4, 5] {
                edges.expect(function, &format!("{page} {low}"), &held);
            }
            edges.expect(3, &with_size("01"), &held);
            edges.ask(2, &with_size("01"), "silence");
        }
    }
    edges.record(1, &[]);
}

fn order(edges: &mut Edges) {
    edges.rule("Commands run in order; each has its own report with the value just after it");
    edges.expect(3, "02 05 02 04 02 09 02 03", "02 05 02 04 02 04 02 03");
    edges.expect(
        1,
        "02 FC 04 02 02 02 FC 05 02 FC 01 02",
        "02 03 02 04 02 05 02 05 02 04 02 04",
    );
    edges.expect(2, "02 01 FC 01 02 FC 02 02 02 FC 01 02", "02 01 02 02");
    edges.rule("02 stores silently, also next to reports");
    edges.ask(2, "02 03 09 3B 95 42", "silence");
    edges.expect(1, "02 09 95", "02 03 09 3B 95 42");
    edges.record(1, &[("0002", "03"), ("0009", "3B"), ("0095", "42")]);
    edges.rule("A refused value does not stop the commands after it");
    edges.expect(
        3,
        "02 06 02 01 77 00 09 3C 09 00 95 41",
        "02 03 02 01 FD 77 09 3B 09 00 95 41",
    );
    edges.record(1, &[]);
}

fn inversion(edges: &mut Edges) {
    edges.rule("A written 2 inverts a switch, by P 02 and by FE 01 P 02");
    for switch in ["01", "07", "14", "15", "68", "72", "9B"] {
        let twice = format!("{switch} 02 FE 01 {switch} 02");
        edges.expect(3, &twice, &format!("{switch} 01 {switch} 00"));
        edges.ask(2, &format!("{switch} 02"), "silence");
        edges.expect(1, switch, &format!("{switch} 01"));
        edges.rule("A 2 of two bytes has a wrong length; 3 and FF are outside the set");
        let wrong = format!("FE 02 {switch} 02 00 {switch} 03 {switch} FF");
        edges.expect(3, &wrong, &format!("{switch} 01 {switch} 01 {switch} 01"));
        edges.expect(3, &format!("{switch} 02"), &format!("{switch} 00"));
        edges.expect(1, &format!("FE 01 {switch} 02"), &format!("{switch} 00"));
    }
    edges.rule("0401, 0402, 0060 and 00F0 do not invert");
    edges.expect(
        3,
        "60 02 F0 02 60 01 60 02 F0 01 F0 02",
        "60 00 F0 00 60 01 60 01 F0 01 F0 01",
    );
    edges.expect(
        3,
        "FF 04 01 02 02 02 01 01 01 02 02 01 02 02",
        "FF 04 01 00 02 00 01 01 01 01 02 01 02 01",
    );
    edges.record(
        1,
        &[
            ("0060", "01"),
            ("00F0", "01"),
            ("0401", "01"),
            ("0402", "01"),
        ],
    );
}

fn lengths(edges: &mut Edges) {
    edges.set_up(&ID, PASSWORD, 1);
    edges.rule("A value of the wrong length is not stored and reported as held");
    edges.expect(3, "FE 02 02 05 00 FE 03 02 05 00 00", "02 01 02 01");
    edges.expect(
        3,
        "63 46 FE 01 63 46 FE 03 63 46 00 00",
        "FE 02 63 00 00 FE 02 63 00 00 FE 02 63 00 00",
    );
    edges.expect(
        3,
        "FE 02 6F 01 01 FE 04 6F 01 01 01 00 6F 01",
        "FE 03 6F 00 00 00 FE 03 6F 00 00 00 FE 03 6F 00 00 00",
    );
    edges.expect(
        3,
        "FE 03 70 02 07 01 FE 05 70 02 07 01 00 00 70 02",
        "FE 04 70 01 06 01 00 FE 04 70 01 06 01 00 FE 04 70 01 06 01 00",
    );
    edges.expect(
        3,
        "9C 01 FE 03 9D 01 01 01 FE 05 9E 01 01 01 01 01",
        "FE 04 9C 00 00 00 00 FE 04 9D 00 00 00 00 FE 04 9E 00 00 00 00",
    );
    edges.record(1, &[]);
}

fn response_length(edges: &mut Edges) {
    edges.rule("12: nothing of the packet is kept, the writes before the reports too");
    let id = hex::field(&ID);
    let identity = format!("FE 10 7C {id}");
    let write = "01 01 02 05 FE 02 63 46 00 FC 01";
    edges.ask(2, &format!("{write} {}", "7C".repeat(13)), "refused 12");
    edges.ask(2, &format!("{write} {} 01", "7C".repeat(12)), "refused 12");
    edges.ask(
        2,
        &format!("{write} {} FC 04 08", "7C".repeat(12)),
        "refused 12",
    );
    edges.record(1, &[]);
    edges.rule("Exactly 256 bytes are sent, and the writes kept");
    edges.expect(
        2,
        &format!("{write} {}", "7C".repeat(12)),
        &identity.repeat(12),
    );
    edges.record(1, &[("0001", "01"), ("0002", "05"), ("0063", "4600")]);
}

fn response_edges(edges: &mut Edges) {
    edges.rule("256 and 257 bytes with reports of two and five bytes");
    edges.expect(1, &"01".repeat(114), &"01 01".repeat(114));
    edges.ask(1, &"01".repeat(115), "refused 12");
    let reads = format!("{} 63", "01".repeat(112));
    edges.ask(1, &reads, "refused 12");
    let reads = format!("{} 63", "01".repeat(111));
    edges.expect(
        1,
        &reads,
        &format!("{} FE 02 63 46 00", "01 01".repeat(111)),
    );
    edges.rule("FF and FD count in the response");
    let reads = format!("{} FF 04 00", "01".repeat(112));
    edges.expect(1, &reads, &format!("{} FF 04 00 00", "01 01".repeat(112)));
    let reads = format!("{} FF 04 00", "01".repeat(113));
    edges.ask(1, &reads, "refused 12");
    let reads = "77".repeat(114);
    edges.expect(1, &reads, &"FD 77".repeat(114));
    edges.ask(1, &"77".repeat(115), "refused 12");
    edges.rule("10 before 12");
    edges.ask(1, &format!("{} FD", "7C".repeat(20)), "refused 10");
}
