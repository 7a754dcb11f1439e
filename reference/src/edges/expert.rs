//! The rows of VENTO Expert: the edges of each set, raises and lowers, measurements, and values that refusal 70 meets.

use super::rows::{byte_edges, filter_reports, switches, walks};
use super::{Edges, ID, PASSWORD, entries, framed, records};
use crate::hex;
use crate::packet::CODE_WORD;

pub fn add(edges: &mut Edges) {
    for unit_type in 3..=5 {
        edges.set_up_type(1, unit_type);
        speeds_and_modes(edges);
        network_rows(edges);
    }
    edges.set_up_type(1, 3);
    byte_edges(
        edges,
        [ordered_rows(), vec![(0x0099, vec![48, 50, 51, 52])]].concat(),
    );
    switches(edges, &[0x01, 0x0F, 0x14, 0x16, 0x72, 0x9B]);
    edges.set_up_type(2, 3);
    walks(edges, ordered_rows());
    filter_timer(edges);
    setpoints(edges);
    rows_alike(edges);
    missing_functions(edges);
    for unit_type in 3..=5 {
        edges.set_up_type(1, unit_type);
        measurements(edges, unit_type);
    }
    countdowns(edges);
    illegal_rows(edges);
    response_length(edges);
}

/// Rows of one byte with 04 and 05, and all legal values.
fn ordered_rows() -> Vec<(u16, Vec<u8>)> {
    let mut rows = vec![
        (0x0002, vec![1, 2, 3, 255]),
        (0x0007, vec![0, 1, 2]),
        (0x0019, (40..=80).collect()),
        (0x0044, (0..=255).collect()),
        (0x0066, (0..=60).collect()),
        (0x0094, vec![1, 2]),
        (0x009A, (1..=13).collect()),
        (0x00B7, vec![0, 1, 2]),
        (0x00B8, (5..=100).collect()),
    ];
    let fans = [0x3A, 0x3B, 0x3C, 0x3D, 0x3E, 0x3F];
    rows.extend(fans.map(|number| (number, (10..=255).collect())));
    rows
}

fn speeds_and_modes(edges: &mut Edges) {
    edges.rule("A write on VENTO Expert: 02 is silent, 03 reports");
    edges.expect(3, "01 01 02 03 44 80 19 28", "01 01 02 03 44 80 19 28");
    edges.ask(2, "01 00 19 50 B7 02", "silence");
    edges.expect(1, "01 19 B7", "01 00 19 50 B7 02");
    let held = [
        ("0002", "03"),
        ("0044", "80"),
        ("0019", "50"),
        ("00B7", "02"),
    ];
    edges.record(1, &held);
    edges.rule("0002: a raise from 3 gives 255, a lower from 255 gives 3; 4, 5 and 254 are outside its set");
    edges.expect(4, "02 02", "02 FF 02 FF");
    edges.expect(5, "02 02 02 02", "02 03 02 02 02 01 02 01");
    edges.expect(
        3,
        "02 FF 02 04 02 05 02 FE 02 00",
        "02 FF 02 FF 02 FF 02 FF 02 FF",
    );
    edges.expect(3, "FE 02 02 01 00 FE 02 02 FF 00", "02 FF 02 FF");
    edges.rule("0007: 2 is stored and inverts nothing; it is raised and lowered");
    edges.expect(
        3,
        "07 02 07 02 FE 01 07 02 07 03",
        "07 02 07 02 07 02 07 02",
    );
    edges.expect(3, "07 01 07 02 07 00 07 02", "07 01 07 02 07 00 07 02");
    edges.expect(5, "07 07 07", "07 01 07 00 07 00");
    edges.expect(4, "07 07 07", "07 01 07 02 07 02");
    edges.rule("0007 starts no timer here: 000B stays");
    edges.expect(1, "0B 07", "FE 03 0B 00 00 00 07 02");
}

fn network_rows(edges: &mut Edges) {
    edges.rule("0094 and 009A are raised and lowered on VENTO Expert; the mode in force stays");
    edges.expect(4, "94 94 9A 9A", "94 02 94 02 9A 02 9A 03");
    edges.expect(5, "94 94 9A", "94 01 94 01 9A 02");
    edges.expect(3, "94 02 9A 0D FC 04 9A", "94 02 9A 0D 9A 0D");
    let search = framed(&CODE_WORD, b"", 1, "7C 94");
    let found = framed(&ID, b"", 6, &identity());
    edges.line(format!("packet 256 {search}"), format!("response {found}"));
}

/// The report of the ID.
fn identity() -> String {
    format!("FE 10 7C {}", hex::field(&ID))
}

fn filter_timer(edges: &mut Edges) {
    edges.rule("0063 on type 3: raised by 1 from 70 to 365 and past it, and lowered");
    edges.set_up_type(1, 3);
    edges.expect(1, "63", "FE 02 63 46 00");
    let up: Vec<u16> = (71..=365).chain([365]).collect();
    let down: Vec<u16> = (70..=364).rev().chain([70]).collect();
    for (function, steps) in [(4, up), (5, down)] {
        for part in steps.chunks(40) {
            let reads = "63".repeat(part.len());
            edges.expect(function, &reads, &filter_reports(part));
        }
    }
    edges.rule("0063 on type 3: every number of 70 to 365; 0, 69 and 366 are outside");
    for days in [70, 71, 72, 74, 255, 256, 257, 364, 365] {
        let report = filter_reports(&[days]);
        edges.expect(3, &report, &report);
    }
    for days in [0, 1, 69, 366, 367, 370, 17_920, 0x4646, 0xFFFF] {
        edges.expect(3, &filter_reports(&[days]), &filter_reports(&[365]));
    }
    edges.expect(3, "63 46 FE 03 63 46 00 00", &filter_reports(&[365, 365]));
    edges.rule("0063 on Micra: 0 and steps of 5, as before");
    edges.set_up_type(1, 2);
    edges.expect(4, "63 63", &filter_reports(&[70, 75]));
    edges.expect(3, &filter_reports(&[71]), &filter_reports(&[75]));
    edges.expect(3, &filter_reports(&[0]), &filter_reports(&[0]));
}

/// Minutes and hours, and whether they are a setpoint.
const SETPOINTS: [(&str, bool); 9] = [
    ("3B 17", true),
    ("3C 00", false),
    ("00 18", false),
    ("00 00", true),
    ("17 3B", false),
    ("FF FF", false),
    ("3B 00", true),
    ("00 17", true),
    ("3C 18", false),
];

fn setpoints(edges: &mut Edges) {
    for unit_type in 3..=5 {
        edges.set_up_type(1, unit_type);
        for low in ["02", "03"] {
            edges.rule(&format!(
                "03{low}: minutes 0 to 59 and hours 0 to 23, without 04 and 05"
            ));
            let report = |value: &str| format!("FF 03 FE 02 {low} {value}");
            let mut held = "00 00";
            for (value, legal) in SETPOINTS {
                held = if legal { value } else { held };
                edges.expect(3, &report(value), &report(held));
            }
            let wrong = format!("FF 03 {low} 01 FE 01 {low} 01 FE 03 {low} 01 01 01");
            let three = format!("FE 02 {low} {held}").repeat(3);
            edges.expect(3, &wrong, &format!("FF 03 {three}"));
            for function in [1, 4, 5] {
                edges.expect(function, &format!("FF 03 {low}"), &report(held));
            }
            edges.ask(2, &report("01 02"), "silence");
        }
        edges.record(1, &[("0302", "0102"), ("0303", "0102")]);
    }
}

/// Clock, calendar, texts and free bytes on every type: what is written, and whether it is stored.
const ALIKE: [(&str, bool); 16] = [
    ("FE 03 6F 3B 3B 17", true),
    ("FE 03 6F 3C 00 00", false),
    ("FE 03 6F 00 00 18", false),
    ("FE 04 70 1D 02 02 00", true),
    ("FE 04 70 1D 04 02 01", false),
    ("FE 04 70 01 01 01 00", false),
    ("95 7E", true),
    ("95 7F", false),
    ("FE 09 96 20 20 20 20 7E 7E 7E 7E 41", true),
    ("FE 07 96 30 30 30 30 30 30 30", false),
    ("FE 08 96 30 30 30 30 30 30 30 1F", false),
    ("99 34", true),
    ("99 31", false),
    ("FE 04 9C FF FE FD FC", true),
    ("FE 04 9E C0 A8 04 01", true),
    ("FE 03 9D 01 02 03", false),
];

fn rows_alike(edges: &mut Edges) {
    for unit_type in 2..=5 {
        edges
            .rule("Clock, calendar, texts, encryption and addresses are the same on both products");
        edges.set_up_type(1, unit_type);
        for (write, stored) in ALIKE {
            if stored {
                edges.expect(3, write, write);
            } else {
                edges.ask(2, write, "silence");
            }
        }
        let held = [
            ("006F", "3B3B17"),
            ("0070", "1D020200"),
            ("0095", "7E"),
            ("0096", "202020207E7E7E7E41"),
            ("0099", "34"),
            ("009C", "FFFEFDFC"),
            ("009E", "C0A80401"),
        ];
        edges.record(1, &held);
    }
}

fn missing_functions(edges: &mut Edges) {
    edges.rule("0094 and 009A on Micra: 04 and 05 report the value held");
    edges.set_up_type(1, 2);
    edges.expect(3, "94 02 9A 05 FC 04 94 9A", "94 02 9A 05 94 02 9A 05");
    edges.expect(5, "94 9A", "94 02 9A 05");
    edges.expect(4, "94 07 9A", "94 02 07 00 9A 05");
    edges.rule("04 and 05 on rows of three functions and on read-only rows of VENTO Expert report the value held");
    edges.set_up_type(1, 3);
    for function in [4, 5] {
        edges.expect(
            function,
            "01 0F 14 16 72 9B 95 99 06 25 2D 32 83 88",
            "01 00 0F 00 14 00 16 00 72 00 9B 00 95 41 99 30 06 00 25 00 2D 00 32 00 83 00 88 00",
        );
        edges.expect(
            function,
            "24 4A 4B B9 0B 64 7E 86",
            "FE 02 24 00 00 FE 02 4A 00 00 FE 02 4B 00 00 FE 02 B9 03 00 FE 03 0B 00 00 00 \
             FE 03 64 00 00 00 FE 04 7E 00 00 00 00 FE 06 86 00 00 00 00 00 00",
        );
        edges.expect(function, "FF 03 04 05", "FF 03 04 00 05 00");
    }
    edges.rule("Read-only rows of VENTO Expert are not written");
    edges.expect(
        3,
        "06 01 25 01 FE 03 64 01 01 01 FE 02 24 01 00 FE 02 B9 04 00",
        "06 00 25 00 FE 03 64 00 00 00 FE 02 24 00 00 FE 02 B9 03 00",
    );
    edges.ask(
        2,
        "06 01 25 01 FE 03 64 01 01 01 FE 04 7E 01 01 01 01",
        "silence",
    );
    edges.record(1, &[]);
}

/// The rows that take measurements, by size, without those that have a star.
const MEASURED: [(usize, &str); 5] = [
    (1, "0006 0025 0032 0083 0088 0304"),
    (2, "0024 004A 004B"),
    (3, "000B 0064"),
    (4, "007E 00A3"),
    (6, "0086"),
];

fn measurements(edges: &mut Edges, unit_type: u8) {
    records::measurements(edges, &MEASURED);
    if unit_type != 5 {
        records::measurements(edges, &[(1, "002D 0305")]);
    }
    edges.rule("30: not a read-only row, or 007C or 00B9, before 31");
    edges.line(format!("measure 007C {}", hex::field(&ID)), "refused 30");
    edges.line(format!("measure 00B9 0{unit_type}00"), "refused 30");
    for number in "0001 0002 0007 0019 0044 0066 0094 00B7 0302 0303".split(' ') {
        for value in ["-", "01", "0100"] {
            edges.line(format!("measure {number} {value}"), "refused 30");
        }
    }
    edges.record(1, &[]);
}

fn countdowns(edges: &mut Edges) {
    edges.rule("0064 has 3 bytes on VENTO Expert and 4 on Micra; it and 000B hold any bytes and are measured");
    for (unit_type, right, wrong) in [
        (2, "FFFFFFFF", "010203"),
        (3, "FFFFFF", "01020304"),
        (4, "3C18B6", "00000000"),
        (5, "FFFFFF", "01020304"),
    ] {
        edges.set_up_type(1, unit_type);
        edges.line(format!("measure 0064 {wrong}"), "refused 31");
        edges.line(format!("measure 0064 {right}"), "accepted");
        edges.line("measure 000B FF3C18", "accepted");
        edges.line("measure 000B FF3C1800", "refused 31");
        edges.record(1, &[("0064", right), ("000B", "FF3C18")]);
        let reports = format!("FE {:02X} 64 {right} FE 03 0B FF 3C 18", right.len() / 2);
        edges.expect(1, "64 0B", &reports);
        edges.rule("Setting 0007 leaves 000B as it was measured");
        edges.expect(3, "07 01 07 00 FC 01 0B", "07 01 07 00 FE 03 0B FF 3C 18");
    }
    edges.rule("Poke: 0064 has the room of its type");
    for (unit_type, shown) in [(2, "01020304"), (3, "010203"), (4, "010203"), (5, "010203")] {
        edges.set_up_type(1, unit_type);
        edges.line("poke 0064 0102030405", "poked");
        edges.record(1, &[("0064", shown)]);
    }
}

/// Values just outside the set of each writable row; type 3 has them all.
const ILLEGAL_ROWS: &str = "0001 02 | 0002 00 | 0002 04 | 0002 05 | 0002 FE | 0007 03 | 000F 02 |
    0014 02 | 0016 02 | 0019 27 | 0019 51 | 003A 09 | 003B 09 | 003C 09 | 003D 09 | 003E 09 |
    003F 09 | 003A 00 | 0063 4500 | 0063 0000 | 0063 6E01 | 0063 FFFF | 0066 3D | 006F 3C0000 |
    006F 003C00 | 006F 000018 | 0070 01010100 | 0070 1E030200 | 0072 02 | 0094 00 | 0094 03 |
    0095 - | 0095 7F | 0096 30303030303030 | 0099 31 | 0099 35 | 009A 00 | 009A 0E | 009B 02 |
    00B7 03 | 00B8 04 | 00B8 65 | 0302 3C00 | 0302 0018 | 0303 3C00 | 0303 0018";

/// Values that the record may hold: sets that are wider here than on Micra, and any bytes of read-only rows.
const LEGAL_ROWS: &str = "0002 FF | 0007 02 | 003A 65 | 003F FF | 0044 FF | 0063 4800 | 0063 6D01 |
    0064 FFFFFF | 000B FFFFFF | 0006 FF | 007E FFFFFFFF | 0024 FFFF | 0305 FF | 0302 3B17";

fn illegal_rows(edges: &mut Edges) {
    edges.rule("70: a writable row of VENTO Expert outside its set");
    for entry in entries(ILLEGAL_ROWS) {
        edges.set_up_type(1, 3);
        records::illegal_row(edges, entry);
    }
    for unit_type in [4, 5] {
        for entry in ["0002 04", "0007 03", "0019 27", "0302 3C00"] {
            edges.set_up_type(1, unit_type);
            records::illegal_row(edges, entry);
        }
    }
    edges.rule(
        "What the sets of VENTO Expert have is legal, and so are any bytes of read-only rows",
    );
    for entry in entries(LEGAL_ROWS) {
        let (number, value) = entry.split_once(' ').expect("number and value");
        edges.set_up_type(1, 3);
        edges.line(format!("poke {entry}"), "poked");
        edges.record(1, &[(number, value)]);
        edges.expect(1, "01", "01 00");
    }
    edges.rule("On Micra they are not: 0002 at 255, 0007 at 2, a fan speed of 101, 72 days");
    for entry in ["0002 FF", "0007 02", "003A 65", "0063 4800"] {
        edges.set_up(&ID, PASSWORD, 1);
        records::illegal_row(edges, entry);
    }
}

fn response_length(edges: &mut Edges) {
    edges.rule("12 on VENTO Expert: twelve IDs fit beside a password of four, and nothing of a packet with thirteen is kept");
    edges.set_up_type(1, 4);
    edges.ask(2, &format!("02 FF FC 01 {}", "7C".repeat(13)), "refused 12");
    edges.record(1, &[]);
    edges.expect(
        2,
        &format!("02 FF FC 01 {}", "7C".repeat(12)),
        &identity().repeat(12),
    );
    edges.record(1, &[("0002", "FF")]);
    edges.rule("114 reports of 0077 as unknown fit, 115 do not");
    edges.expect(1, &"77".repeat(114), &"FD 77".repeat(114));
    edges.ask(1, &"77".repeat(115), "refused 12");
}
