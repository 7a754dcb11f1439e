//! Unit types: set-up, the search, 0077, the rows that a type lacks, and refusal 70 because of the type.

use super::senders::send;
use super::{Edges, ID, ONE_STAR, PASSWORD, TWO_STARS, ZERO_ID, framed, record, records};
use crate::hex;
use crate::packet::CODE_WORD;

pub fn add(edges: &mut Edges) {
    refused_types(edges);
    starts(edges);
    searches(edges);
    schedule(edges);
    for unit_type in 3..=5 {
        starred_rows(edges, unit_type);
    }
    other_product(edges);
    no_types(edges);
    other_types(edges);
    type_rows(edges);
}

/// Types that set-up does not take.
const NO_TYPES: [u8; 8] = [0, 1, 6, 7, 128, 130, 254, 255];

/// Set-ups of which the type is not the only fault; ID and CODE stand for the board's ID and the code word.
const SEVERAL_FAULTS: [(&str, u8); 6] = [
    ("ID 31313131 3 6", 22),
    ("ID - 0 0", 22),
    ("ID 2A 1 255", 21),
    ("ID 313131313131313131 3 1", 21),
    ("CODE - 1 6", 20),
    ("00 2A 3 0", 20),
];

fn refused_types(edges: &mut Edges) {
    let id = hex::field(&ID);
    edges.rule("Set-up: 23 for a unit type that is none of 2 to 5; a refused one gives type 2");
    for unit_type in NO_TYPES {
        for mode in [1, 2] {
            edges.set_up_type(2, 3);
            edges.line(
                format!("setup {id} 31313131 {mode} {unit_type}"),
                "refused 23",
            );
            edges.line("record", record(&ZERO_ID, b"", 1, &[]));
        }
    }
    edges.rule("20, 21 and 22 come before 23");
    for (fields, number) in SEVERAL_FAULTS {
        let fields = fields.replace("ID", &id);
        let fields = fields.replace("CODE", &hex::field(&CODE_WORD));
        edges.set_up_type(2, 5);
        edges.line(format!("setup {fields}"), format!("refused {number}"));
        edges.line("record", record(&ZERO_ID, b"", 1, &[]));
    }
    edges.rule("A mode that is wrong is refused with 22 on every type");
    for unit_type in 2..=5 {
        edges.line(format!("setup {id} - 3 {unit_type}"), "refused 22");
    }
}

fn starts(edges: &mut Edges) {
    edges.rule("Each type starts with its own rows; 00B9 is the type");
    for unit_type in 2..=5 {
        for mode in [1, 2] {
            edges.set_up_type(mode, unit_type);
            edges.record(mode, &[]);
            edges.expect(1, "B9 01", &format!("FE 02 B9 0{unit_type} 00 01 00"));
        }
    }
    edges.rule("A set-up without a type is Micra's, whatever the board was; a set-up forgets what was stored");
    edges.set_up_type(1, 3);
    edges.ask(2, "01 01 02 FF 95 42", "silence");
    edges.record(1, &[("0001", "01"), ("0002", "FF"), ("0095", "42")]);
    edges.set_up(&ID, PASSWORD, 1);
    edges.record(1, &[]);
    edges.set_up_type(1, 3);
    edges.record(1, &[]);
}

fn searches(edges: &mut Edges) {
    let id = hex::field(&ID);
    for unit_type in 2..=5 {
        edges.set_up_type(1, unit_type);
        edges.rule(
            "Search: 00B9 is the board's type; other rows, known or not, and 0077 are passed over",
        );
        for password in [&b""[..], PASSWORD, b"1112", &[0xFF, 0x00, 0xFD]] {
            let both = format!("FE 02 B9 0{unit_type} 00 FE 10 7C {id}");
            let answer = format!("response {}", framed(&ID, password, 6, &both));
            let data = "B9 16 63 44 9F FE 02 77 01 01 77 7C FF 03 05";
            send(edges, &CODE_WORD, password, 1, data, &answer);
            send(edges, &CODE_WORD, password, 1, "01 16 63 77", "silence");
        }
        send(edges, &CODE_WORD, b"", 3, "7C 00", "refused 11");
        edges.record(1, &[]);
        edges.rule("Access point: the code word stands for the own ID on every type");
        edges.set_up_type(2, unit_type);
        send(edges, &CODE_WORD, b"", 1, "7C B9", "refused 8");
        let known = format!(
            "response {}",
            framed(&ID, PASSWORD, 6, &format!("FE 02 B9 0{unit_type} 00"))
        );
        send(edges, &CODE_WORD, PASSWORD, 1, "B9", &known);
    }
}

/// Commands on 0077 that Micra answers otherwise: function and data block.
const ON_SCHEDULE: [(u8, &str); 8] = [
    (1, "77"),
    (1, "FE 02 77 01 01"),
    (3, "77 01"),
    (3, "FE 02 77 01 01"),
    (3, "FE 06 77 01 01 01 0F 00 00"),
    (3, "FE 06 77 08 04 03 00 3B 17"),
    (4, "FE 02 77 01 01"),
    (5, "77"),
];

fn schedule(edges: &mut Edges) {
    for unit_type in 3..=5 {
        edges.set_up_type(1, unit_type);
        edges.rule("0077 on VENTO Expert is unknown: FD under 01, 03, 04 and 05, silent under 02");
        for (function, data) in ON_SCHEDULE {
            edges.expect(function, data, "FD 77");
        }
        for data in ["77 01", "FE 02 77 01 01", "FE 06 77 00 01 01 0F 00 00"] {
            edges.ask(2, data, "silence");
        }
        edges.expect(
            3,
            "FE 06 77 01 01 01 0F 00 00 72 01 FC 01 FE 02 77 01 01 72",
            "FD 77 72 01 FD 77 72 01",
        );
        edges.line("measure 0077 01", "refused 30");
        edges.rule("Its entries are not there: a poke changes nothing, and none is judged");
        for poke in [
            "0077:1.1 06000000",
            "0077:7.4 FFFFFFFF",
            "0077:3.2 -",
            "0077 05",
        ] {
            edges.line(format!("poke {poke}"), "poked");
        }
        edges.record(1, &[("0072", "01")]);
        edges.expect(1, "72 77", "72 01 FD 77");
    }
}

/// A row with a star: its number, page and low byte, a write of another value, and what is reported at the start, after a raise and after
/// the write.
type Starred = [&'static str; 7];

const STARRED: [Starred; 11] = [
    ["0016", "", "16", "16 01", "16 00", "16 00", "16 01"],
    ["002D", "", "2D", "2D 01", "2D 00", "2D 00", "2D 00"],
    ["00B8", "", "B8", "B8 64", "B8 05", "B8 06", "B8 64"],
    ["0305", "FF 03", "05", "05 01", "05 00", "05 00", "05 00"],
    ["003A", "", "3A", "3A FF", "3A 0A", "3A 0B", "3A FF"],
    ["003B", "", "3B", "3B FF", "3B 0A", "3B 0B", "3B FF"],
    ["003C", "", "3C", "3C FF", "3C 0A", "3C 0B", "3C FF"],
    ["003D", "", "3D", "3D FF", "3D 0A", "3D 0B", "3D FF"],
    ["003E", "", "3E", "3E FF", "3E 0A", "3E 0B", "3E FF"],
    ["003F", "", "3F", "3F FF", "3F 0A", "3F 0B", "3F FF"],
    [
        "0063",
        "",
        "63",
        "FE 02 63 6D 01",
        "FE 02 63 46 00",
        "FE 02 63 47 00",
        "FE 02 63 6D 01",
    ],
];

fn starred_rows(edges: &mut Edges, unit_type: u8) {
    edges.rule("Rows with one star are unknown on type 5, those with two on types 4 and 5");
    for row in STARRED {
        let lacking = match unit_type {
            3 => false,
            4 => TWO_STARS.contains(row[0]),
            _ => TWO_STARS.contains(row[0]) || ONE_STAR.contains(row[0]),
        };
        edges.set_up_type(1, unit_type);
        starred_row(edges, row, lacking);
    }
    edges.rule("The read-only ones with a star are measured where they are");
    edges.set_up_type(1, unit_type);
    let (answer, shown): (&str, &[(&str, &str)]) = match unit_type {
        5 => ("refused 30", &[]),
        _ => ("accepted", &[("002D", "FF"), ("0305", "FF")]),
    };
    for number in ["002D", "0305"] {
        edges.line(format!("measure {number} FF"), answer);
    }
    edges.record(1, shown);
}

/// All functions on a row with a star, on a type that has or lacks it.
fn starred_row(edges: &mut Edges, row: Starred, lacking: bool) {
    let [number, page, low, write, start, raised, written] = row;
    let unknown = format!("FD {low}");
    let reported = |report| match lacking {
        true => format!("{page} {unknown}"),
        false => format!("{page} {report}"),
    };
    let data = format!("{page} {low}");
    for (function, report) in [(1, start), (4, raised), (5, start)] {
        edges.expect(function, &data, &reported(report));
    }
    let write = format!("{page} {write}");
    edges.ask(2, &write, "silence");
    edges.expect(1, &data, &reported(written));
    edges.expect(3, &write, &reported(written));
    if lacking {
        edges.line(format!("measure {number} 01"), "refused 30");
        edges.line(format!("poke {number} FF"), "poked");
        edges.record(1, &[]);
    }
}

/// Rows that Micra alone has, and rows that VENTO Expert alone has; rows of the guides that neither has.
const MICRA_ONLY: &str = "0003 0008 0009 000A 000D 0015 0018 001D 001E 001F 0020 0021 0022 0033 \
    0036 0037 0040 0041 0042 0043 0045 0046 0047 0060 0067 0068 006A 0073 0074 0093 009F 00A1 00B6 \
    00F0 0111 0112 0400 0401 0402";
const EXPERT_ONLY: &str = "000F 0016 0019 0024 0025 002D 0044 004A 004B 007E 0083 00B7 00B8 0302 \
    0303 0304 0305";
const NEITHER: &str = "0065 007D 0080 0085 0087 00A0 00A2";

fn other_product(edges: &mut Edges) {
    edges.rule("Rows that only the other product has, and those that neither has, are unknown");
    for (unit_type, numbers) in [
        (2, EXPERT_ONLY),
        (3, MICRA_ONLY),
        (4, MICRA_ONLY),
        (5, MICRA_ONLY),
    ] {
        edges.set_up_type(1, unit_type);
        for number in numbers.split(' ').chain(NEITHER.split(' ')) {
            let (page, low) = (format!("FF {}", &number[..2]), &number[2..]);
            // On page 0 the response needs no FF.
            let shown = if page == "FF 00" { "" } else { page.as_str() };
            let unknown = format!("{shown} FD {low}");
            for function in [1, 4, 5] {
                edges.expect(function, &format!("{page} {low}"), &unknown);
            }
            edges.expect(3, &format!("{page} {low} 01"), &unknown);
            edges.expect(3, &format!("{page} FE 02 {low} 01 00"), &unknown);
            edges.ask(2, &format!("{page} {low} 01"), "silence");
            for value in ["01", "0100", "-"] {
                edges.line(format!("measure {number} {value}"), "refused 30");
            }
            edges.line(format!("poke {number} FF"), "poked");
        }
        edges.record(1, &[]);
        edges.ask(1, "", "silence");
    }
}

/// What `record` writes for a board with the usual ID and password whose type is none: no rows.
fn without_rows(mode: u8, unit_type: u8) -> String {
    let (id, password) = (hex::field(&ID), hex::field(PASSWORD));
    format!("record id={id} password={password} mode={mode} type={unit_type}")
}

fn no_types(edges: &mut Edges) {
    edges.rule("70: a type that is none of 2 to 5; the record then shows no rows and no entries, and has none to poke");
    for unit_type in 2..=5 {
        for poked in NO_TYPES {
            edges.set_up_type(1, unit_type);
            edges.ask(2, "01 01", "silence");
            edges.line(format!("poke type {poked}"), "poked");
            records::meet(edges);
            edges.line("record", without_rows(1, poked));
            for poke in ["0001 00", "0002 00", "00B9 00", "0077:1.1 FF", "0064 01"] {
                edges.line(format!("poke {poke}"), "poked");
            }
            edges.line("poke mode 2", "poked");
            edges.line("record", without_rows(2, poked));
            edges.line("poke mode 1", "poked");
            edges.line(format!("poke type {unit_type}"), "poked");
            edges.record(1, &[("0001", "01")]);
            edges.expect(1, "01 02", "01 01 02 01");
        }
    }
    edges.rule("70: also where 00B9 has followed the type");
    edges.set_up_type(1, 3);
    edges.line("poke 00B9 06", "poked");
    records::meet(edges);
    edges.line("poke type 6", "poked");
    records::meet(edges);
    edges.line("record", without_rows(1, 6));
    edges.line("poke type 3", "poked");
    edges.record(1, &[("00B9", "0600")]);
    records::meet(edges);
}

/// While the type is another one of 2 to 5 than the one given, what the rows hold is not stated; so none is shown or poked.
fn other_types(edges: &mut Edges) {
    edges.rule("70: another type than the one given, since 00B9 differs from it; poked back the board is as it was");
    for unit_type in 2..=5 {
        edges.set_up_type(1, unit_type);
        edges.ask(2, "01 01 95 42", "silence");
        for poked in (2..=5).filter(|poked| *poked != unit_type) {
            edges.line(format!("poke type {poked}"), "poked");
            records::meet(edges);
        }
        edges.line(format!("poke type {unit_type}"), "poked");
        edges.record(1, &[("0001", "01"), ("0095", "42")]);
        edges.expect(1, "01 95", "01 01 95 42");
        edges.rule("The type poked to what it is stays legal; a set-up ends a poked type");
        edges.line(format!("poke type {unit_type}"), "poked");
        edges.expect(1, "01", "01 01");
        edges.line("poke type 0", "poked");
        edges.set_up_type(1, unit_type);
        edges.record(1, &[]);
    }
}

fn type_rows(edges: &mut Edges) {
    edges.rule("70: 00B9 that is not the type and 00");
    for unit_type in 2..=5 {
        let high = format!("0{unit_type}01");
        let swapped = format!("000{unit_type}");
        let others = ["0200", "0300", "0400", "0500", "0600", "0000", "FFFF"];
        let own = format!("0{unit_type}00");
        for value in others.into_iter().chain([&high[..], &swapped]) {
            if value != own {
                edges.set_up_type(1, unit_type);
                records::illegal_row(edges, &format!("00B9 {value}"));
            }
        }
        edges.rule("00B9 poked to what it is stays legal");
        edges.line(format!("poke 00B9 0{unit_type}"), "poked");
        edges.record(1, &[]);
        edges.expect(1, "B9", &format!("FE 02 B9 0{unit_type} 00"));
    }
}
