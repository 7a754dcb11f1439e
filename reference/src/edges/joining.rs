//! Joined packets: two packets in turn, then from the same start the tool's packet of both command lists.

use super::{Edges, ID, PASSWORD, framed};
use crate::hex;

/// A request: FUNC, data block, and the data block of its response, empty for silence.
type Asked<'a> = (u8, &'a str, &'a str);

/// The two requests and the joined one, whose commands are also as `write` takes them; the rows and entries that both leave changed.
struct Pair<'a> {
    first: Asked<'a>,
    second: Asked<'a>,
    commands: &'a str,
    joined: Asked<'a>,
    left: &'a [(&'a str, &'a str)],
}

pub fn add(edges: &mut Edges) {
    for mode in [1, 2] {
        edges.rule("Joined packets: the second sees what the first stored");
        let pair = Pair {
            first: (3, "02 03", "02 03"),
            second: (1, "02 01", "02 03 01 00"),
            commands: "3:0002:03 1:0002:- 1:0001:-",
            joined: (3, "02 03 FC 01 02 01", "02 03 02 03 01 00"),
            left: &[("0002", "03")],
        };
        add_pair(edges, mode, &pair);
    }
    for (rule, pair) in PAIRS {
        edges.rule(rule);
        add_pair(edges, 1, pair);
    }
    lengths(edges);
}

const PAIRS: &[(&str, &Pair)] = &[
    (
        "Joined packets: an unknown parameter ends nothing",
        &Pair {
            first: (3, "04 07 01 01", "FD 04 01 01"),
            second: (3, "14 01", "14 01"),
            commands: "3:0004:07 3:0001:01 3:0014:01",
            joined: (3, "04 07 01 01 14 01", "FD 04 01 01 14 01"),
            left: &[("0001", "01"), ("0014", "01")],
        },
    ),
    (
        "Joined packets: each begins on page 0 and with its own FUNC",
        &Pair {
            first: (1, "FF 04 00 FF 01 11", "FF 04 00 00 FF 01 FE 02 11 00 00"),
            second: (4, "02", "02 02"),
            commands: "1:0400:- 1:0111:- 4:0002:-",
            joined: (
                1,
                "FF 04 00 FF 01 11 FC 04 FF 00 02",
                "FF 04 00 00 FF 01 FE 02 11 00 00 FF 00 02 02",
            ),
            left: &[("0002", "02")],
        },
    ),
    (
        "Joined packets: what the first does in silence is reported by the second",
        &Pair {
            first: (2, "FE 06 77 08 01 03 15 1E 08", ""),
            second: (1, "FE 02 77 05 01", "FE 06 77 05 01 03 15 1E 08"),
            commands: "2:0077:080103151E08 1:0077:0501",
            joined: (
                2,
                "FE 06 77 08 01 03 15 1E 08 FC 01 FE 02 77 05 01",
                "FE 06 77 05 01 03 15 1E 08",
            ),
            left: &[
                ("0077:1.1", "03151E08"),
                ("0077:2.1", "03151E08"),
                ("0077:3.1", "03151E08"),
                ("0077:4.1", "03151E08"),
                ("0077:5.1", "03151E08"),
            ],
        },
    ),
    (
        "Joined packets: two silences are one",
        &Pair {
            first: (2, "01 01", ""),
            second: (2, "02 03", ""),
            commands: "2:0001:01 2:0002:03",
            joined: (2, "01 01 02 03", ""),
            left: &[("0001", "01"), ("0002", "03")],
        },
    ),
    (
        "Joined packets: no commands, whatever special commands there are, add nothing",
        &Pair {
            first: (4, "FC 05 FF 04", ""),
            second: (3, "FE 01 01 01", "01 01"),
            commands: "3:0001:01",
            joined: (3, "01 01", "01 01"),
            left: &[("0001", "01")],
        },
    ),
    (
        "Joined packets: none and none",
        &Pair {
            first: (5, "", ""),
            second: (2, "FF 01", ""),
            commands: "",
            joined: (1, "", ""),
            left: &[],
        },
    ),
    (
        "Joined packets: each raise is from what the one before it left",
        &Pair {
            first: (4, "63", "FE 02 63 46 00"),
            second: (4, "63 FC 05 63", "FE 02 63 4B 00 FE 02 63 46 00"),
            commands: "4:0063:- 4:0063:- 5:0063:-",
            joined: (
                4,
                "63 63 FC 05 63",
                "FE 02 63 46 00 FE 02 63 4B 00 FE 02 63 46 00",
            ),
            left: &[("0063", "4600")],
        },
    ),
    (
        "Joined packets: a value that is not stored leaves what the first stored",
        &Pair {
            first: (3, "02 03", "02 03"),
            second: (3, "02 06", "02 03"),
            commands: "3:0002:03 3:0002:06",
            joined: (3, "02 03 02 06", "02 03 02 03"),
            left: &[("0002", "03")],
        },
    ),
];

fn add_pair(edges: &mut Edges, mode: u8, pair: &Pair) {
    edges.set_up(&ID, PASSWORD, mode);
    for asked in [pair.first, pair.second] {
        ask(edges, asked);
    }
    edges.record(mode, pair.left);
    edges.set_up(&ID, PASSWORD, mode);
    let (function, data, _) = pair.joined;
    write(
        edges,
        pair.commands,
        &format!("packet {}", framed(&ID, PASSWORD, function, data)),
    );
    ask(edges, pair.joined);
    edges.record(mode, pair.left);
}

fn ask(edges: &mut Edges, (function, data, reports): Asked) {
    match reports {
        "" => edges.ask(function, data, "silence"),
        reports => edges.expect(function, data, reports),
    }
}

/// The tool's writer, for the board's ID and password.
fn write(edges: &mut Edges, commands: &str, answer: &str) {
    let (id, password) = (hex::field(&ID), hex::field(PASSWORD));
    let call = format!("write 256 {id} {password} {commands}");
    edges.line(call.trim_end(), answer);
}

/// 228 bytes are left beside the password: 114 reports of one byte, or 114 writes.
fn lengths(edges: &mut Edges) {
    edges.rule("Joined packets: a response of 256 bytes fits");
    edges.set_up(&ID, PASSWORD, 1);
    for count in [57, 57, 114] {
        edges.expect(1, &"01 ".repeat(count), &"01 00 ".repeat(count));
    }
    edges.rule("Joined packets: one report more does not, and then nothing is run");
    edges.expect(3, "02 03", "02 03");
    edges.expect(1, &"01 ".repeat(114), &"01 00 ".repeat(114));
    edges.set_up(&ID, PASSWORD, 1);
    edges.ask(
        3,
        &format!("02 03 FC 01 {}", "01 ".repeat(114)),
        "refused 12",
    );
    edges.record(1, &[]);
    edges.rule("Joined packets: a packet of 256 bytes is written, a longer one is not");
    for count in [57, 57, 114] {
        edges.ask(2, &"01 01 ".repeat(count), "silence");
    }
    let packet = framed(&ID, PASSWORD, 2, &"01 01 ".repeat(114));
    write(
        edges,
        &"2:0001:01 ".repeat(114),
        &format!("packet {packet}"),
    );
    write(edges, &"2:0001:01 ".repeat(115), "refused 43");
}
