//! Set-up, measurements, pokes and refusal 70.

use super::{Edges, ID, PASSWORD, ZERO_ID, entries, framed, record};
use crate::hex;
use crate::packet::CODE_WORD;

pub fn add(edges: &mut Edges) {
    refused_setups(edges);
    accepted_setups(edges);
    edges.set_up(&ID, PASSWORD, 1);
    measurements(edges, &MEASURED);
    other_measurements(edges);
    pokes(edges);
    poked_texts(edges);
    illegal_rows(edges);
    illegal_identity(edges);
    other_identity(edges);
}

/// Set-ups that are refused; ID and CODE stand for the board's ID and the code word.
const REFUSED_SETUPS: &str =
    "- - 1=20 | 00 - 1=20 | ID00 - 1=20 | CODE 31313131 2=20 | CODE 2A 0=20 |
    00 313131313131313131 3=20 | ID 313131313131313131 1=21 | ID 313131313131313131 0=21 |
    ID 2A 3=21 | ID 3131FF 1=21 | ID - 0=22 | ID 31313131 3=22 | ID 3131313131313131 255=22";

fn refused_setups(edges: &mut Edges) {
    edges.rule("Set-up: 20, 21, 22, the lowest that applies; a refused one gives the zero board");
    let short = format!("setup {} - 1", &hex::field(&ID)[2..]);
    edges.line(short, "refused 20");
    for entry in entries(REFUSED_SETUPS) {
        let (fields, number) = entry.split_once('=').expect("fields and a number");
        let fields = fields.replace("ID", &hex::field(&ID));
        let fields = fields.replace("CODE", &hex::field(&CODE_WORD));
        edges.set_up(&ID, PASSWORD, 2);
        edges.line(format!("setup {fields}"), format!("refused {number}"));
        edges.line("record", record(&ZERO_ID, b"", 1, &[]));
    }
    edges.rule("Password characters at the edges of the three ranges");
    let id = hex::field(&ID);
    for byte in "30 39 41 5A 61 7A".split(' ') {
        edges.line(format!("setup {id} {byte} 1"), "accepted");
    }
    for byte in "00 20 2F 3A 40 5B 60 7B 7F 80 B1 FF".split(' ') {
        edges.line(format!("setup {id} {byte} 1"), "refused 21");
    }
}

fn accepted_setups(edges: &mut Edges) {
    edges.rule("IDs are any 16 bytes but the code word; an accepted set-up gives the start record");
    for id in [[0xFF; 16], *b"default_deviceid", *b"DEFAULT_DEVICEIE"] {
        for (password, mode) in [(&b""[..], 1), (b"azAZ0909", 2)] {
            edges.set_up(&id, password, mode);
            edges.record(mode, &[]);
            edges.expect(1, "7C", &format!("FE 10 7C {}", hex::field(&id)));
        }
    }
    edges.rule("A set-up forgets what was stored");
    edges.set_up(&ID, PASSWORD, 1);
    edges.ask(2, "01 01 02 05 95 42", "silence");
    edges.line("measure 001E CEFF", "accepted");
    edges.set_up(&ID, PASSWORD, 1);
    edges.record(1, &[]);
}

/// The rows that take measurements, by size.
const MEASURED: [(usize, &str); 5] = [
    (1, "0006 0032 0033 0073 0074 0088 0093 00A1 00B6"),
    (2, "0111 001E 001F 0020 0021 0022 006A"),
    (3, "000B"),
    (4, "0064 00A3"),
    (6, "0086 0112"),
];

/// Every row of the table, by size, on a board of mode client that holds its start values.
pub fn measurements(edges: &mut Edges, measured: &[(usize, &str)]) {
    edges.rule("Measurement: every read-only row of its size; 31 for other lengths");
    for (size, numbers) in measured {
        for number in numbers.split(' ') {
            let value = &"CEFF80017F02"[..2 * size];
            edges.line(format!("measure {number} {value}"), "accepted");
            edges.record(1, &[(number, value)]);
            for length in (0..=8).filter(|length| length != size) {
                let other = hex::field(&vec![1; length]);
                edges.line(format!("measure {number} {other}"), "refused 31");
            }
            for value in ["FF".repeat(*size), "00".repeat(*size)] {
                edges.line(format!("measure {number} {value}"), "accepted");
            }
        }
    }
    edges.record(1, &[]);
}

fn other_measurements(edges: &mut Edges) {
    edges.rule("Measurement: the two marks and -5.0 degrees are stored as they are and read back");
    for value in ["0080", "FF7F", "CEFF"] {
        edges.line(format!("measure 001E {value}"), "accepted");
        edges.expect(1, "1E", &format!("FE 02 1E {value}"));
    }
    edges.rule("30: not a read-only row, or 007C or 00B9, before 31");
    edges.line(format!("measure 007C {}", hex::field(&ID)), "refused 30");
    edges.line("measure 00B9 0200", "refused 30");
    let numbers = "007C 00B9 0001 0002 0063 0095 0402 0065 0077 0000 FFFF";
    for number in numbers.split(' ') {
        for value in ["-", "01", "0100"] {
            edges.line(format!("measure {number} {value}"), "refused 30");
        }
    }
    for page in 1..=255 {
        edges.line(format!("measure {page:02X}1E CEFF"), "refused 30");
        edges.line(format!("measure {page:02X}88 01"), "refused 30");
    }
    edges.record(1, &[("001E", "CEFF")]);
}

/// Poked values and what the record then shows.
const POKES: &str = "0001 01FF 01 | 0001 - 00 | 0063 460099 4600 | 0063 46 4600 | 0063 - 0000 |
    006F 0102 010200 | 009C 0102030405 01020304 | 0112 01 010000000000 |
    0086 01020304050607 010203040506";

fn pokes(edges: &mut Edges) {
    edges.rule("Poke: bytes past the room are dropped, missing ones become 0");
    for entry in entries(POKES) {
        let fields: Vec<&str> = entry.split(' ').collect();
        let (number, value, shown) = (fields[0], fields[1], fields[2]);
        edges.set_up(&ID, PASSWORD, 1);
        edges.line(format!("poke {number} {value}"), "poked");
        edges.record(1, &[(number, shown)]);
    }
    edges.set_up(&ID, PASSWORD, 1);
    edges.rule("Poke: a number that is no row has no room, so nothing changes");
    for number in ["0000", "0065", "0077", "FFFF"] {
        edges.line(format!("poke {number} 01"), "poked");
        edges.line(format!("poke {number} -"), "poked");
    }
    edges.record(1, &[]);
    edges.rule("Poke: read-only rows hold any bytes");
    edges.line("poke 0006 FF", "poked");
    edges.line("poke 001E 0080", "poked");
    edges.expect(1, "06 1E", "06 FF FE 02 1E 00 80");
}

fn poked_texts(edges: &mut Edges) {
    edges.set_up(&ID, PASSWORD, 1);
    edges.rule("Poke: a text takes the given length up to its room; an empty one is shown as -");
    for (number, room, start) in [("0095", 32, "41"), ("0096", 64, "3030303030303030")] {
        for length in [0, 1, 7, 8, 31, 32, 33, 63, 64, 65, 100] {
            let value = hex::field(&vec![0x42; length]);
            let shown = hex::field(&vec![0x42; length.min(room)]);
            edges.line(format!("poke {number} {value}"), "poked");
            edges.record(1, &[(number, &shown)]);
            let legal = length > 0 && (number == "0095" || length >= 8);
            edges.ask(1, "", if legal { "silence" } else { "refused 70" });
        }
        edges.line(format!("poke {number} {start}"), "poked");
    }
}

/// The same calls on a record that 70 refuses: each is answered 70, before every other number.
pub fn meet(edges: &mut Edges) {
    let read = framed(&ID, PASSWORD, 1, "01");
    let search = framed(&CODE_WORD, b"", 1, "7C");
    edges.line(format!("packet 256 {read}"), "refused 70");
    edges.line(format!("packet 0 {read}"), "refused 70");
    edges.line(format!("packet 256 {search}"), "refused 70");
    edges.line("packet 255 -", "refused 70");
    edges.line("measure 001E CEFF", "refused 70");
    edges.line("measure FFFF -", "refused 70");
}

/// Values just outside the set of each writable row.
const ILLEGAL_ROWS: &str = "0001 02 | 0007 03 | 0014 FF | 0015 02 | 0068 02 | 0072 02 | 009B 02 |
    0401 02 | 0402 02 | 0002 00 | 0002 06 | 0003 04 | 0008 06 | 0009 3C | 000A 18 | 000D 01 |
    000D 0E | 000D 1F | 0018 0E | 0018 1F | 001D 03 | 0060 02 | 00F0 02 | 0066 3D | 0067 10 |
    0036 65 | 0037 65 | 003A 65 | 003B 65 | 003C 65 | 003D 65 | 003E 65 | 003F 65 | 0040 65 |
    0041 65 | 0042 65 | 0043 65 | 0045 65 | 0046 65 | 0047 65 | 0063 4800 | 0063 0100 |
    0063 7201 | 0063 FFFF | 0094 00 | 0094 03 | 0099 31 | 0099 35 | 0099 2F | 009A 00 | 009A 0E |
    0400 51 | 006F 3C0000 | 006F 003C00 | 006F 000018 | 0070 00050100 | 0070 20020100 |
    0070 01000100 | 0070 01080100 | 0070 01050100 | 0070 01070100 | 0070 01010100 | 0070 01060000 |
    0070 01010D00 | 0070 01050164 | 0070 1E030200 | 0070 1D040201 | 0070 1F010400 | 0095 1F |
    0095 7F | 0095 - | 0095 4100 | 0096 30303030303030 | 0096 303030303030307F | 0096 -";

fn illegal_rows(edges: &mut Edges) {
    edges.rule("70: a writable row outside its set");
    for entry in entries(ILLEGAL_ROWS) {
        edges.set_up(&ID, PASSWORD, 1);
        illegal_row(edges, entry);
    }
    edges.rule("A poke back makes the record legal again; tool, listing and set-up take no record");
    edges.line("poke 0096 3030303030303030", "poked");
    edges.expect(1, "01", "01 00");
    edges.line("poke 0002 FF", "poked");
    let request = framed(&ID, b"", 1, "");
    edges.line(
        format!("write 256 {} -", hex::field(&ID)),
        format!("packet {request}"),
    );
    edges.line("list -", "refused,2");
    edges.line("setup 00 - 1", "refused 20");
    edges.line("record", record(&ZERO_ID, b"", 1, &[]));
}

/// A row poked to a value outside its set, on a board of mode client that holds its start values.
pub fn illegal_row(edges: &mut Edges, poke: &str) {
    let (number, value) = poke.split_once(' ').expect("number and value");
    edges.line(format!("poke {poke}"), "poked");
    meet(edges);
    edges.record(1, &[(number, value)]);
}

/// Pokes that spoil the identity; CODE stands for the code word.
const ILLEGAL_IDENTITIES: &str =
    "id CODE | id 00 | id - | password 2A | password 31313131FF | mode 0 |
    mode 3 | mode 255 | 007C - | 007C 00 | 007C CODE | 00B9 - | 00B9 03 | 00B9 0201 | 00B9 0002";

fn illegal_identity(edges: &mut Edges) {
    edges.rule(
        "70: an ID, password or mode that set-up refuses, 007C or 00B9 other than the identity",
    );
    let code_word = hex::field(&CODE_WORD);
    for poke in entries(ILLEGAL_IDENTITIES) {
        edges.set_up(&ID, PASSWORD, 1);
        edges.line(
            format!("poke {}", poke.replace("CODE", &code_word)),
            "poked",
        );
        meet(edges);
    }
    edges.set_up(&ID, PASSWORD, 1);
    edges.line(format!("poke 007C {}", &hex::field(&ID)[..30]), "poked");
    meet(edges);
    edges.rule("70: also where 007C follows the ID to the code word");
    edges.set_up(&ID, PASSWORD, 1);
    edges.line(format!("poke id {code_word}"), "poked");
    edges.line(format!("poke 007C {code_word}"), "poked");
    meet(edges);
    edges.rule("The record is shown as it is");
    edges.line("poke id 0102", "poked");
    edges.line("poke 007C 03", "poked");
    edges.line("poke password 2A2B", "poked");
    edges.line("poke mode 7", "poked");
    let shown_id = [&[1, 2][..], &[0; 14]].concat();
    let row = format!("03{}", "00".repeat(15));
    edges.line("record", record(&shown_id, b"*+", 7, &[("007C", &row)]));
}

fn other_identity(edges: &mut Edges) {
    edges.rule("A record whose ID and 007C are another legal ID is legal; so are other passwords and modes");
    edges.set_up(&ID, PASSWORD, 1);
    let other = [0x55; 16];
    edges.line(format!("poke id {}", hex::field(&[0x55; 20])), "poked");
    edges.line(format!("poke 007C {}", hex::field(&[0x55; 17])), "poked");
    edges.line("poke password 7A5A3961413031323334", "poked");
    (edges.id, edges.password) = (other.to_vec(), b"zZ9aA012".to_vec());
    edges.record(1, &[]);
    edges.expect(
        1,
        "01 7C",
        &format!("01 00 FE 10 7C {}", hex::field(&other)),
    );
    let search = framed(&CODE_WORD, b"", 1, "7C 01");
    let found = framed(&other, b"", 6, &format!("FE 10 7C {}", hex::field(&other)));
    edges.line(format!("packet 256 {search}"), format!("response {found}"));
    edges.line("poke mode 2", "poked");
    edges.line(format!("packet 256 {search}"), "refused 8");
    edges.line("poke password -", "poked");
    let both = framed(
        &other,
        b"",
        6,
        &format!("FE 10 7C {} 01 00", hex::field(&other)),
    );
    edges.line(format!("packet 256 {search}"), format!("response {both}"));
    edges.rule("00B9 poked to what it is stays legal");
    edges.line("poke 00B9 02", "poked");
    edges.password.clear();
    edges.expect(1, "B9", "FE 02 B9 02 00");
}
