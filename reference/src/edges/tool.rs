//! The tool's writer and reader, and the listing.

use super::{Edges, ID, PASSWORD, bytes, entries, framed};
use crate::hex;
use crate::packet::{self, CODE_WORD};

pub fn add(edges: &mut Edges) {
    shortest_form(edges);
    write_order(edges);
    write_refusals(edges);
    write_lengths(edges);
    long_lines(edges);
    read_refusals(edges);
    read_frames(edges);
    listings(edges);
    code_word(edges);
}

/// Lists of commands with FUNC and the shortest block.
const SHORTEST_FORMS: [(&str, u8, &str); 14] = [
    ("", 1, ""),
    (" 5:0002:-", 5, "02"),
    (" 1:0001:- 1:0002:-", 1, "01 02"),
    (
        " 3:0001:01 3:0402:01 3:0400:07 3:0002:05",
        3,
        "01 01 FF 04 02 01 00 07 FF 00 02 05",
    ),
    (
        " 3:0002:05 2:0002:01 1:0002:-",
        3,
        "02 05 FC 02 02 01 FC 01 02",
    ),
    (" 2:0402:01 1:0001:-", 2, "FF 04 02 01 FC 01 FF 00 01"),
    (" 2:0402:01 1:0402:-", 2, "FF 04 02 01 FC 01 02"),
    (" 4:0063:- 5:0063:-", 4, "63 FC 05 63"),
    (" 3:0063:4600 3:0001:01", 3, "FE 02 63 46 00 01 01"),
    (" 1:0001:05 4:0001:05", 1, "FE 01 01 05 FC 04 FE 01 01 05"),
    (" 5:0001:0506", 5, "FE 02 01 05 06"),
    (" 2:FFFB:FF 2:0000:FC", 2, "FF FF FB FF FF 00 00 FC"),
    (
        " 1:0077:- 1:0177:- 1:0177:- 1:0077:-",
        1,
        "77 FF 01 77 77 FF 00 77",
    ),
    (" 2:0001:00 3:0001:00", 2, "01 00 FC 03 01 00"),
];

fn shortest_form(edges: &mut Edges) {
    edges.rule(
        "Writer: FUNC of the first command, 1 for none; FF, FC and FE only where needed, FC first",
    );
    for (commands, function, data) in SHORTEST_FORMS {
        written(edges, commands, function, data);
    }
    edges.rule("Writer: the rest of a longer buffer stays");
    let id = hex::field(&ID);
    for length in [256, 257, 1024] {
        let request = framed(&ID, b"", 1, "01");
        edges.line(
            format!("write {length} {id} - 1:0001:-"),
            format!("packet {request}"),
        );
    }
}

/// Writes commands, which come out as FUNC and this block.
pub fn written(edges: &mut Edges, commands: &str, function: u8, data: &str) {
    let request = framed(&ID, PASSWORD, function, data);
    edges.line(
        format!("write 256 {} 31313131{commands}", hex::field(&ID)),
        format!("packet {request}"),
    );
}

fn write_order(edges: &mut Edges) {
    edges.rule("Writer: 1, 40, 21, 42, 43, in this order");
    let id = hex::field(&ID);
    let long = format!("3:0001:{}", "00".repeat(255));
    let bad = format!("{long} 0:00FC:-");
    for (fields, answer) in [
        (format!("255 00 2A {bad}"), "refused 1"),
        (format!("256 00 2A {bad}"), "refused 40"),
        (format!("256 {id} 2A {bad}"), "refused 21"),
        (format!("256 {id} 31 {bad}"), "refused 42"),
        (format!("256 {id} 31 {long}"), "refused 43"),
        (format!("0 {id} -"), "refused 1"),
        (format!("255 {id} -"), "refused 1"),
    ] {
        edges.line(format!("write {fields}"), answer);
    }
    edges.rule("Writer: 40 for every length but 16, 21 as at set-up");
    for length in [0, 1, 15, 17, 32] {
        let other = hex::field(&vec![0x30; length]);
        edges.line(format!("write 256 {other} -"), "refused 40");
    }
    for password in ["2A", "313131313131313131", "00", "31313131313131FF"] {
        edges.line(format!("write 256 {id} {password}"), "refused 21");
    }
}

/// Commands that 42 names.
const BAD_COMMANDS: &str = "0:0001:- | 0:0001:00 | 6:0001:00 | 7:0001:00 | 255:0001:00 | 1:00FC:- |
    1:00FD:- | 1:00FE:- | 1:00FF:- | 3:04FC:00 | 2:0001:- | 3:0001:- | 3:0177:-";

fn write_refusals(edges: &mut Edges) {
    edges.rule("Writer: 42 for each of its conditions, at any place of the list");
    let id = hex::field(&ID);
    let long_value = format!("1:0001:{}", "00".repeat(256));
    for bad in entries(BAD_COMMANDS).chain([long_value.as_str()]) {
        edges.line(format!("write 256 {id} - {bad}"), "refused 42");
        edges.line(format!("write 256 {id} - {bad} 1:0001:-"), "refused 42");
        let last = format!("write 256 {id} - 1:0001:- 2:0002:01 {bad}");
        edges.line(last, "refused 42");
    }
    edges.rule("Writer: a value of 255 bytes is no matter of 42 but too long for a packet");
    for function in 1..=5 {
        let value = "00".repeat(255);
        let write = format!("write 256 {id} - {function}:0001:{value}");
        edges.line(write, "refused 43");
    }
}

fn write_lengths(edges: &mut Edges) {
    let id = hex::field(&ID);
    edges.rule("Writer: 256 bytes are written, 257 are refused with 43");
    for (password, room) in [(&b""[..], 232), (b"1111", 228), (b"12345678", 224)] {
        let write = format!("{id} {}", hex::field(password));
        let reads = " 1:0001:-".repeat(room);
        let request = framed(&ID, password, 1, &"01".repeat(room));
        let answer = format!("packet {request}");
        edges.line(format!("write 256 {write}{reads}"), answer);
        let longer = format!("write 1024 {write}{reads} 1:0001:-");
        edges.line(longer, "refused 43");
        let value = "A5".repeat(room - 3);
        let data = format!("FE {:02X} 01 {value}", room - 3);
        let answer = format!("packet {}", framed(&ID, password, 2, &data));
        edges.line(format!("write 256 {write} 2:0001:{value}"), answer);
        let longer = format!("write 1024 {write} 2:0001:{value}00");
        edges.line(longer, "refused 43");
    }
}

fn long_lines(edges: &mut Edges) {
    let id = hex::field(&ID);
    edges.rule("Writer: FC and FF count for 43");
    let reads = " 1:0001:-".repeat(228);
    edges.line(format!("write 256 {id} -{reads} 4:0101:-"), "refused 43");
    let reads = " 1:0001:-".repeat(227);
    let data = format!("{} FC 04 FF 01 01", "01".repeat(227));
    let answer = format!("packet {}", framed(&ID, b"", 1, &data));
    edges.line(format!("write 256 {id} -{reads} 4:0101:-"), answer);
    edges.rule("Lines of 8,192 characters or just under: a long packet, a write of many commands");
    let packet = "FD".repeat(4090);
    edges.line(format!("packet 1024 {packet}"), "refused 2");
    let head = format!("write 1024 {id} -");
    let count = (8_192 - head.len()) / 9;
    let commands = " 1:0001:-".repeat(count);
    edges.line(format!("{head}{commands}"), "refused 43");
    let commands = " 1:0001:-".repeat(count - 1);
    edges.line(format!("{head}{commands} 1:00FC:-"), "refused 42");
}

fn read_refusals(edges: &mut Edges) {
    let id = hex::field(&ID);
    edges.rule("Reader: 40, 21, then 2 to 10, the first that applies");
    let response = packet::write(&ID, PASSWORD, 6, &bytes("01 00"));
    let short = hex::field(&response[..23]);
    let good = hex::field(&response);
    edges.line(format!("read 00 2A {short}"), "refused 40");
    edges.line(format!("read - - {good}"), "refused 40");
    edges.line(format!("read {id}00 31313131 {good}"), "refused 40");
    edges.line(format!("read {id} 2A {short}"), "refused 21");
    edges.line(format!("read {id} 313131313131313131 {good}"), "refused 21");
    edges.line(format!("read {id} 31 {short}"), "refused 2");
    edges.line(format!("read {id} 31313131 -"), "refused 2");
    edges.line(
        format!("read {id} 31313131 {}", "FD".repeat(257)),
        "refused 2",
    );
    let other = framed(&[9; 16], b"1112", 1, "FC");
    edges.line(format!("read {id} 31313131 {other}"), "refused 7");
    let other = framed(&ID, b"1112", 1, "FC");
    edges.line(format!("read {id} 31313131 {other}"), "refused 8");
    for function in [0, 1, 2, 3, 4, 5, 7, 0xFF] {
        let other = framed(&ID, PASSWORD, function, "FC");
        edges.line(format!("read {id} 31313131 {other}"), "refused 9");
        edges.line(format!("list {other}"), "refused,9");
    }
    let other = framed(&ID, PASSWORD, 6, "FC");
    edges.line(format!("read {id} 31313131 {other}"), "refused 10");
    edges.line(format!("list {other}"), "refused,10");
    edges.line(format!("read {id} 31313131 {good}"), "reports 0001=00");
    edges.rule("Reader: the password differs in length or bytes");
    for password in ["-", "31", "313131", "3131313131", "31313132"] {
        edges.line(format!("read {id} {password} {good}"), "refused 8");
    }
}

/// Reads and lists a response that both refuse.
fn refuse_both(edges: &mut Edges, response: &[u8], number: u8) {
    let response = hex::field(response);
    let read = format!("read {} 31313131 {response}", hex::field(&ID));
    edges.line(read, format!("refused {number}"));
    edges.line(format!("list {response}"), format!("refused,{number}"));
}

fn read_frames(edges: &mut Edges) {
    edges.rule("Reader and listing: 2 to 6 as on the board");
    let good = packet::write(&ID, PASSWORD, 6, &bytes("01 00"));
    for (place, byte, number) in [(0, 0xFC, 3), (1, 0xFC, 3), (28, 0, 4), (29, 0xFF, 4)] {
        let mut response = good.clone();
        response[place] = byte;
        refuse_both(edges, &response, number);
    }
    edges.rule("TYPE, ID size and password size, with the sum repaired");
    for (place, byte, number) in [(2, 3, 5), (3, 0x11, 5), (20, 9, 6), (20, 0x84, 6)] {
        let mut response = good.clone();
        let sum = u16::from_le_bytes([response[28], response[29]]);
        let sum = sum - u16::from(response[place]) + u16::from(byte);
        response[place] = byte;
        response[28..].copy_from_slice(&sum.to_le_bytes());
        refuse_both(edges, &response, number);
    }
    for length in [0, 1, 23, 257, 260] {
        refuse_both(edges, &vec![0xFD; length], 2);
    }
    for length in [24, 255, 256] {
        refuse_both(edges, &vec![0; length], 3);
    }
}

fn listings(edges: &mut Edges) {
    edges.rule("Listing: any ID and password; an empty block is the header alone");
    let strange = framed(&CODE_WORD, &[0, 0xFF], 6, "B9 00 FD AB");
    let listing = "number,value|0x00B9,00|0x00AB,unknown";
    edges.line(format!("list {strange}"), listing);
    let empty = framed(&ID, b"", 6, "");
    edges.line(format!("list {empty}"), "number,value");
    edges.rule("The longest responses, read and listed");
    let id = hex::field(&ID);
    let longest = framed(&ID, b"", 6, &"01 02".repeat(116));
    let reports = format!("reports{}", " 0001=02".repeat(116));
    edges.line(format!("read {id} - {longest}"), reports);
    let listing = format!("number,value{}", "|0x0001,02".repeat(116));
    edges.line(format!("list {longest}"), listing);
    let value = "FE".repeat(229);
    let longest = framed(&ID, b"", 6, &format!("FE E5 01 {value}"));
    edges.line(
        format!("read {id} - {longest}"),
        format!("reports 0001={value}"),
    );
    let listing = format!("number,value|0x0001,{value}");
    edges.line(format!("list {longest}"), listing);
    edges.rule("The longest listing: as many unknown parameters as a response can report");
    let longest = framed(&ID, b"", 6, &"FD AB".repeat(116));
    let reports = format!("reports{}", " 00AB=unknown".repeat(116));
    edges.line(format!("read {id} - {longest}"), reports);
    let listing = format!("number,value{}", "|0x00AB,unknown".repeat(116));
    edges.line(format!("list {longest}"), listing);
}

fn code_word(edges: &mut Edges) {
    edges.rule("Having asked by code word, the reader takes every ID, but only the password sent");
    let code_word = hex::field(&CODE_WORD);
    for id in [ID, [0; 16], CODE_WORD, [0xFF; 16]] {
        let response = framed(&id, PASSWORD, 6, "01 00");
        edges.line(
            format!("read {code_word} 31313131 {response}"),
            "reports 0001=00",
        );
        edges.line(format!("read {code_word} - {response}"), "refused 8");
        edges.line(format!("read {code_word} 31313132 {response}"), "refused 8");
    }
    let response = framed(&CODE_WORD, PASSWORD, 6, "01 00");
    edges.line(
        format!("read {} 31313131 {response}", hex::field(&ID)),
        "refused 7",
    );
    edges.rule("The writer takes the code word as an ID");
    let request = framed(&CODE_WORD, b"", 1, "7C B9");
    edges.line(
        format!("write 256 {code_word} - 1:007C:- 1:00B9:-"),
        format!("packet {request}"),
    );
}
