//! The summary: how each packet is judged, and how the pairs are counted.

use super::{FORMS, Form, ONE_BOARD, TWO, record, sum_up};
use crate::edges::examples::{E1, E2};
use crate::edges::{Edges, ID, PASSWORD, ZERO_ID, framed};
use crate::packet;

pub fn add(edges: &mut Edges) {
    judged(edges);
    judged_frames(edges);
    for form in FORMS {
        summaries(edges, form);
        counts(edges, form);
    }
    long_indices(edges);
}

/// Judges one packet as a request and as a response, in a capture of either version.
fn judge(edges: &mut Edges, packet: &str, request: u8, response: u8) {
    for (direction, number) in [(0, request), (1, response)] {
        let capture = format!("{ONE_BOARD} {}", record(direction, packet));
        for form in FORMS {
            sum_up(edges, form, &capture, &format!("0,{number},1"));
        }
    }
}

/// Blocks with FUNC, judged as a request and as a response.
const BLOCKS: [(u8, &str, u8, u8); 40] = [
    (1, "", 0, 9),
    (2, "", 0, 9),
    (5, "", 0, 9),
    (6, "", 9, 0),
    (0, "", 9, 9),
    (7, "", 9, 9),
    (255, "", 9, 9),
    (1, "01", 0, 9),
    (4, "01", 0, 9),
    (6, "01", 9, 10),
    (2, "01", 10, 9),
    (3, "01", 10, 9),
    (3, "01 00", 0, 9),
    (6, "01 00", 9, 0),
    (3, "01 00 02", 10, 9),
    (6, "01 00 02", 9, 10),
    (1, "FF", 10, 9),
    (6, "FF", 9, 10),
    (1, "FF 01", 0, 9),
    (6, "FF 01", 9, 0),
    (1, "FC", 10, 9),
    (1, "FC 01", 0, 9),
    (1, "FC 00", 10, 9),
    (1, "FC 06", 10, 9),
    (6, "FC 01", 9, 10),
    (1, "FC 02 01", 10, 9),
    (2, "FC 01 01", 0, 9),
    (1, "FD", 10, 9),
    (1, "FD 01", 10, 9),
    (6, "FD 01", 9, 0),
    (6, "FD", 9, 10),
    (6, "FD FC", 9, 10),
    (1, "FE 01 01 00", 0, 9),
    (6, "FE 01 01 00", 9, 0),
    (1, "FE 00 01", 10, 9),
    (6, "FE 00 01", 9, 10),
    (1, "FE 02 63 46", 10, 9),
    (6, "FE 02 63 46", 9, 10),
    (1, "FE 01 FC 00", 10, 9),
    (6, "FE 01 FC 00", 9, 10),
];

fn judged(edges: &mut Edges) {
    edges.rule("The guide's read and its response, in both directions: 9 in the wrong one");
    judge(edges, E1, 0, 9);
    judge(edges, E2, 9, 0);
    edges.rule("9 and 10, by the direction; FUNC is judged before the block");
    for (function, data, request, response) in BLOCKS {
        let packet = framed(&ID, PASSWORD, function, data);
        judge(edges, &packet, request, response);
    }
    edges.rule("ID and password are taken as they are: another board's, the code word, strange characters, none");
    for id in [ZERO_ID, packet::CODE_WORD, [0xFF; 16]] {
        for password in [&b""[..], b"1112", &[0, 0xFF], b"12345678"] {
            judge(edges, &framed(&id, password, 1, "01"), 0, 9);
            judge(edges, &framed(&id, password, 6, "01 00"), 9, 0);
        }
    }
    edges.rule("A search with other functions than 01, and a response that would not fit, are no matter here");
    judge(edges, &framed(&packet::CODE_WORD, b"", 3, "01 00"), 0, 9);
    let many = "7C".repeat(200);
    judge(edges, &framed(&ID, PASSWORD, 1, &many), 0, 9);
}

fn judged_frames(edges: &mut Edges) {
    edges.rule("2 to 6 alike in both directions; 2 for 0 to 23 bytes, 3 for zero bytes from 24 on");
    for (length, number) in [(0, 2), (1, 2), (23, 2), (24, 3), (255, 3), (256, 3)] {
        judge(edges, &"00".repeat(length), number, number);
    }
    for (length, number) in [(23, 2), (24, 5), (256, 5)] {
        let packet = format!("FD FD {}", "00".repeat(length - 2));
        judge(edges, &packet, number, number);
    }
    for (packet, number) in [
        (E1.replace("FD FD", "FD FC"), 3),
        (E1.replace("FD FD", "FC FD"), 3),
        (E1.replace("DE 00", "DD 00"), 4),
        (E1.replace("DE 00", "00 DE"), 4),
        (E1.replace("FD FD 02", "FD FD 03"), 4),
        (
            E1.replace("FD FD 02", "FD FD 03").replace("DE 00", "DF 00"),
            5,
        ),
        (E1.replace("02 10", "02 0F").replace("DE 00", "DD 00"), 5),
        (E1.replace("00 04", "00 09").replace("DE 00", "E3 00"), 6),
        (E1.replace("00 04", "00 07").replace("DE 00", "E1 00"), 6),
    ] {
        judge(edges, &packet, number, number);
    }
    edges.rule("A password size of 6 leaves FUNC 02 and an empty block, which is a request");
    let packet = E1
        .replace("00 04", "00 06")
        .replace("01 02 DE 00", "01 02 E0 00");
    judge(edges, &packet, 0, 9);
}

/// A record of board 0 as one of another board.
fn of_board(index: usize, record: &str) -> String {
    record.replacen("#0", &format!("#{index}"), 1)
}

/// A head of so many boards.
fn boards(count: usize) -> String {
    format!("VLG #{count} {}", "30".repeat(16 * count))
}

fn summaries(edges: &mut Edges, form: Form) {
    edges.rule("Pairs ascend by index, then by number, 10 behind 9; requests and responses are counted together");
    let good = record(0, E1);
    let answered = record(1, E2);
    let wrong = record(1, E1);
    let empty = record(0, "");
    let cut = record(0, &framed(&ID, b"", 3, "01"));
    let records = [
        of_board(10, &good),
        of_board(2, &cut),
        of_board(2, &wrong),
        of_board(0, &good),
        of_board(2, &good),
        of_board(2, &answered),
        of_board(2, &empty),
        of_board(9, &empty),
        of_board(2, &cut),
    ];
    let head = boards(11);
    let capture = format!("{head} {}", records.join(" "));
    let lines = "0,0,1|2,0,2|2,2,1|2,9,1|2,10,2|9,2,1|10,0,1";
    sum_up(edges, form, &capture, lines);
    edges.rule("A refused capture adds a last line; what comes after it is not counted");
    let refused = format!("{lines}|refused,53");
    sum_up(edges, form, &format!("{capture} 00"), &refused);
    let behind = of_board(11, &good);
    sum_up(edges, form, &format!("{capture} {behind} {good}"), &refused);
    sum_up(
        edges,
        form,
        &format!("{head} {behind} {good}"),
        "refused,53",
    );
}

fn counts(edges: &mut Edges, form: Form) {
    edges.rule("Counts of two and three digits");
    let empty = record(0, "");
    for count in [9, 10, 99, 100, 255, 256, 257, 300] {
        let records = format!(" {empty}").repeat(count);
        let capture = format!("{ONE_BOARD}{records}");
        sum_up(edges, form, &capture, &format!("0,2,{count}"));
    }
}

fn long_indices(edges: &mut Edges) {
    edges.rule("Indices of one to three digits ascend by number, not by text");
    let (good, empty) = (record(0, E1), record(1, ""));
    let records = [999, 256, 100, 10, 257, 1, 99, 255].map(|index| of_board(index, &empty));
    let more = [256, 2].map(|index| of_board(index, &good));
    let capture = format!("{} {} {}", boards(1_000), records.join(" "), more.join(" "));
    let lines = "1,2,1|2,0,1|10,2,1|99,2,1|100,2,1|255,2,1|256,0,1|256,2,1|257,2,1|999,2,1";
    sum_up(edges, TWO, &capture, lines);
    let behind = of_board(1_000, &good);
    let refused = format!("{lines}|refused,53");
    sum_up(edges, TWO, &format!("{capture} {behind}"), &refused);
}
