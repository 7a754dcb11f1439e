//! Refusals 7, 8, 9 and 11: who may ask, and the search.

use super::{Edges, ID, PASSWORD, framed};
use crate::hex;
use crate::packet::CODE_WORD;

pub fn add(edges: &mut Edges) {
    for mode in [1, 2] {
        strangers(edges, mode);
    }
    access_point(edges);
    functions(edges);
    searches(edges);
    search_functions(edges);
    search_length(edges);
    mode_in_force(edges);
}

/// A packet with any ID and password.
pub fn send(edges: &mut Edges, id: &[u8], password: &[u8], function: u8, data: &str, answer: &str) {
    let request = framed(id, password, function, data);
    edges.line(format!("packet 256 {request}"), answer);
}

fn strangers(edges: &mut Edges, mode: u8) {
    edges.set_up(&ID, PASSWORD, mode);
    edges.rule("7: an ID that is neither the board's nor the code word, each byte counting");
    for place in 0..16 {
        let mut id = ID;
        id[place] ^= 1;
        send(edges, &id, PASSWORD, 1, "01", "refused 7");
        let mut id = CODE_WORD;
        id[place] ^= 0x20;
        send(edges, &id, PASSWORD, 1, "7C", "refused 7");
    }
    edges.rule("8: a password that differs in length or bytes, also before 9 and 10");
    for password in [
        &b""[..],
        b"1",
        b"111",
        b"11111",
        b"11111111",
        b"0111",
        b"1112",
        b"111\0",
        b"1111\0",
        b"2222",
    ] {
        send(edges, &ID, password, 1, "01", "refused 8");
        send(edges, &ID, password, 7, "FD", "refused 8");
        send(edges, &ID, password, 3, "01 01", "refused 8");
    }
    edges.record(mode, &[]);
    edges.rule("The own ID with the right password opens all functions and rows");
    edges.expect(3, "01 01 FC 04 02 FC 01 77", "01 01 02 02 FD 77");
}

fn access_point(edges: &mut Edges) {
    edges.set_up(&ID, PASSWORD, 2);
    edges.rule("Access point: the code word stands for the own ID; the password is compared");
    let response = framed(&ID, PASSWORD, 6, "01 01 02 02 FD 77");
    let answer = format!("response {response}");
    let data = "01 01 FC 04 02 FC 01 77";
    send(edges, &CODE_WORD, PASSWORD, 3, data, &answer);
    for password in [&b""[..], b"1112", b"111"] {
        send(edges, &CODE_WORD, password, 1, "7C B9", "refused 8");
    }
    send(edges, &CODE_WORD, PASSWORD, 1, "FD", "refused 10");
    edges.rule("Case counts in passwords");
    edges.set_up(&ID, b"abcD", 2);
    send(edges, &CODE_WORD, b"abcd", 1, "01", "refused 8");
    edges.expect(1, "01", "01 00");
}

fn functions(edges: &mut Edges) {
    edges.rule("9: FUNC 1 to 5, before 10");
    for mode in [1, 2] {
        edges.set_up(&ID, PASSWORD, mode);
        for function in [0, 6, 7, 0x10, 0xFC, 0xFF] {
            edges.ask(function, "", "refused 9");
            edges.ask(function, "FD", "refused 9");
        }
        for function in 1..=5 {
            edges.ask(function, "", "silence");
        }
    }
}

fn searches(edges: &mut Edges) {
    edges.set_up(&ID, PASSWORD, 1);
    let id = hex::field(&ID);
    edges.rule("Search: only 007C and 00B9 are reported, others get no mark, with any password");
    for password in [
        &b""[..],
        PASSWORD,
        b"1112",
        b"12345678",
        &[0xFF, 0x00, 0xFD],
    ] {
        let both = format!("FE 02 B9 02 00 FE 10 7C {id}");
        let response = framed(&ID, password, 6, &both);
        let answer = format!("response {response}");
        send(edges, &CODE_WORD, password, 1, "B9 77 01 7C 95", &answer);
        send(edges, &CODE_WORD, password, 1, "", "silence");
        send(edges, &CODE_WORD, password, 1, "01 77 02 A0", "silence");
        edges.rule("Search: the page counts, FE and FC 01 are taken");
        send(
            edges,
            &CODE_WORD,
            password,
            1,
            "FF 01 7C B9 FF 04 00",
            "silence",
        );
        let data = "FF 01 7C FC 01 B9 FF 00 FE 02 B9 FC 05 FC 01 FE 01 7C 00";
        send(edges, &CODE_WORD, password, 1, data, &answer);
    }
    edges.record(1, &[]);
}

/// Searches with FUNC and block that are refused, by number.
const REFUSED_SEARCHES: [(u8, &str, &str); 9] = [
    (2, "7C", "refused 10"),
    (3, "7C", "refused 10"),
    (3, "7C 00", "refused 11"),
    (4, "7C", "refused 11"),
    (1, "FC 00", "refused 10"),
    (1, "FC 06", "refused 10"),
    (1, "FC 03 7C", "refused 10"),
    (0, "FD", "refused 9"),
    (6, "FC 02", "refused 9"),
];

fn search_functions(edges: &mut Edges) {
    edges.rule("11: a search with FUNC or any FC other than 1, also one that is undone or last");
    for function in 2..=5 {
        let change = format!("FC {function:02X}");
        let undone = format!("{change} FC 01 7C");
        let last = format!("7C {change} FC 01");
        send(edges, &CODE_WORD, b"", function, "", "refused 11");
        send(edges, &CODE_WORD, b"", function, "FC 01 7C", "refused 11");
        for data in [&change, &undone, &last] {
            send(edges, &CODE_WORD, b"", 1, data, "refused 11");
        }
        let malformed = format!("{change} FD");
        send(edges, &CODE_WORD, b"", function, "FD", "refused 10");
        send(edges, &CODE_WORD, b"", 1, &malformed, "refused 10");
    }
    edges.rule("10 before 11, by the grammar of its own FUNC; 9 before both");
    for (function, data, answer) in REFUSED_SEARCHES {
        send(edges, &CODE_WORD, b"", function, data, answer);
    }
    edges.rule("11 before 12");
    let long = format!("{} FC 02", "7C".repeat(100));
    send(edges, &CODE_WORD, b"", 1, &long, "refused 11");
}

fn search_length(edges: &mut Edges) {
    edges.rule("12 in a search counts its own password and its two rows alone");
    let id = hex::field(&ID);
    let identity = format!("FE 10 7C {id}");
    let unit_type = "FE 02 B9 02 00";
    // 12 reports of 19 bytes and 24 bytes of frame are 252; four bytes of password fit, five do not.
    let response = framed(&ID, b"1234", 6, &identity.repeat(12));
    let answer = format!("response {response}");
    send(edges, &CODE_WORD, b"1234", 1, &"7C".repeat(12), &answer);
    send(
        edges,
        &CODE_WORD,
        b"12345",
        1,
        &"7C".repeat(12),
        "refused 12",
    );
    let passed_over = format!("{} {}", "01 77".repeat(90), "7C".repeat(12));
    send(edges, &CODE_WORD, b"1234", 1, &passed_over, &answer);
    send(edges, &CODE_WORD, b"", 1, &"01 77".repeat(116), "silence");
    // 46 reports of 5 bytes and two bytes of password are 256.
    let response = framed(&ID, b"12", 6, &unit_type.repeat(46));
    let answer = format!("response {response}");
    send(edges, &CODE_WORD, b"12", 1, &"B9".repeat(46), &answer);
    send(edges, &CODE_WORD, b"123", 1, &"B9".repeat(46), "refused 12");
    send(edges, &CODE_WORD, b"12", 1, &"B9".repeat(47), "refused 12");
}

fn mode_in_force(edges: &mut Edges) {
    edges.rule("0094 is only stored: the mode in force stays");
    edges.set_up(&ID, PASSWORD, 1);
    edges.expect(3, "94 02", "94 02");
    send(edges, &CODE_WORD, PASSWORD, 1, "01", "silence");
    edges.record(1, &[("0094", "02")]);
    edges.set_up(&ID, PASSWORD, 2);
    edges.expect(3, "94 02", "94 02");
    edges.expect(3, "94 01", "94 01");
    send(edges, &CODE_WORD, b"", 1, "7C", "refused 8");
    edges.record(2, &[]);
}
