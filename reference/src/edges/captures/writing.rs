//! The writer's refusals and its room.

use super::{A, B, ONE_BOARD, record, written};
use crate::edges::{Edges, entries};

pub fn add(edges: &mut Edges) {
    write_order(edges);
    write_boards(edges);
    write_parts(edges);
    write_fields(edges);
    write_room(edges);
}

fn write_order(edges: &mut Edges) {
    edges.rule("Writer: 52, 53, 54, in this order, whatever else is wrong");
    let bad = "0.0.0.- 1.2.0.-";
    for (fields, answer) in [
        (format!("0 - {bad}"), "refused 52"),
        (format!("0 {} {bad}", &A[2..]), "refused 52"),
        (format!("0 {A}00 {bad}"), "refused 52"),
        (format!("0 {A} {bad}"), "refused 53"),
        (format!("40 {A} {bad}"), "refused 53"),
        (format!("41 {A} {bad}"), "refused 53"),
        (format!("1048576 {A} {bad}"), "refused 53"),
        (format!("40 {A} 0.0.0.- 0.1.0.-"), "refused 54"),
    ] {
        edges.line(format!("capwrite {fields}"), answer);
    }
    let capture = format!("{ONE_BOARD} {} {}", record(0, ""), record(1, ""));
    edges.line(
        format!("capwrite 41 {A} 0.0.0.- 0.1.0.-"),
        written(&capture),
    );
}

fn write_boards(edges: &mut Edges) {
    edges.rule(
        "Writer: 52 for IDs that are no multiple of 16 bytes, for no board and for more than 1,000",
    );
    for length in [
        1, 8, 15, 17, 31, 33, 255, 257, 271, 273, 4_095, 16_001, 16_016,
    ] {
        let ids = "30".repeat(length);
        edges.line(format!("capwrite 20000 {ids}"), "refused 52");
    }
    edges.line("capwrite 23 -", "refused 52");
    let short = vec!["30".repeat(15); 2].join(",");
    edges.line(format!("capwrite 5000 {short}"), "refused 52");
    edges.rule(
        "Writer: 1 to 1,000 boards in exactly the room that they need; 53 at the board count",
    );
    for boards in [1, 2, 16, 17, 255, 256, 257, 999, 1_000, 1_001] {
        let ids: Vec<String> = (1..=boards).map(|board| format!("{board:032X}")).collect();
        let given = ids.join(",");
        let room = 7 + 16 * boards + 9;
        let answer = |index: usize| match boards {
            1_001 => "refused 52".to_string(),
            _ if index == boards => "refused 53".to_string(),
            _ => written(&format!(
                "VLG #{boards} {} #{index} 01 00 00 00 00 00 00",
                ids.join(" ")
            )),
        };
        for index in [boards - 1, boards] {
            let line = format!("capwrite {room} {given} {index}.1.0.-");
            edges.line(line, answer(index));
        }
    }
}

fn write_parts(edges: &mut Edges) {
    edges.rule("Writer: the bytes count, not the parts that they are given in");
    for ids in [
        A.to_string(),
        format!("{},{}", &A[..2], &A[2..]),
        format!("{},{},{}", &A[..16], &A[16..30], &A[30..]),
    ] {
        edges.line(format!("capwrite 23 {ids}"), written(ONE_BOARD));
    }
    let two = written(&format!("VLG #2 {A} {B}"));
    edges.line(format!("capwrite 39 {A}{B}"), &two[..]);
    edges.line(
        format!("capwrite 39 {},{}{B}", &A[..10], &A[10..]),
        &two[..],
    );
}

/// Records that a capture of two boards cannot have.
const OUT_OF_RANGE: &str =
    "2.0.0.- | 3.0.0.- | 16.0.0.- | 255.0.0.- | 256.0.0.- | 257.1.0.AA | 1000.0.0.- | 65280.0.0.- |
    65535.0.0.- | 0.2.0.- | 1.3.0.AA | 0.128.0.- | 0.254.0.- | 0.255.0.- | 256.255.4294967295.-";

fn write_fields(edges: &mut Edges) {
    edges.rule("Writer: 53 for each field, at any place of the list");
    for bad in entries(OUT_OF_RANGE) {
        for records in [
            bad.to_string(),
            format!("{bad} 0.0.0.-"),
            format!("0.0.0.- 1.1.1.AABB {bad}"),
        ] {
            let line = format!("capwrite 500 {A},{B} {records}");
            edges.line(line, "refused 53");
        }
    }
}

fn write_room(edges: &mut Edges) {
    edges.rule("Writer: 54 up to one byte too few; the rest of a longer buffer stays");
    let capture = format!("{ONE_BOARD} {}", record(1, "AA BB"));
    for room in [
        0, 1, 3, 6, 7, 23, 32, 33, 34, 35, 100, 65_536, 1_048_575, 1_048_576,
    ] {
        let answer = match room {
            0..=33 => "refused 54".to_string(),
            _ => written(&capture),
        };
        edges.line(format!("capwrite {room} {A} 0.1.0.AABB"), answer);
    }
    edges.rule("Writer: the most boards and the longest packet, exactly enough and one byte less");
    let (ids, packet) = ("30".repeat(16_000), "AA".repeat(256));
    let capture = format!("VLG #1000 {ids} #999 00 00 00 00 00 00 01 {packet}");
    let records = format!("999.0.0.{packet}");
    edges.line(format!("capwrite 16272 {ids} {records}"), written(&capture));
    edges.line(format!("capwrite 16271 {ids} {records}"), "refused 54");
}
