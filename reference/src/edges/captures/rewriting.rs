//! The room that rewriting needs, and the order of its refusals.

use super::{FORMS, Form, ONE, ONE_BOARD, TWO, record, written};
use crate::edges::{Edges, bytes};
use crate::hex;

pub fn add(edges: &mut Edges) {
    for form in FORMS {
        rooms(edges, form);
    }
    head_before_room(edges);
    most_boards(edges);
}

fn rewrite(edges: &mut Edges, form: Form, room: usize, capture: &str, answer: &str) {
    let field = hex::field(&form.bytes(capture));
    edges.line(format!("rewrite {room} {field}"), answer);
}

/// Bytes behind a capture of board A that are refused with 53.
const FAULTS: [&str; 5] = [
    "00",
    "#1 00 00 00 00 00 00 00",
    "#0 02 00 00 00 00 00 00 #0 00 00 00 00 00 00 00",
    "#0 00 00 00 00 00 01 01",
    "#0 00 00 00 00 00 02 00 AA",
];

fn rooms(edges: &mut Edges, form: Form) {
    edges.rule(
        "Rewriting: 54 up to one byte less than version 2 needs; the rest of a longer buffer stays",
    );
    let with_record = format!("{ONE_BOARD} {}", record(1, "AA BB"));
    for (capture, size) in [(ONE_BOARD, 23), (&with_record[..], 34)] {
        for room in [0, 1, 5, 22, 23, 32, 33, 34, 35, 100, 65_536, 1_048_576] {
            let answer = match room < size {
                true => "refused 54".to_string(),
                false => written(capture),
            };
            rewrite(edges, form, room, capture, &answer);
        }
        edges.rule(
            "Rewriting: a capture is rewritten up to 53, which is told beside; 54 comes before",
        );
        for fault in FAULTS {
            let faulty = format!("{capture} {fault}");
            let beside = format!("{} refused 53", written(capture));
            rewrite(edges, form, size, &faulty, &beside);
            rewrite(edges, form, size + 1, &faulty, &beside);
            rewrite(edges, form, size - 1, &faulty, "refused 54");
            rewrite(edges, form, 0, &faulty, "refused 54");
        }
    }
}

/// Heads that are refused, with what stands behind them.
const HEADS: [(&str, u8); 8] = [
    ("", 50),
    ("56 4C 48 02 00 00 00", 50),
    ("56 4C 47 03 00 00 00", 51),
    ("56 4C 47 02", 51),
    ("56 4C 47 01 00 11 00", 52),
    ("56 4C 47 01 00 01 00", 52),
    ("56 4C 47 02 00 E9 03 00", 52),
    ("56 4C 47 02 00 01 00 00", 52),
];

fn head_before_room(edges: &mut Edges) {
    edges.rule("Rewriting: 50, 51 and 52 before 54");
    for (head, number) in HEADS {
        for room in [0, 22, 23, 1_048_576] {
            let field = hex::field(&bytes(head));
            edges.line(
                format!("rewrite {room} {field}"),
                format!("refused {number}"),
            );
        }
    }
}

fn most_boards(edges: &mut Edges) {
    edges.rule("Rewriting: the most boards of each version and the longest packet, exactly enough and one byte less");
    let packet = "AA".repeat(256);
    for (form, boards, size) in [(ONE, 16, 528), (TWO, 16, 528), (TWO, 1_000, 16_272)] {
        let (last, ids) = (boards - 1, "30".repeat(16 * boards));
        let capture = format!("VLG #{boards} {ids} #{last} 00 00 00 00 00 00 01 {packet}");
        rewrite(edges, form, size, &capture, &written(&capture));
        rewrite(edges, form, size - 1, &capture, "refused 54");
    }
}
