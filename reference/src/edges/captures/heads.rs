//! Heads: mark, version, board count and IDs.

use super::{A, B, FORMS, Form, Given, ONE, TWO, refuse_head, take};
use crate::edges::{Edges, bytes};

pub fn add(edges: &mut Edges) {
    refused(edges);
    cut_heads(edges);
    other_version(edges);
    for form in FORMS {
        board_counts(edges, form);
        refused_counts(edges, form);
    }
    indices(edges);
}

/// Heads that are refused whatever follows them, with the version and the number.
const REFUSED: [(&str, u16, u8); 37] = [
    ("56 4C 48", 0, 50),
    ("76 4C 47 01 00 01", 0, 50),
    ("76 4C 47 02 00 01 00", 0, 50),
    ("47 4C 56 01 00 01", 0, 50),
    ("47 4C 56 02 00 01 00", 0, 50),
    ("56 4C 67 03 00 11", 0, 50),
    ("56 4C 67 01 00 11", 0, 50),
    ("D6 4C 47 01 00 01", 0, 50),
    ("00 56 4C 47 01 00 01", 0, 50),
    ("56 4C 47 00 00 01", 0, 51),
    ("56 4C 47 00 00 01 00", 0, 51),
    ("56 4C 47 03 00 01", 0, 51),
    ("56 4C 47 03 00 01 00", 0, 51),
    ("56 4C 47 04 00 01 00 00 00", 0, 51),
    ("56 4C 47 00 01 01", 0, 51),
    ("56 4C 47 01 01 01", 0, 51),
    ("56 4C 47 02 01 01", 0, 51),
    ("56 4C 47 00 02 01 00", 0, 51),
    ("56 4C 47 01 02 01", 0, 51),
    ("56 4C 47 02 02 01 00", 0, 51),
    ("56 4C 47 03 00 11", 0, 51),
    ("56 4C 47 03 00 E9 03", 0, 51),
    ("56 4C 47 01 80 00", 0, 51),
    ("56 4C 47 02 80 00", 0, 51),
    ("56 4C 47 81 00 01", 0, 51),
    ("56 4C 47 82 00 01", 0, 51),
    ("56 4C 47 FF FF 01", 0, 51),
    ("56 4C 47 01 00 00", 1, 52),
    ("56 4C 47 01 00 11", 1, 52),
    ("56 4C 47 02 00 00 00", 2, 52),
    ("56 4C 47 02 00 E9 03", 2, 52),
    ("56 4C 47 02 00 03 E8", 2, 52),
    ("56 4C 47 02 00 00 04", 2, 52),
    ("56 4C 47 02 00 01 80", 2, 52),
    ("56 4C 47 02 00 FF FF", 2, 52),
    // 256 boards, and 16 at most of their 4,096 ID bytes.
    ("56 4C 47 02 00 00 01", 2, 52),
    // Bytes of an ID make the count one of 12,289 boards.
    ("56 4C 47 02 00 01", 2, 52),
];

fn refused(edges: &mut Edges) {
    edges.rule("50 before 51 before 52: mark, version, board count; what follows does not matter");
    for (head, version, number) in REFUSED {
        for rest in [String::new(), format!("{A} 01 02 00 00 00 00 00 00")] {
            let capture = bytes(&format!("{head} {rest}"));
            refuse_head(edges, &capture, version, number);
        }
    }
}

fn cut_heads(edges: &mut Edges) {
    edges.rule("A mark that is wrong and cut short is 50 too, and a version likewise 51");
    for (capture, number) in [
        ("00", 50),
        ("56 4D", 50),
        ("56 4C 47", 51),
        ("56 4C 47 00", 51),
        ("56 4C 47 01", 51),
        ("56 4C 47 02", 51),
        ("56 4C 47 03", 51),
    ] {
        refuse_head(edges, &bytes(capture), 0, number);
    }
    edges.rule("A board count without its bytes is 52: its one byte, its low or its high byte");
    for (capture, version) in [
        ("56 4C 47 01 00", 1),
        ("56 4C 47 02 00", 2),
        ("56 4C 47 02 00 00", 2),
        ("56 4C 47 02 00 10", 2),
        ("56 4C 47 02 00 11", 2),
        ("56 4C 47 02 00 E8", 2),
        ("56 4C 47 02 00 FF", 2),
    ] {
        refuse_head(edges, &bytes(capture), version, 52);
    }
}

fn other_version(edges: &mut Edges) {
    edges.rule("The same bytes but for the version: a board of zero ID, and zeros that make records of 8 bytes or of 9");
    for (form, records, left) in [(ONE, 3, 0), (TWO, 2, 5), (ONE, 3, 4), (TWO, 3, 0)] {
        let empty = " #0 00 00 00 00 00 00 00";
        let given = Given {
            capture: &format!("VLG #1 {B}{}", empty.repeat(records)),
            shown: &format!(" id:{B}{}", " rec:0.0.0.-".repeat(records)),
            lines: &format!("0,2,{records}"),
        };
        take(edges, form, &given, &"00".repeat(left));
    }
}

/// The board counts that a capture may have, and those that it may not.
fn counts(form: Form) -> (&'static [usize], &'static [usize]) {
    match form.version {
        1 => (&[1, 2, 15, 16], &[0, 17, 18, 32, 128, 255]),
        _ => (
            &[1, 2, 15, 16, 17, 255, 256, 257, 999, 1_000],
            &[0, 1_001, 1_024, 4_096, 32_768, 65_535],
        ),
    }
}

/// IDs of so many boards, each another.
fn ids_of(boards: usize) -> Vec<String> {
    (1..=boards).map(|board| format!("{board:032X}")).collect()
}

fn board_counts(edges: &mut Edges, form: Form) {
    for boards in counts(form).0 {
        edges.rule(
            "1 to 16 boards in version 1, to 1,000 in version 2; the last index is one below",
        );
        let (last, ids) = (boards - 1, ids_of(*boards));
        let capture = &format!("VLG #{boards} {}", ids.join(" "));
        let shown = &format!(" id:{}", ids.join(" id:"));
        let head = Given {
            capture,
            shown,
            lines: "",
        };
        take(edges, form, &head, "");
        let past = format!("#{boards} 00 00 00 00 00 00 00");
        take(edges, form, &head, &past);
        let with_last = Given {
            capture: &format!("{capture} #{last} 00 00 00 00 00 00 00"),
            shown: &format!("{shown} rec:{last}.0.0.-"),
            lines: &format!("{last},2,1"),
        };
        take(edges, form, &with_last, "");
        edges.rule("One ID byte less is 52");
        let head = form.bytes(capture);
        refuse_head(edges, &head[..head.len() - 1], form.version, 52);
    }
}

fn refused_counts(edges: &mut Edges, form: Form) {
    edges.rule("52: no board, or more than the version has, whatever follows");
    for boards in counts(form).1 {
        // A line has no place for the IDs of many more.
        for given in [0, 16, *boards.min(&1_001)] {
            let capture = format!("VLG #{boards} {}", ids_of(given).concat());
            refuse_head(edges, &form.bytes(&capture), form.version, 52);
        }
    }
}

/// Indices of captures of so many boards: some that they have, ascending, and some that they do not.
const INDICES: [(usize, &[usize], &[usize]); 2] = [
    (257, &[0, 1, 255, 256], &[258, 512, 65_280, 65_535]),
    // The last one has the bytes of 999 the other way round.
    (
        1_000,
        &[3, 99, 100, 232, 255, 256, 768, 999],
        &[65_535, 59_139],
    ),
];

fn indices(edges: &mut Edges) {
    edges.rule("Indices of two bytes, low byte first; 53 at the board count and above");
    for (boards, good, bad) in INDICES {
        let ids = ids_of(boards);
        let mut capture = format!("VLG #{boards} {}", ids.join(" "));
        let mut shown = format!(" id:{}", ids.join(" id:"));
        for index in good.iter().rev() {
            capture += &format!(" #{index} 01 00 00 00 00 00 00");
            shown += &format!(" rec:{index}.1.0.-");
        }
        let lines: Vec<String> = good.iter().map(|index| format!("{index},2,1")).collect();
        let given = Given {
            capture: &capture,
            shown: &shown,
            lines: &lines.join("|"),
        };
        take(edges, TWO, &given, "");
        for index in bad {
            let behind = format!("#{index} 01 00 00 00 00 00 00");
            take(edges, TWO, &given, &behind);
        }
    }
}
