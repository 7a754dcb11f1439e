//! What the writing of a capture meets.

use std::collections::BTreeSet;

use super::{also, boards_of, index_causes, room_left, room_missing};
use crate::capture::{self, Captured, Version};
use crate::packet::{ID_SIZE, LONGEST};

pub const WRITES: [&str; 38] = [
    "written",
    "written: no record",
    "written: 1 board",
    "written: 16 boards",
    "written: 17 boards",
    "written: 255 boards",
    "written: 256 boards",
    "written: 257 boards",
    "written: 999 boards",
    "written: 1000 boards",
    "written: the buffer's whole length",
    "written: one byte of the buffer left",
    "written: more of the buffer left",
    "written: IDs in other parts",
    "written: more than 255 records",
    "written: an index over 255",
    "written: a packet of 0 bytes",
    "written: a packet of 256 bytes",
    "refused 52: no board",
    "refused 52: 1001 boards",
    "refused 52: more boards",
    "refused 52: no multiple of 16",
    "refused 52: also 53",
    "refused 52: also 54",
    "refused 53: index at the board count",
    "refused 53: index 255",
    "refused 53: index 65535",
    "refused 53: index over 255, low byte in range",
    "refused 53: direction 2",
    "refused 53: direction 255",
    "refused 53: packet of 257 bytes",
    "refused 53: packet of 512 bytes",
    "refused 53: only the last record",
    "refused 53: not the last record",
    "refused 53: also 54",
    "refused 54: one byte too short",
    "refused 54: more bytes too short",
    "refused 54: no byte",
];

pub fn met(room: usize, ids: &[Vec<u8>], records: &[Captured], answer: &str) -> BTreeSet<String> {
    let given = ids.concat();
    let boards = given.len() / ID_SIZE;
    let size = capture::compose(Version::WRITTEN, &given, records).len();
    let bad: Vec<Vec<String>> = records
        .iter()
        .map(|record| written_causes(boards, record))
        .collect();
    let is_bad = bad.iter().any(|causes| !causes.is_empty());
    let (head, causes) = match answer {
        "refused 52" => (answer, id_causes(&given, is_bad, size > room)),
        "refused 53" => (answer, bad_record_causes(bad, size > room)),
        "refused 54" => (answer, vec![room_missing(size - room, room)]),
        _ => ("written", written(room - size, ids, records)),
    };
    let causes = causes.iter().map(|cause| format!("{head}: {cause}"));
    causes.chain([head.to_string()]).collect()
}

fn id_causes(given: &[u8], also_53: bool, also_54: bool) -> Vec<String> {
    let cause = match given.len() / ID_SIZE {
        _ if !given.len().is_multiple_of(ID_SIZE) => "no multiple of 16",
        0 => "no board",
        1_001 => "1001 boards",
        _ => "more boards",
    };
    also([(also_53, "also 53"), (also_54, "also 54")])
        .chain([cause.to_string()])
        .collect()
}

fn bad_record_causes(bad: Vec<Vec<String>>, also_54: bool) -> Vec<String> {
    let first = bad.iter().position(|causes| !causes.is_empty());
    let last = first.map(|first| first + 1) == Some(bad.len());
    also([
        (last, "only the last record"),
        (!last, "not the last record"),
        (also_54, "also 54"),
    ])
    .chain(bad.concat())
    .collect()
}

/// Why the writer refuses a record; none if it does not.
fn written_causes(boards: usize, record: &Captured) -> Vec<String> {
    let mut causes: Vec<String> = index_causes(boards, record.index).into_iter().collect();
    if record.direction > capture::RESPONSE {
        causes.push(format!("direction {}", record.direction));
    }
    if record.packet.len() > LONGEST {
        causes.push(format!("packet of {} bytes", record.packet.len()));
    }
    causes
}

fn written(left: usize, ids: &[Vec<u8>], records: &[Captured]) -> Vec<String> {
    let of_length = |length: usize| records.iter().any(|record| record.packet.len() == length);
    let boards = ids.concat().len() / ID_SIZE;
    also([
        (true, &room_left(left)[..]),
        (true, &boards_of(boards)),
        (records.is_empty(), "no record"),
        (records.len() > 255, "more than 255 records"),
        (
            records.iter().any(|record| record.index > 255),
            "an index over 255",
        ),
        (
            ids.iter().any(|id| id.len() != ID_SIZE),
            "IDs in other parts",
        ),
        (of_length(0), "a packet of 0 bytes"),
        (of_length(LONGEST), "a packet of 256 bytes"),
    ])
    .collect()
}
