//! What the reading of a capture meets.

use std::collections::BTreeSet;

use super::{Written, also, boards_of, index_causes, of_each_version};
use crate::capture::{self, Captured, Reading, START, Version};
use crate::packet::{ID_SIZE, LONGEST};
use crate::refusal::Refusal;
use crate::summary;

/// What a refused mark or version meets.
const STARTS: [&str; 12] = [
    "refused 50: cut after 0 bytes",
    "refused 50: cut after 1 bytes",
    "refused 50: cut after 2 bytes",
    "refused 50: another mark",
    "refused 51: cut after 3 bytes",
    "refused 51: cut after 4 bytes",
    "refused 51: version 0",
    "refused 51: version 3",
    "refused 51: version 256",
    "refused 51: version 257",
    "refused 51: version 512",
    "refused 51: version 513",
];

/// What a reading of either version meets.
const READINGS: [&str; 30] = [
    "accepted",
    "accepted: no record",
    "accepted: 1 board",
    "accepted: 2 boards",
    "accepted: 15 boards",
    "accepted: 16 boards",
    "accepted: equal IDs",
    "refused 52: cut after 5 bytes",
    "refused 52: 0 boards",
    "refused 52: IDs cut short",
    "refused 52: IDs cut short by one byte",
    "refused 53: no record before",
    "refused 53: records before",
    "refused 53: index at the board count",
    "refused 53: index 255",
    "refused 53: direction 2",
    "refused 53: direction 255",
    "refused 53: length 257",
    "refused 53: length 257, bytes enough",
    "refused 53: length 65535",
    "refused 53: length in range with its bytes swapped",
    "refused 53: packet cut short",
    "refused 53: packet cut short by one byte",
    "refused 53: cut after 1 bytes of a record",
    "refused 53: cut after 2 bytes of a record",
    "refused 53: cut after 3 bytes of a record",
    "refused 53: cut after 4 bytes of a record",
    "refused 53: cut after 5 bytes of a record",
    "refused 53: cut after 6 bytes of a record",
    "refused 53: cut after 7 bytes of a record",
];

/// What a reading of version 1 alone meets.
const READINGS_OF_ONE: [&str; 2] = ["refused 52: 17 boards", "refused 52: 255 boards"];

/// What a reading of version 2 alone meets.
const READINGS_OF_TWO: [&str; 14] = [
    "accepted: 17 boards",
    "accepted: 255 boards",
    "accepted: 256 boards",
    "accepted: 257 boards",
    "accepted: 999 boards",
    "accepted: 1000 boards",
    "accepted: what capwrite wrote",
    "accepted: what rewrite wrote",
    "refused 52: cut after 6 bytes",
    "refused 52: 1001 boards",
    "refused 52: 65535 boards",
    "refused 53: index 65535",
    "refused 53: index over 255, low byte in range",
    "refused 53: cut after 8 bytes of a record",
];

/// What the records of a reading meet.
pub const RECORDS: [&str; 22] = [
    "index 0",
    "index 15",
    "index 255",
    "index 256",
    "index 999",
    "direction 0",
    "direction 1",
    "counter 0",
    "counter 1",
    "counter 255",
    "counter 256",
    "counter 65536",
    "counter 2147483648",
    "counter 4294967295",
    "length 0",
    "length 1",
    "length 23",
    "length 24",
    "length 255",
    "length 256",
    "more than 255 records",
    "a damaged packet",
];

/// What `capread` and `summary` have to meet.
pub fn expected() -> Vec<String> {
    let of_each_version = of_each_version(&READINGS, &READINGS_OF_ONE, &READINGS_OF_TWO);
    let others = STARTS.iter().chain(&RECORDS).map(|name| name.to_string());
    others.chain(of_each_version).collect()
}

pub fn met(line: &str, capture: &[u8], written: &Written) -> BTreeSet<String> {
    let reading = capture::read(capture);
    let mut names: BTreeSet<String> = reading.records.iter().flat_map(record).collect();
    if reading.records.len() > 255 {
        names.insert("more than 255 records".to_string());
    }
    let outcomes = match reading.refusal {
        None => accepted(line, &reading, written),
        Some(refusal) => {
            let number = refusal.number();
            let causes = causes(capture, &reading, refusal).into_iter();
            causes
                .map(|cause| format!("refused {number}: {cause}"))
                .collect()
        }
    };
    let version = match reading.version {
        Some(version) => format!("version {} ", version.number()),
        None => String::new(),
    };
    names.extend(outcomes.iter().map(|outcome| format!("{version}{outcome}")));
    names
}

/// What a record of an accepted part meets.
fn record(record: &Captured) -> Vec<String> {
    let mut names = vec![
        format!("index {}", record.index),
        format!("direction {}", record.direction),
        format!("counter {}", record.counter),
        format!("length {}", record.packet.len()),
    ];
    if summary::judge(record) != 0 {
        names.push("a damaged packet".to_string());
    }
    names
}

fn accepted(line: &str, reading: &Reading, written: &Written) -> Vec<String> {
    let boards = reading.ids.len();
    let distinct: BTreeSet<_> = reading.ids.iter().collect();
    let boards_of = boards_of(boards);
    let names = also([
        (true, &boards_of[..]),
        (distinct.len() < boards, "equal IDs"),
        (reading.records.is_empty(), "no record"),
    ]);
    let names = names.chain(written.writer(line));
    let names = names.map(|name| format!("accepted: {name}"));
    names.chain(["accepted".to_string()]).collect()
}

/// Why a reading is refused, all causes that hold.
pub fn causes(capture: &[u8], reading: &Reading, refusal: Refusal) -> Vec<String> {
    let cut = vec![format!("cut after {} bytes", capture.len())];
    let Some(version) = reading.version else {
        return match (refusal, capture) {
            (Refusal::CaptureMark, [_, _, _, ..]) => vec!["another mark".to_string()],
            (Refusal::CaptureVersion, [_, _, _, low, high, ..]) => {
                let version = u16::from_le_bytes([*low, *high]);
                vec![format!("version {version}")]
            }
            _ => cut,
        };
    };
    match refusal {
        Refusal::CaptureBoards => board_causes(version, &capture[START..]).unwrap_or(cut),
        _ => {
            let records = &reading.records;
            let sizes = records
                .iter()
                .map(|record| version.record_head() + record.packet.len());
            let start = version.ids_start() + ID_SIZE * reading.ids.len() + sizes.sum::<usize>();
            let mut causes = record_causes(version, reading.ids.len(), &capture[start..]);
            let before = if records.is_empty() {
                "no record"
            } else {
                "records"
            };
            causes.push(format!("{before} before"));
            causes
        }
    }
}

/// A board count or index, low byte first.
fn number(bytes: &[u8]) -> u16 {
    let high = bytes.get(1).copied().unwrap_or(0);
    u16::from_le_bytes([bytes[0], high])
}

/// Why boards are refused that begin with these bytes; none if the count is cut short.
fn board_causes(version: Version, bytes: &[u8]) -> Option<Vec<String>> {
    let (count, ids) = bytes.split_at_checked(version.index_size())?;
    let count = usize::from(number(count));
    Some(match (1..=version.most_boards()).contains(&count) {
        true => cut_short("IDs", ID_SIZE * count - ids.len()),
        false => vec![boards_of(count)],
    })
}

fn cut_short(part: &str, missing: usize) -> Vec<String> {
    let mut causes = vec![format!("{part} cut short")];
    if missing == 1 {
        causes.push(format!("{part} cut short by one byte"));
    }
    causes
}

/// Why a record is refused that begins with these bytes.
fn record_causes(version: Version, boards: usize, bytes: &[u8]) -> Vec<String> {
    let (index, rest) = bytes.split_at(version.index_size().min(bytes.len()));
    let [direction, _, _, _, _, low, high, packet @ ..] = rest else {
        return vec![format!("cut after {} bytes of a record", bytes.len())];
    };
    let mut causes: Vec<String> = index_causes(boards, number(index)).into_iter().collect();
    if *direction > capture::RESPONSE {
        causes.push(format!("direction {direction}"));
    }
    let length = u16::from_le_bytes([*low, *high]);
    causes.extend(length_causes(length, packet.len()));
    if causes.is_empty() {
        return cut_short("packet", usize::from(length) - packet.len());
    }
    causes
}

/// What is to be said of a length that is outside its range, with so many bytes behind it.
fn length_causes(length: u16, behind: usize) -> Vec<String> {
    let is_wrong = |length: u16| usize::from(length) > LONGEST;
    if !is_wrong(length) {
        return Vec::new();
    }
    let (plain, enough) = (
        format!("length {length}"),
        format!("length {length}, bytes enough"),
    );
    also([
        (true, &plain[..]),
        (behind >= usize::from(length), &enough),
        (
            !is_wrong(length.swap_bytes()),
            "length in range with its bytes swapped",
        ),
    ])
    .collect()
}
