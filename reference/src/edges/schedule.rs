//! The weekly schedule, 0077: reads, writes of days and groups, faults, pokes and refusal 70.

use super::senders::send;
use super::{Edges, ID, PASSWORD, ZERO_ID, blocks, entries, framed, record, records, tool};
use crate::hex;
use crate::packet::CODE_WORD;

pub fn add(edges: &mut Edges) {
    start(edges);
    single_days(edges);
    for function in [2, 3] {
        for (day, days) in GROUPS {
            group(edges, function, day, days);
        }
    }
    field_bytes(edges);
    bad_fields(edges);
    bad_reads(edges);
    bad_writes(edges);
    every_write(edges);
    order_of_faults(edges);
    raise_and_lower(edges);
    several_commands(edges);
    pages(edges);
    senders(edges);
    searches(edges);
    response_length(edges);
    measurements(edges);
    pokes(edges);
    illegal_entries(edges);
    bad_places(edges);
    tool_calls(edges);
    setups(edges);
}

/// A written day and the days that it stands for.
const GROUPS: [(u8, &[u8]); 3] = [
    (0, &[1, 2, 3, 4, 5, 6, 7]),
    (8, &[1, 2, 3, 4, 5]),
    (9, &[6, 7]),
];

/// Days and periods, in the order of the record.
fn places() -> impl Iterator<Item = (u8, u8)> {
    (1..=7).flat_map(|day| (1..=4).map(move |period| (day, period)))
}

/// The read of an entry.
fn read(day: u8, period: u8) -> String {
    format!("FE 02 77 {day:02X} {period:02X}")
}

/// The write, or the report, of an entry.
fn entry(day: u8, period: u8, fields: &str) -> String {
    format!("FE 06 77 {day:02X} {period:02X} {fields}")
}

/// Another legal entry for each place.
fn filling(day: u8, period: u8) -> String {
    let (temperature, minute, hour) = (0x0E + day + period, 10 * period + day, 3 * day);
    format!("{period:02X}{temperature:02X}{minute:02X}{hour:02X}")
}

/// Sets a board up and puts its filling in each place.
fn set_up_filled(edges: &mut Edges) {
    edges.set_up(&ID, PASSWORD, 1);
    for (day, period) in places() {
        let value = filling(day, period);
        edges.line(format!("poke 0077:{day}.{period} {value}"), "poked");
    }
}

/// The record of a filled board, but for the days that hold another entry at some period.
fn filled_record(edges: &mut Edges, days: &[u8], written: u8, fields: &str) {
    let shown = |(day, period)| {
        let value = match days.contains(&day) && period == written {
            true => fields.to_string(),
            false => filling(day, period),
        };
        (format!("0077:{day}.{period}"), value)
    };
    let shown: Vec<(String, String)> = places().map(shown).collect();
    let changes: Vec<(&str, &str)> = shown
        .iter()
        .map(|(place, value)| (place.as_str(), value.as_str()))
        .collect();
    edges.record(1, &changes);
}

/// The record of a board as it was filled.
fn unchanged(edges: &mut Edges) {
    filled_record(edges, &[], 0, "");
}

fn start(edges: &mut Edges) {
    edges.set_up(&ID, PASSWORD, 1);
    edges.rule("0077: each of the 28 entries starts at its lowest values and is read by itself");
    for (day, period) in places() {
        let zero = entry(day, period, "00 00 00 00");
        edges.expect(1, &read(day, period), &zero);
    }
    set_up_filled(edges);
    unchanged(edges);
    for (day, period) in places() {
        let held = entry(day, period, &filling(day, period));
        edges.expect(1, &read(day, period), &held);
    }
    unchanged(edges);
}

fn single_days(edges: &mut Edges) {
    edges.rule("0077: a write of one day changes its own entry; 02 is silent, 03 reports it");
    for (day, period) in places() {
        set_up_filled(edges);
        let silent = entry(day, period, "05 1E 3B 17");
        edges.ask(2, &silent, "silence");
        filled_record(edges, &[day], period, "051E3B17");
        edges.expect(1, &read(day, period), &silent);
        let reported = entry(day, period, "00 00 00 00");
        edges.expect(3, &reported, &reported);
        filled_record(edges, &[day], period, "00000000");
    }
}

fn group(edges: &mut Edges, function: u8, day: u8, days: &[u8]) {
    edges.rule(&format!(
        "0077: a write of day {day} under 0{function}, read back on every day"
    ));
    for period in 1..=4 {
        set_up_filled(edges);
        let data = entry(day, period, "04 0F 2D 16");
        match function {
            2 => edges.ask(2, &data, "silence"),
            _ => edges.expect(function, &data, &entry(days[0], period, "04 0F 2D 16")),
        }
        filled_record(edges, days, period, "040F2D16");
        for (read_day, read_period) in places() {
            let held = match days.contains(&read_day) && read_period == period {
                true => "04 0F 2D 16".to_string(),
                false => filling(read_day, read_period),
            };
            let report = entry(read_day, read_period, &held);
            edges.expect(1, &read(read_day, read_period), &report);
        }
    }
}

/// The fields of an entry with the legal values of each.
fn fields() -> [Vec<u8>; 4] {
    [
        (0..=5).collect(),
        [vec![0], (15..=30).collect()].concat(),
        (0..=59).collect(),
        (0..=23).collect(),
    ]
}

fn field_bytes(edges: &mut Edges) {
    for (place, legal) in fields().into_iter().enumerate() {
        edges.rule(&format!(
            "0077: all 256 bytes in field {} of a write of day 9 under 03",
            place + 1
        ));
        edges.set_up(&ID, PASSWORD, 1);
        let mut held = [0; 4];
        let written: Vec<u8> = (0..=255).collect();
        for part in written.chunks(25) {
            let (mut data, mut reports) = (String::new(), String::new());
            for byte in part {
                let mut value = [5, 30, 59, 23];
                value[place] = *byte;
                if legal.contains(byte) {
                    held = value;
                }
                data += &entry(9, 2, &hex::field(&value));
                reports += &entry(6, 2, &hex::field(&held));
            }
            edges.expect(3, &data, &reports);
        }
        let shown = hex::field(&held);
        edges.record(1, &[("0077:6.2", &shown), ("0077:7.2", &shown)]);
    }
}

/// Entries with one field just outside its range, or far from it, or with several.
const BAD_FIELDS: &str = "06 0F 00 00 | FF 0F 00 00 | 00 01 00 00 | 00 0E 00 00 | 00 1F 00 00 |
    00 FF 00 00 | 00 0F 3C 00 | 00 0F FF 00 | 00 0F 00 18 | 00 0F 00 3B | 00 0F 00 FF |
    06 0E 3C 18 | 00 06 00 00 | 80 0F 00 00 | FF FF FF FF";

/// Entries at the bounds of every field.
const GOOD_FIELDS: &str = "00 00 00 00 | 05 00 00 00 | 00 0F 00 00 | 00 1E 00 00 | 00 00 3B 00 |
    00 00 00 17 | 05 1E 3B 17";

fn bad_fields(edges: &mut Edges) {
    edges.rule("0077: a bad field stores nothing on any day; 03 reports the entry held");
    let days = [(0, 1), (8, 1), (9, 6), (1, 1), (4, 4), (7, 7)];
    set_up_filled(edges);
    for fields in entries(BAD_FIELDS) {
        for (day, first) in days {
            let data = entry(day, 3, fields);
            edges.expect(3, &data, &entry(first, 3, &filling(first, 3)));
            edges.ask(2, &data, "silence");
        }
        unchanged(edges);
    }
    edges.rule("0077: the bounds themselves are stored");
    for fields in entries(GOOD_FIELDS) {
        for (day, first) in days {
            let data = entry(day, 1, fields);
            edges.expect(3, &data, &entry(first, 1, fields));
        }
        let reads: String = (1..=7).map(|day| read(day, 1)).collect();
        let reports: String = (1..=7).map(|day| entry(day, 1, fields)).collect();
        edges.expect(1, &reads, &reports);
    }
    edges.rule("0077: periods need not be in the order of time");
    edges.expect(
        3,
        "FE 06 77 02 01 01 00 00 17 FE 06 77 02 02 01 00 00 01",
        "FE 06 77 02 01 01 00 00 17 FE 06 77 02 02 01 00 00 01",
    );
}

/// Reads of another length.
const BAD_READS: &str = "77 | FE 01 77 01 | FE 03 77 01 01 00 | FE 03 77 01 01 01 |
    FE 04 77 01 01 00 00 | FE 06 77 01 01 00 00 00 00 | FE 06 77 01 01 05 0F 00 00 |
    FE 01 77 00 | FE 08 77 01 01 01 01 01 01 01 01";

/// Asks under a function with every byte at a place of the value; `known` gives the report, if there is one.
fn every_byte(
    edges: &mut Edges,
    function: u8,
    command: impl Fn(u8) -> String,
    known: impl Fn(u8) -> Option<String>,
) {
    let sent: Vec<u8> = (0..=255).collect();
    for part in sent.chunks(25) {
        let data: String = part.iter().map(|byte| command(*byte)).collect();
        let report = |byte: &u8| known(*byte).unwrap_or("FD 77".to_string());
        let reports: String = part.iter().map(report).collect();
        edges.expect(function, &data, &reports);
    }
}

fn bad_reads(edges: &mut Edges) {
    set_up_filled(edges);
    edges.rule("0077: a read without a value or of another length is FD");
    for data in entries(BAD_READS) {
        edges.expect(1, data, "FD 77");
    }
    edges.rule("0077: a read of every day and of every period; FD outside 1 to 7 and 1 to 4");
    every_byte(
        edges,
        1,
        |day| read(day, 2),
        |day| {
            let known = (1..=7).contains(&day);
            known.then(|| entry(day, 2, &filling(day, 2)))
        },
    );
    every_byte(
        edges,
        1,
        |period| read(6, period),
        |period| {
            let known = (1..=4).contains(&period);
            known.then(|| entry(6, period, &filling(6, period)))
        },
    );
    edges.rule("0077: one read each of the days and periods next to the bounds");
    for day in [0, 8, 9, 10, 255] {
        edges.expect(1, &read(day, 1), "FD 77");
        edges.expect(1, &read(day, 5), "FD 77");
    }
    for period in [0, 5, 255] {
        edges.expect(1, &read(1, period), "FD 77");
        edges.expect(1, &read(7, period), "FD 77");
    }
    unchanged(edges);
}

/// Writes of another length.
const BAD_LENGTHS: &str = "77 01 | FE 01 77 01 | FE 02 77 01 01 | FE 03 77 01 01 05 |
    FE 04 77 05 0F 00 00 | FE 05 77 01 01 05 0F 00 | FE 07 77 01 01 05 0F 00 00 00 |
    FE 08 77 01 01 05 0F 00 00 00 00 | FE 0C 77 01 01 05 0F 00 00 02 01 05 0F 00 00";

fn bad_writes(edges: &mut Edges) {
    set_up_filled(edges);
    edges.rule("0077: a write of another length is FD under 03 and silent under 02");
    for data in entries(BAD_LENGTHS) {
        edges.expect(3, data, "FD 77");
        edges.ask(2, data, "silence");
    }
    edges.rule("0077: a write of a day over 9, or of a period outside 1 to 4, likewise");
    for (day, period) in [(10, 1), (255, 4), (0, 0), (0, 5), (8, 0), (8, 5), (9, 255)] {
        let data = entry(day, period, "05 0F 00 00");
        edges.expect(3, &data, "FD 77");
        edges.ask(2, &data, "silence");
    }
    for (day, period) in [(10, 0), (1, 0), (1, 5), (7, 0), (7, 5), (4, 255)] {
        let data = entry(day, period, "05 0F 00 00");
        edges.expect(3, &data, "FD 77");
        edges.ask(2, &data, "silence");
    }
    unchanged(edges);
}

fn every_write(edges: &mut Edges) {
    set_up_filled(edges);
    edges.rule("0077: a write of every day and of every period under 03");
    every_byte(
        edges,
        3,
        |day| entry(day, 2, "05 0F 00 00"),
        |day| match day {
            0 | 8 => Some(entry(1, 2, "05 0F 00 00")),
            1..=7 => Some(entry(day, 2, "05 0F 00 00")),
            9 => Some(entry(6, 2, "05 0F 00 00")),
            _ => None,
        },
    );
    filled_record(edges, &[1, 2, 3, 4, 5, 6, 7], 2, "050F0000");
    set_up_filled(edges);
    every_byte(
        edges,
        3,
        |period| entry(3, period, &filling(3, period % 4 + 1)),
        |period| {
            let known = (1..=4).contains(&period);
            known.then(|| entry(3, period, &filling(3, period % 4 + 1)))
        },
    );
}

/// Several faults at once: 03 reports FD, and nothing is stored.
const FAULTS: &str = "FE 05 77 00 01 06 0E 3C | FE 07 77 00 01 06 0E 3C 18 00 |
    FE 05 77 0A 05 06 0E 3C | FE 07 77 0A 05 00 0F 00 00 00 | FE 06 77 0A 01 06 0F 00 00 |
    FE 06 77 0A 05 06 0E 3C 18 | FE 06 77 FF 01 00 0E 00 00 | FE 06 77 00 05 06 0F 00 00 |
    FE 06 77 09 00 00 00 3C 00 | FE 06 77 08 05 00 00 00 18 | FE 02 77 01 06 | 77 06";

fn order_of_faults(edges: &mut Edges) {
    set_up_filled(edges);
    edges.rule("0077: length, then day and period, then fields, the first that applies");
    for data in entries(FAULTS) {
        edges.expect(3, data, "FD 77");
        edges.ask(2, data, "silence");
    }
    unchanged(edges);
    edges.rule("0077: several bad fields alone report the entry held");
    let held = entry(6, 4, &filling(6, 4));
    edges.expect(3, "FE 06 77 09 04 06 0E 3C 18", &held);
    unchanged(edges);
}

/// Items on 0077 that are well formed under 04 and 05.
const ORDERED: &str = "77 | FE 01 77 01 | FE 02 77 01 01 | FE 02 77 00 01 | FE 02 77 0A 05 |
    FE 06 77 01 01 05 0F 00 00 | FE 06 77 00 01 05 0F 00 00 | FE 06 77 01 01 06 0F 00 00";

fn raise_and_lower(edges: &mut Edges) {
    set_up_filled(edges);
    edges.rule("0077: 04 and 05 are FD with any value and change nothing");
    for function in [4, 5] {
        for data in entries(ORDERED) {
            edges.expect(function, data, "FD 77");
        }
    }
    edges.expect(
        4,
        "FE 02 77 01 01 02 FC 05 FE 06 77 00 01 05 0F 00 00 02",
        "FD 77 02 02 FD 77 02 01",
    );
    unchanged(edges);
}

/// Packets of several commands on 0077, with FUNC and response.
const SEVERAL: [(u8, &str, &str); 8] = [
    (
        3,
        "FE 06 77 00 01 01 0F 01 01 FE 06 77 00 01 02 10 02 02",
        "FE 06 77 01 01 01 0F 01 01 FE 06 77 01 01 02 10 02 02",
    ),
    (
        2,
        "FE 06 77 00 02 01 0F 01 01 FE 06 77 09 02 02 10 02 02 FC 01 FE 02 77 05 02 FE 02 77 06 02",
        "FE 06 77 05 02 01 0F 01 01 FE 06 77 06 02 02 10 02 02",
    ),
    (
        2,
        "FE 06 77 03 02 03 11 03 03 FE 06 77 08 02 04 12 04 04 FC 01 FE 02 77 03 02 FE 02 77 07 02",
        "FE 06 77 03 02 04 12 04 04 FE 06 77 07 02 02 10 02 02",
    ),
    (
        1,
        "FE 02 77 01 03 FC 03 FE 06 77 08 03 05 00 00 00 FC 01 FE 02 77 01 03 FE 02 77 05 03",
        "FE 06 77 01 03 00 00 00 00 FE 06 77 01 03 05 00 00 00 FE 06 77 01 03 05 00 00 00 FE 06 77 05 03 05 00 00 00",
    ),
    (
        3,
        "FE 06 77 00 03 06 00 00 00 FE 06 77 0A 03 05 00 00 00 77 01 FE 06 77 09 03 01 00 00 00",
        "FE 06 77 01 03 05 00 00 00 FD 77 FD 77 FE 06 77 06 03 01 00 00 00",
    ),
    (
        3,
        "FF 04 00 05 FF 00 FE 06 77 04 04 03 1E 00 00 FC 01 FF 04 00 FF 00 FE 02 77 04 04 02",
        "FF 04 00 05 FF 00 FE 06 77 04 04 03 1E 00 00 FF 04 00 05 FF 00 FE 06 77 04 04 03 1E 00 00 02 01",
    ),
    (
        2,
        "FF 00 FC 02 FE 06 77 04 04 02 14 1E 0C FC 03 FF 00 01 01 FC 01 FE 02 77 04 04 77 FC 05 77 02",
        "01 01 FE 06 77 04 04 02 14 1E 0C FD 77 FD 77 02 01",
    ),
    (
        2,
        "FF 01 FE 06 77 04 04 05 1E 3B 17 FC 01 FF 00 FE 02 77 04 04 FF 01 FE 02 77 04 04",
        "FE 06 77 04 04 02 14 1E 0C FF 01 FD 77",
    ),
];

/// What the rows and entries hold after these packets.
const AFTER_SEVERAL: &str = "0001=01 | 0400=05 | 0077:4.4=02141E0C |
    0077:1.1=02100202 | 0077:2.1=02100202 | 0077:3.1=02100202 | 0077:4.1=02100202 |
    0077:5.1=02100202 | 0077:6.1=02100202 | 0077:7.1=02100202 | 0077:1.2=04120404 |
    0077:2.2=04120404 | 0077:3.2=04120404 | 0077:4.2=04120404 | 0077:5.2=04120404 |
    0077:6.2=02100202 | 0077:7.2=02100202 | 0077:1.3=05000000 | 0077:2.3=05000000 |
    0077:3.3=05000000 | 0077:4.3=05000000 | 0077:5.3=05000000 | 0077:6.3=01000000 |
    0077:7.3=01000000";

fn several_commands(edges: &mut Edges) {
    edges.set_up(&ID, PASSWORD, 1);
    edges.rule("0077: several commands in one packet run in order, with FF and FC between them");
    for (function, data, reports) in SEVERAL {
        edges.expect(function, data, reports);
    }
    let changes: Vec<(&str, &str)> = entries(AFTER_SEVERAL)
        .map(|change| change.split_once('=').expect("place and value"))
        .collect();
    edges.record(1, &changes);
}

fn pages(edges: &mut Edges) {
    set_up_filled(edges);
    edges.rule("0077: on every other page 77 is unknown");
    for page in 1..=255 {
        let page = format!("FF {page:02X}");
        let unknown = format!("{page} FD 77");
        edges.expect(1, &format!("{page} FE 02 77 01 01"), &unknown);
        let write = format!("{page} FE 06 77 00 01 05 0F 00 00");
        edges.expect(3, &write, &unknown);
        edges.ask(2, &write, "silence");
    }
    edges.rule("0077: the numbers beside it are unknown");
    for low in ["76", "78"] {
        edges.expect(1, &format!("FE 02 {low} 01 01"), &format!("FD {low}"));
        let write = format!("FE 06 {low} 00 01 05 0F 00 00");
        edges.expect(3, &write, &format!("FD {low}"));
        edges.ask(2, &write, "silence");
    }
    unchanged(edges);
}

fn senders(edges: &mut Edges) {
    set_up_filled(edges);
    edges.rule("0077: a stranger reads and writes nothing; a malformed packet stores nothing");
    let write = "FE 06 77 00 01 05 0F 00 00";
    for function in [2, 3] {
        send(edges, &ID, b"1112", function, write, "refused 8");
        send(edges, &ZERO_ID, PASSWORD, function, write, "refused 7");
        let malformed = format!("{write} FD");
        edges.ask(function, &malformed, "refused 10");
        let cut = "FE 06 77 00 01 05 0F 00";
        edges.ask(function, cut, "refused 10");
        edges.ask(function, &format!("{write} {cut}"), "refused 10");
    }
    send(edges, &ID, b"", 1, "FE 02 77 01 01", "refused 8");
    edges.ask(1, "FE 02 77 01", "refused 10");
    unchanged(edges);
    edges.rule("0077: the code word stands for an access point's own ID");
    edges.set_up(&ID, PASSWORD, 2);
    let response = framed(&ID, PASSWORD, 6, "FE 06 77 06 02 05 0F 00 00");
    let answer = format!("response {response}");
    let write = "FE 06 77 09 02 05 0F 00 00";
    send(edges, &CODE_WORD, PASSWORD, 3, write, &answer);
    edges.record(2, &[("0077:6.2", "050F0000"), ("0077:7.2", "050F0000")]);
    send(edges, &CODE_WORD, b"", 1, "FE 02 77 06 02", "refused 8");
}

fn searches(edges: &mut Edges) {
    set_up_filled(edges);
    edges.rule("0077: passed over in a search, known entry or not; alone it is silence");
    let identity = format!("FE 10 7C {}", hex::field(&ID));
    for password in [&b""[..], PASSWORD, b"1112"] {
        for data in [
            "FE 02 77 01 01",
            "77",
            "FE 02 77 08 01",
            "FE 06 77 00 01 05 0F 00 00",
        ] {
            send(edges, &CODE_WORD, password, 1, data, "silence");
            let mixed = format!("{data} 7C FC 01 {data} FF 00 B9 {data}");
            let response = framed(&ID, password, 6, &format!("{identity} FE 02 B9 02 00"));
            let answer = format!("response {response}");
            send(edges, &CODE_WORD, password, 1, &mixed, &answer);
        }
        let write = "FE 06 77 00 01 05 0F 00 00";
        for function in 2..=5 {
            send(edges, &CODE_WORD, password, function, write, "refused 11");
            let changed = format!("FC {function:02X} {write}");
            send(edges, &CODE_WORD, password, 1, &changed, "refused 11");
        }
    }
    edges.rule("0077: takes no room in the response to a search");
    let data = format!("{} {}", "FE 02 77 01 01".repeat(43), "7C".repeat(12));
    let response = framed(&ID, b"", 6, &identity.repeat(12));
    send(
        edges,
        &CODE_WORD,
        b"",
        1,
        &data,
        &format!("response {response}"),
    );
    unchanged(edges);
}

fn response_length(edges: &mut Edges) {
    edges.rule("0077: responses of 256 bytes and more, with the password of four; 24 entries are 216 bytes");
    edges.set_up(&ID, PASSWORD, 1);
    let reads = "FE 02 77 07 04".repeat(24);
    let reports = "FE 06 77 07 04 00 00 00 00".repeat(24);
    let full = format!("{reports} {}", "02 01".repeat(6));
    edges.expect(1, &format!("{reads} {}", "02".repeat(6)), &full);
    edges.ask(1, &format!("{reads} {}", "02".repeat(7)), "refused 12");
    edges.ask(1, &format!("{reads} FE 02 77 07 04 02 02"), "refused 12");
    edges.rule("0077: 12 keeps nothing of a group write, silent or reported");
    let write = "FE 06 77 00 01 05 0F 00 00";
    let more = format!("{write} FC 01 {reads} {}", "02".repeat(7));
    edges.ask(2, &more, "refused 12");
    let over = format!("{write} FC 01 {reads} 02 02");
    edges.ask(3, &over, "refused 12");
    edges.record(1, &[]);
    edges.rule("0077: a group write has one report");
    let last = "FE 06 77 01 01 05 0F 00 00";
    let data = format!("{write} FC 01 {reads} 02");
    edges.expect(3, &data, &format!("{last} {reports} 02 01"));
    let writes = format!("{} FC 01", write.repeat(24));
    let full = format!("{} {}", last.repeat(24), "02 01".repeat(6));
    edges.expect(3, &format!("{writes} {}", "02".repeat(6)), &full);
    edges.ask(3, &format!("{writes} {}", "02".repeat(7)), "refused 12");
    edges.rule("0077: exactly 256 bytes with 25 entries, beside a password of three");
    edges.set_up(&ID, b"111", 1);
    let reads = "FE 02 77 07 04".repeat(25);
    let reports = "FE 06 77 07 04 00 00 00 00".repeat(25);
    edges.expect(
        1,
        &format!("{reads} 02 77"),
        &format!("{reports} 02 01 FD 77"),
    );
    edges.ask(1, &format!("{reads} 63"), "refused 12");
    edges.ask(1, &format!("{reads} FE 02 77 07 04"), "refused 12");
}

fn measurements(edges: &mut Edges) {
    set_up_filled(edges);
    edges.rule("0077: no measured row, of any length");
    for value in ["-", "01", "0101", "050F0000", "0101050F0000"] {
        edges.line(format!("measure 0077 {value}"), "refused 30");
    }
    unchanged(edges);
    edges.rule("0077: a measurement leaves the entries");
    edges.line("measure 0086 0101050F0000", "accepted");
    edges.line("measure 0086 000000000000", "accepted");
    unchanged(edges);
}

/// Poked values and the entry that the record then shows.
const POKES: &str = "050F3B17 050F3B17 | 05 05000000 | 051E 051E0000 | 051E3B 051E3B00 |
    - 00000000 | 000F000099 000F0000 | 0101050F0000 0101050F | FFFFFFFFFFFF FFFFFFFF";

fn pokes(edges: &mut Edges) {
    edges.rule("Poke of an entry: bytes past the fourth are dropped, missing ones become 0");
    for (day, period) in [(1, 1), (1, 4), (5, 3), (7, 1), (7, 4)] {
        set_up_filled(edges);
        for poke in entries(POKES) {
            let (value, shown) = poke.split_once(' ').expect("value and entry");
            edges.line(format!("poke 0077:{day}.{period} {value}"), "poked");
            filled_record(edges, &[day], period, shown);
        }
    }
    set_up_filled(edges);
    edges.rule("Poke of 0077 without a place changes nothing");
    for value in ["-", "05", "0101050F0000", "FFFFFFFFFFFF"] {
        edges.line(format!("poke 0077 {value}"), "poked");
    }
    unchanged(edges);
}

/// Entries outside their fields, as pokes.
const ILLEGAL: &str = "06000000 | FF000000 | 00010000 | 000E0000 | 001F0000 | 00FF0000 | 00003C00 |
    0000FF00 | 00000018 | 0000003B | 000000FF | 0101050F | FFFFFFFF";

/// Entries at the bounds of their fields.
const LEGAL: &str = "00000000 | 05000000 | 000F0000 | 001E0000 | 00003B00 | 00000017 | 051E3B17";

fn illegal_entries(edges: &mut Edges) {
    edges.rule("70: an entry outside its fields");
    for value in entries(ILLEGAL) {
        edges.set_up(&ID, PASSWORD, 1);
        edges.line(format!("poke 0077:4.2 {value}"), "poked");
        records::meet(edges);
        edges.line("measure 0077 00", "refused 70");
        edges.record(1, &[("0077:4.2", value)]);
    }
    edges.rule("70: any of the 28 entries; its field poked back makes the record legal");
    edges.set_up(&ID, PASSWORD, 1);
    for (day, period) in places() {
        edges.line(format!("poke 0077:{day}.{period} 00000018"), "poked");
        edges.ask(1, "01", "refused 70");
        edges.ask(3, &entry(day, period, "00 00 00 00"), "refused 70");
        edges.line("measure 0006 01", "refused 70");
        edges.line(format!("poke 0077:{day}.{period} 00000017"), "poked");
        let held = entry(day, period, "00 00 00 17");
        edges.expect(1, &read(day, period), &held);
    }
    edges.rule("An entry at the bounds of its fields is legal");
    for value in entries(LEGAL) {
        edges.line(format!("poke 0077:4.2 {value}"), "poked");
        edges.expect(1, "FE 02 77 04 02", &entry(4, 2, value));
        edges.line("measure 0006 00", "accepted");
    }
    edges.rule("70 is not asked by set-up, which starts the entries again");
    edges.line("poke 0077:4.2 FF", "poked");
    edges.set_up(&ID, PASSWORD, 1);
    edges.record(1, &[]);
}

/// Places that are no entry.
const BAD_PLACES: &str = "0077:0.1 | 0077:8.1 | 0077:9.1 | 0077:1.0 | 0077:1.5 | 0077:1.9 | 0077:1 |
    0077: | 0077:. | 0077:1. | 0077:.1 | 0077:11 | 0077:11.1 | 0077:01.1 | 0077:1.01 | 0077:1.11 |
    0077:1.1: | 0077:1.1. | 0077:1:1 | 0077:1,1 | 0077:1-1 | 0077.1.1 | 0077:1.1.1 | 0077::1.1 |
    0077:-1.1 | 0077:+1.1 | 0077:A.1 | 0077:1.A | 0077:/.1 | 0077::.1 | 0078:1.1 | 0076:1.1 | 0177:1.1 |
    7700:1.1 | 0001:1.1 | 77:1.1 | 077:1.1 | 00077:1.1 | 0x77:1.1 | :1.1 | 1.1 | id:1.1 | 0077:1.é |
    é077:1.1 | 0077:\u{661}.1";

fn bad_places(edges: &mut Edges) {
    set_up_filled(edges);
    edges.rule("Poke of a place that is no entry, or of no bytes: bad line");
    for place in entries(BAD_PLACES) {
        edges.line(format!("poke {place} 00"), "bad line");
        edges.line(format!("poke {place} -"), "bad line");
    }
    for rest in [
        "", " ", " 0", " 0g", " 0a", " 00 00", " 00 ", "  00", " --", " 0x00", "\t00", "\t 00",
    ] {
        edges.line(format!("poke 0077:1.1{rest}"), "bad line");
    }
    edges.line("measure 0077:1.1 00", "bad line");
    edges.line("poke  0077:1.1 00", "bad line");
    edges.line("Poke 0077:1.1 00", "bad line");
    edges.line("write 256 - - 1:0077:1.1:00", "bad line");
    edges.line("write 256 - - 1:0077:1.1", "bad line");
    unchanged(edges);
}

/// Lists of commands with FUNC and the shortest block.
const WRITTEN: [(&str, u8, &str); 9] = [
    (" 1:0077:0103", 1, "FE 02 77 01 03"),
    (" 1:0077:-", 1, "77"),
    (" 1:0077:01 4:0077:-", 1, "FE 01 77 01 FC 04 77"),
    (" 2:0077:0001050F0000", 2, "FE 06 77 00 01 05 0F 00 00"),
    (
        " 3:0077:0904051E3B17 1:0077:0604 1:0077:0704",
        3,
        "FE 06 77 09 04 05 1E 3B 17 FC 01 FE 02 77 06 04 FE 02 77 07 04",
    ),
    (
        " 3:0400:05 3:0077:0101050F0000 3:0177:0101",
        3,
        "FF 04 00 05 FF 00 FE 06 77 01 01 05 0F 00 00 FF 01 FE 02 77 01 01",
    ),
    (" 3:0077:0A05FFFFFFFF", 3, "FE 06 77 0A 05 FF FF FF FF"),
    (" 2:0077:01 2:0077:0101", 2, "77 01 FE 02 77 01 01"),
    (
        " 5:0077:0101 1:0077:0801",
        5,
        "FE 02 77 01 01 FC 01 FE 02 77 08 01",
    ),
];

/// Blocks of a response with their reports.
const READ: [(&str, &str); 6] = [
    ("FE 06 77 01 03 05 1E 3B 17", "0077=0103051E3B17"),
    ("FD 77", "0077=unknown"),
    (
        "FE 06 77 06 04 00 00 00 00 FD 77 FE 06 77 07 04 05 00 00 00",
        "0077=060400000000 0077=unknown 0077=070405000000",
    ),
    ("77 01 FE 02 77 01 03", "0077=01 0077=0103"),
    ("FE 06 77 0A 05 FF FF FF FF", "0077=0A05FFFFFFFF"),
    (
        "FF 01 FD 77 FF 00 FE 06 77 01 01 00 00 00 00",
        "0177=unknown 0077=010100000000",
    ),
];

fn tool_calls(edges: &mut Edges) {
    edges.rule("The tool writes any value of 0077 in the shortest form; it knows no schedule");
    for (commands, function, data) in WRITTEN {
        tool::written(edges, commands, function, data);
    }
    let id = hex::field(&ID);
    edges.line(format!("write 256 {id} - 2:0077:-"), "refused 42");
    edges.line(format!("write 256 {id} - 3:0077:-"), "refused 42");
    edges.rule("The tool reads and lists reports of 0077 as they are");
    for (data, reports) in READ {
        blocks::read_and_list(edges, data, reports);
    }
    edges.rule("43: as many entries as a packet can ask for or bear");
    let reads = " 1:0077:0704".repeat(46);
    let request = framed(
        &ID,
        b"",
        1,
        &format!("{} 01 01", "FE 02 77 07 04".repeat(46)),
    );
    let full = format!("write 256 {id} -{reads} 1:0001:- 1:0001:-");
    edges.line(full.clone(), format!("packet {request}"));
    edges.line(format!("{full} 1:0001:-"), "refused 43");
    let writes = " 2:0077:0704051E3B17".repeat(26);
    edges.line(format!("write 256 {id} -{writes}"), "refused 43");
}

fn setups(edges: &mut Edges) {
    edges.rule("An accepted set-up and a refused one start the entries again");
    set_up_filled(edges);
    edges.set_up(&ID, PASSWORD, 2);
    edges.record(2, &[]);
    set_up_filled(edges);
    edges.line("setup 00 - 1", "refused 20");
    edges.line("record", record(&ZERO_ID, b"", 1, &[]));
    edges.rule("Rows and entries are stored apart");
    set_up_filled(edges);
    edges.ask(2, "08 05 0D 1E 09 3B 0A 17 FE 02 63 46 00", "silence");
    edges.ask(2, "08 00 0D 00 09 00 0A 00 FE 02 63 00 00", "silence");
    unchanged(edges);
}
