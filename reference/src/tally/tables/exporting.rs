//! What the export of a capture meets.

use std::collections::BTreeSet;

use crate::block::Report;
use crate::capture::{self, Captured, REQUEST, RESPONSE, Reading};
use crate::listing;
use crate::packet;
use crate::summary;
use crate::table::{self, Row, Table};
use crate::tally::captures::{also, of_each_version, room_left, room_missing};

/// What the export of a capture of either version meets.
const EXPORTS: [&str; 37] = [
    "whole",
    "whole: the buffer's whole length",
    "whole: one byte of the buffer left",
    "whole: more of the buffer left",
    "whole: no report",
    "whole: more than 100 reports",
    "whole: an unknown parameter",
    "whole: a page",
    "whole: a value of over 200 bytes",
    "whole: a counter of 0",
    "whole: a counter of 4294967295",
    "whole: a request",
    "whole: another board's response",
    "whole: equal IDs",
    "whole: an accepted response without a report",
    "whole: a response judged 2",
    "whole: a response judged 3",
    "whole: a response judged 4",
    "whole: a response judged 5",
    "whole: a response judged 6",
    "whole: a response judged 9",
    "whole: a response judged 10",
    "whole: more than 255 refused",
    "53 beside",
    "53 beside: the buffer's whole length",
    "53 beside: one byte of the buffer left",
    "53 beside: more of the buffer left",
    "53 beside: no report",
    "53 beside: an unknown parameter",
    "53 beside: a response judged 2",
    "52 beside",
    "refused 54",
    "refused 54: one byte too short",
    "refused 54: more bytes too short",
    "refused 54: no byte",
    "refused 54: also 52",
    "refused 54: also 53",
];

/// What that of a capture without a version meets.
const STARTS: [&str; 5] = [
    "50 beside",
    "51 beside",
    "refused 54: also 50",
    "refused 54: also 51",
    "refused 54: one byte too short",
];

pub fn expected() -> Vec<String> {
    let starts = STARTS.iter().map(|name| name.to_string());
    let of_two = ["whole: an index over 255"];
    starts
        .chain(of_each_version(&EXPORTS, &[], &of_two))
        .collect()
}

pub fn met(room: usize, capture: &[u8], answer: &str) -> BTreeSet<String> {
    let reading = capture::read(capture);
    let table = table::table(capture);
    let size = table.text.len();
    let beside = table.refusal.map(|refusal| refusal.number());
    let (outcome, names) = match (answer, beside) {
        ("refused 54", _) => (answer.to_string(), short(size, room, beside)),
        (_, Some(number)) => (format!("{number} beside"), contents(&reading, &table)),
        (_, None) => ("whole".to_string(), contents(&reading, &table)),
    };
    let left = room.checked_sub(size).map(room_left);
    let names = names.into_iter().chain(left);
    let names = names.map(|name| format!("{outcome}: {name}"));
    let version = match reading.version {
        Some(version) => format!("version {} ", version.number()),
        None => String::new(),
    };
    let names = names.chain([outcome.clone()]);
    names.map(|name| format!("{version}{name}")).collect()
}

fn short(size: usize, room: usize, beside: Option<u8>) -> Vec<String> {
    let mut names = vec![room_missing(size - room, room)];
    names.extend(beside.map(|number| format!("also {number}")));
    names
}

/// What a capture holds up to its end or to a fault. A refused head has nothing to be told.
fn contents(reading: &Reading, table: &Table) -> Vec<String> {
    if reading.ids.is_empty() {
        return Vec::new();
    }
    let records = &reading.records;
    let rows = table::import(table.text.as_bytes()).rows;
    let distinct: BTreeSet<_> = reading.ids.iter().collect();
    let any = |holds: fn(&Captured) -> bool| records.iter().any(holds);
    let any_row = |holds: fn(&Row) -> bool| rows.iter().any(holds);
    let is_other = |record: &Captured| {
        let id = reading.ids[usize::from(record.index)];
        is_accepted(record) && packet::read(&record.packet).is_ok_and(|frame| frame.id != id)
    };
    let names = also([
        (rows.is_empty(), "no report"),
        (rows.len() > 100, "more than 100 reports"),
        (any_row(is_unknown), "an unknown parameter"),
        (any_row(has_page), "a page"),
        (any_row(has_long_value), "a value of over 200 bytes"),
        (any(|record| record.counter == 0), "a counter of 0"),
        (
            any(|record| record.counter == u32::MAX),
            "a counter of 4294967295",
        ),
        (any(|record| record.direction == REQUEST), "a request"),
        (any(|record| record.index > 255), "an index over 255"),
        (records.iter().any(is_other), "another board's response"),
        (distinct.len() < reading.ids.len(), "equal IDs"),
        (any(is_empty), "an accepted response without a report"),
        (table.refused > 255, "more than 255 refused"),
    ]);
    let responses = records.iter().filter(|record| record.direction == RESPONSE);
    let refused = responses.filter(|record| !is_accepted(record));
    let refused = refused.map(|record| format!("a response judged {}", summary::judge(record)));
    names.chain(refused).collect()
}

fn is_accepted(record: &Captured) -> bool {
    record.direction == RESPONSE && summary::judge(record) == 0
}

fn is_empty(record: &Captured) -> bool {
    let reports = listing::reports(&record.packet);
    is_accepted(record) && reports.is_ok_and(|reports| reports.is_empty())
}

fn is_unknown(row: &Row) -> bool {
    matches!(row.report, Report::Unknown { .. })
}

fn has_page(row: &Row) -> bool {
    matches!(
        row.report,
        Report::Value {
            number: 0x0100..,
            ..
        }
    )
}

fn has_long_value(row: &Row) -> bool {
    matches!(&row.report, Report::Value { value, .. } if value.len() > 200)
}
