//! What the rewriting of a capture meets.

use std::collections::BTreeSet;

use super::reading::causes;
use super::{also, boards_of, of_each_version, room_left, room_missing};
use crate::capture::{self, Reading, Version};
use crate::refusal::Refusal;
use crate::summary;

/// What the rewriting of a capture of either version meets.
const REWRITES: [&str; 26] = [
    "whole",
    "whole: the buffer's whole length",
    "whole: one byte of the buffer left",
    "whole: more of the buffer left",
    "whole: no record",
    "whole: a damaged packet",
    "whole: 1 board",
    "whole: 16 boards",
    "53 beside",
    "53 beside: the buffer's whole length",
    "53 beside: one byte of the buffer left",
    "53 beside: more of the buffer left",
    "53 beside: no record before",
    "53 beside: records before",
    "53 beside: index at the board count",
    "53 beside: direction 2",
    "53 beside: length 257",
    "53 beside: packet cut short",
    "refused 52",
    "refused 52: 0 boards",
    "refused 52: IDs cut short",
    "refused 54",
    "refused 54: one byte too short",
    "refused 54: more bytes too short",
    "refused 54: no byte",
    "refused 54: also 53",
];

/// What that of version 1 alone meets, and of version 2.
const REWRITES_OF_ONE: [&str; 1] = ["refused 52: 17 boards"];
const REWRITES_OF_TWO: [&str; 7] = [
    "whole: 17 boards",
    "whole: 255 boards",
    "whole: 256 boards",
    "whole: 257 boards",
    "whole: 999 boards",
    "whole: 1000 boards",
    "refused 52: 1001 boards",
];

pub fn expected() -> Vec<String> {
    let of_each_version = of_each_version(&REWRITES, &REWRITES_OF_ONE, &REWRITES_OF_TWO);
    let starts = ["refused 50", "refused 51"].map(String::from);
    starts.into_iter().chain(of_each_version).collect()
}

pub fn met(room: usize, capture: &[u8], answer: &str) -> BTreeSet<String> {
    let reading = capture::read(capture);
    let Some(version) = reading.version else {
        return BTreeSet::from([answer.to_string()]);
    };
    let ids = reading.ids.concat();
    let size = capture::compose(Version::WRITTEN, &ids, &reading.records).len();
    let causes = match reading.refusal {
        Some(refusal) => causes(capture, &reading, refusal),
        None => Vec::new(),
    };
    let (outcome, names) = match (answer, reading.refusal) {
        ("refused 52", _) => (answer, causes),
        ("refused 54", refusal) => (answer, short(size - room, room, refusal)),
        (_, Some(_)) => ("53 beside", [causes, vec![room_left(room - size)]].concat()),
        (_, None) => (
            "whole",
            [whole(&reading), vec![room_left(room - size)]].concat(),
        ),
    };
    let names = names.iter().map(|name| format!("{outcome}: {name}"));
    let number = version.number();
    names
        .chain([outcome.to_string()])
        .map(|name| format!("version {number} {name}"))
        .collect()
}

fn short(missing: usize, room: usize, refusal: Option<Refusal>) -> Vec<String> {
    let mut names = vec![room_missing(missing, room)];
    if refusal.is_some() {
        names.push("also 53".to_string());
    }
    names
}

fn whole(reading: &Reading) -> Vec<String> {
    let is_damaged = |record| summary::judge(record) != 0;
    also([
        (true, &boards_of(reading.ids.len())[..]),
        (reading.records.is_empty(), "no record"),
        (reading.records.iter().any(is_damaged), "a damaged packet"),
    ])
    .collect()
}
