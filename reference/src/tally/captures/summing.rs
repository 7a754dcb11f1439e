//! What the summary of a capture meets.

use std::collections::BTreeSet;

use super::also;
use crate::capture::{self, Captured, REQUEST};
use crate::summary;

pub const SUMMARIES: [&str; 8] = [
    "no line",
    "lines and a refusal",
    "a refusal alone",
    "one pair from both directions",
    "a count over 255",
    "indices of one and of two digits",
    "indices of two and of three digits",
    "numbers of one and of two digits",
];

/// The numbers that a packet is judged with.
pub const JUDGED: [u8; 8] = [0, 2, 3, 4, 5, 6, 9, 10];

pub fn met(answer: &str, records: &[Captured]) -> BTreeSet<String> {
    let lines: Vec<[&str; 3]> = answer
        .split('|')
        .filter_map(|line| line.split(',').collect::<Vec<_>>().try_into().ok())
        .collect();
    let over_255 = |line: &[&str; 3]| line[2].parse().is_ok_and(|count: usize| count > 255);
    let indices_grow = |digits: usize| {
        let mut pairs = lines.windows(2);
        pairs.any(|pair| grows(pair[0][0], pair[1][0], digits))
    };
    also([
        (answer == "-", "no line"),
        (answer.contains("|refused,"), "lines and a refusal"),
        (answer.starts_with("refused,"), "a refusal alone"),
        (shares_a_pair(records), "one pair from both directions"),
        (lines.iter().any(over_255), "a count over 255"),
        (indices_grow(1), "indices of one and of two digits"),
        (indices_grow(2), "indices of two and of three digits"),
        (
            lines.windows(2).any(|pair| {
                pair[0][0] == pair[1][0] && pair[0][1] != "0" && grows(pair[0][1], pair[1][1], 1)
            }),
            "numbers of one and of two digits",
        ),
    ])
    .chain(records.iter().map(judged))
    .collect()
}

/// Whether a number has so many digits and the next has one more, so that an order by text may differ.
fn grows(number: &str, next: &str, digits: usize) -> bool {
    number.len() == digits && next.len() == digits + 1
}

/// Whether a request and a response of one board are judged alike.
fn shares_a_pair(records: &[Captured]) -> bool {
    let pairs = |direction: u8| -> BTreeSet<(u16, u8)> {
        let records = records.iter();
        let records = records.filter(|record| record.direction == direction);
        records
            .map(|record| (record.index, summary::judge(record)))
            .collect()
    };
    !pairs(REQUEST).is_disjoint(&pairs(capture::RESPONSE))
}

fn judged(record: &Captured) -> String {
    let direction = match record.direction {
        REQUEST => "request",
        _ => "response",
    };
    format!("{direction} judged {}", summary::judge(record))
}
