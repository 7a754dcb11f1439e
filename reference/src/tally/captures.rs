//! What calls meet of captures: each refusal with its cause, each field at its edges, how each packet is judged.

mod reading;
mod rewriting;
mod summing;
mod writing;

use crate::call::{self, Call};
use crate::capture::{self, Version};
use summing::{JUDGED, SUMMARIES};
use writing::WRITES;

/// The refusals of each call, in the order in which they are checked; 53 is told beside what is rewritten.
pub const REFUSALS: [(&str, &[u8]); 4] = [
    ("capread", &[50, 51, 52, 53]),
    ("capwrite", &[52, 53, 54]),
    ("summary", &[50, 51, 52, 53]),
    ("rewrite", &[50, 51, 52, 54, 53]),
];

/// The last capture or table that a call wrote.
#[derive(Default)]
pub struct Written {
    call: String,
    /// The capture or table as a field.
    bytes: String,
}

impl Written {
    /// Keeps what the call wrote, if it did.
    pub fn keep(&mut self, line: &str, answer: &str) {
        let words: Vec<&str> = answer.split(' ').collect();
        if let ["capture" | "table", bytes, ..] = words[..] {
            let call = line.split(' ').next().unwrap_or_default();
            (self.call, self.bytes) = (call.to_string(), bytes.to_string());
        }
    }

    /// The writer of what the call takes as its only field, if it was written last.
    pub fn writer(&self, line: &str) -> Option<String> {
        let is_written = line.split(' ').nth(1) == Some(&self.bytes);
        is_written.then(|| format!("what {} wrote", self.call))
    }
}

/// The names of all outcomes that a comparison has to meet.
pub fn expected() -> Vec<String> {
    let judged = JUDGED.map(|number| {
        [
            format!("request judged {number}"),
            format!("response judged {number}"),
        ]
    });
    let summaries = SUMMARIES.map(String::from).to_vec();
    [
        named("line", vec!["bad".to_string()]),
        named("capread", reading::expected()),
        named("summary", reading::expected()),
        named("summary", [summaries, judged.concat()].concat()),
        named("capwrite", WRITES.map(String::from).to_vec()),
        named("rewrite", rewriting::expected()),
    ]
    .concat()
}

pub fn named(call: &str, names: impl IntoIterator<Item = String>) -> Vec<String> {
    let names = names.into_iter();
    names.map(|name| format!("{call} {name}")).collect()
}

/// The names that a call met.
pub fn met(line: &str, answer: &str, written: &Written) -> Vec<String> {
    match call::parse(line) {
        None => named("line", ["bad".to_string()]),
        Some(Call::CaptureRead { capture }) => {
            named("capread", reading::met(line, &capture, written))
        }
        Some(Call::Summary { capture }) => {
            let mut names = reading::met(line, &capture, written);
            names.extend(summing::met(answer, &capture::read(&capture).records));
            named("summary", names)
        }
        Some(Call::CaptureWrite { room, ids, records }) => {
            named("capwrite", writing::met(room, &ids, &records, answer))
        }
        Some(Call::Rewrite { room, capture }) => {
            named("rewrite", rewriting::met(room, &capture, answer))
        }
        Some(_) => Vec::new(),
    }
}

/// The names of what holds.
pub fn also<const COUNT: usize>(names: [(bool, &str); COUNT]) -> impl Iterator<Item = String> {
    names
        .into_iter()
        .filter(|(holds, _)| *holds)
        .map(|(_, name)| name.to_string())
}

/// Names with their version: those of either, and those of each alone.
pub fn of_each_version(either: &[&str], one: &[&str], two: &[&str]) -> Vec<String> {
    let of_version = |version: Version, names: &[&str]| {
        let names = either.iter().chain(names);
        let number = version.number();
        names
            .map(|name| format!("version {number} {name}"))
            .collect::<Vec<_>>()
    };
    let (one, two) = (of_version(Version::One, one), of_version(Version::Two, two));
    [one, two].concat()
}

fn boards_of(count: usize) -> String {
    match count {
        1 => "1 board".to_string(),
        _ => format!("{count} boards"),
    }
}

/// Why an index is outside its range; none if it is not.
fn index_causes(boards: usize, index: u16) -> Option<String> {
    let index = usize::from(index);
    match index {
        _ if index < boards => None,
        _ if index == boards => Some("index at the board count".to_string()),
        _ if index > 255 && index % 256 < boards => {
            Some("index over 255, low byte in range".to_string())
        }
        _ => Some(format!("index {index}")),
    }
}

/// What is left of a buffer that a writer has written to.
pub fn room_left(left: usize) -> String {
    let name = match left {
        0 => "the buffer's whole length",
        1 => "one byte of the buffer left",
        _ => "more of the buffer left",
    };
    name.to_string()
}

/// What a buffer is short of.
pub fn room_missing(missing: usize, room: usize) -> String {
    let name = match missing {
        _ if room == 0 => "no byte",
        1 => "one byte too short",
        _ => "more bytes too short",
    };
    name.to_string()
}

#[cfg(test)]
mod tests {
    use super::reading::RECORDS;
    use super::*;

    const ID: &str = "30303030303030303030303030303030";

    /// The names of a call of the list, without its word and without those of its records.
    fn names(line: &str, answer: &str, written: &Written) -> Vec<String> {
        let met = met(line, answer, written).into_iter();
        let names = met.map(|name| name.split_once(' ').expect("two words").1.to_string());
        names.filter(|name| !RECORDS.contains(&&name[..])).collect()
    }

    fn read(capture: &str) -> Vec<String> {
        names(&format!("capread {capture}"), "", &Written::default())
    }

    #[test]
    fn refused_heads_are_named_by_their_cause() {
        for (capture, expected) in [
            ("-", "refused 50: cut after 0 bytes"),
            ("564C", "refused 50: cut after 2 bytes"),
            ("564C48", "refused 50: another mark"),
            ("564C4702", "refused 51: cut after 4 bytes"),
            ("564C470001", "refused 51: version 256"),
            ("564C470102", "refused 51: version 513"),
            ("564C470100", "version 1 refused 52: cut after 5 bytes"),
            ("564C47010011", "version 1 refused 52: 17 boards"),
            ("564C47010001", "version 1 refused 52: IDs cut short"),
            ("564C470200", "version 2 refused 52: cut after 5 bytes"),
            ("564C470200E9", "version 2 refused 52: cut after 6 bytes"),
            ("564C470200E903", "version 2 refused 52: 1001 boards"),
            ("564C470200E803", "version 2 refused 52: IDs cut short"),
        ] {
            assert_eq!(read(capture), [expected]);
        }
    }

    #[test]
    fn refused_records_are_named_by_their_cause() {
        let heads = [
            (1, format!("564C47010001{ID}")),
            (2, format!("564C4702000100{ID}")),
        ];
        for (version, record, expected) in [
            (1, "00", "cut after 1 bytes of a record"),
            (1, "0100000000000000", "index at the board count"),
            (1, "0002000000000000", "direction 2"),
            (1, "0000000000000200", "packet cut short"),
            (2, "00", "cut after 1 bytes of a record"),
            (2, "0000000000000000", "cut after 8 bytes of a record"),
            (2, "010000000000000000", "index at the board count"),
            (2, "000100000000000000", "index over 255, low byte in range"),
            (2, "FFFF00000000000000", "index 65535"),
            (2, "000002000000000000", "direction 2"),
            (2, "000000000000000200", "packet cut short"),
        ] {
            let mut expected = [expected, "no record before"];
            expected.sort();
            let expected = expected.map(|cause| format!("version {version} refused 53: {cause}"));
            let (_, head) = &heads[version - 1];
            assert_eq!(read(&format!("{head}{record}")), expected);
        }
        for (version, head) in heads {
            let accepted = ["accepted", "accepted: 1 board", "accepted: no record"];
            let expected = accepted.map(|name| format!("version {version} {name}"));
            assert_eq!(read(&head), expected);
        }
    }

    #[test]
    fn what_was_written_is_named_by_its_writer() {
        let head = format!("564C4702000100{ID}");
        let mut written = Written::default();
        for (line, answer, expected) in [
            ("capwrite 23 00", format!("capture {head}"), "capwrite"),
            ("capwrite 0 00", "refused 54".to_string(), "capwrite"),
            (
                "rewrite 23 00",
                format!("capture {head} refused 53"),
                "rewrite",
            ),
        ] {
            written.keep(line, &answer);
            let names = names(&format!("summary {head}"), "-", &written);
            let expected = format!("version 2 accepted: what {expected} wrote");
            assert!(names.contains(&expected), "{names:?}");
        }
    }

    #[test]
    fn every_cause_that_holds_is_named() {
        let capture = format!("564C47010001{ID}0000000000000000FFFF000000000101");
        let line = format!("summary {capture}");
        let causes = names(&line, "0,2,1|refused,53", &Written::default());
        let expected = [
            "lines and a refusal",
            "request judged 2",
            "version 1 refused 53: direction 255",
            "version 1 refused 53: index 255",
            "version 1 refused 53: length 257",
            "version 1 refused 53: records before",
        ];
        assert_eq!(causes, expected);
    }

    #[test]
    fn writes_are_named_by_what_else_holds() {
        for (line, answer, expected) in [
            (
                "capwrite 0 - 0.0.0.-".to_string(),
                "refused 52",
                "refused 52, refused 52: also 53, refused 52: also 54, refused 52: no board",
            ),
            (
                format!("capwrite 31 {ID} 256.0.0.-"),
                "refused 53",
                "refused 53, refused 53: also 54, refused 53: index over 255, low byte in range, \
                 refused 53: only the last record",
            ),
            (
                format!("capwrite 22 {ID}"),
                "refused 54",
                "refused 54, refused 54: one byte too short",
            ),
            (
                format!("capwrite 23 {ID}"),
                "capture 00",
                "written, written: 1 board, written: no record, written: the buffer's whole length",
            ),
        ] {
            let names = names(&line, answer, &Written::default());
            assert_eq!(names.join(", "), expected);
        }
        let bad = names("capread", "bad line", &Written::default());
        assert_eq!(bad, ["bad"]);
    }

    #[test]
    fn rewritings_are_named_by_version_and_outcome() {
        let one = format!("564C47010001{ID}");
        let two = format!("564C4702000100{ID}");
        for (fields, answer, expected) in [
            ("0 -".to_string(), "refused 50", "refused 50"),
            ("0 564C47".to_string(), "refused 51", "refused 51"),
            (
                "0 564C47010011".to_string(),
                "refused 52",
                "version 1 refused 52, version 1 refused 52: 17 boards",
            ),
            (
                format!("22 {two}"),
                "refused 54",
                "version 2 refused 54, version 2 refused 54: one byte too short",
            ),
            (
                format!("0 {one}00"),
                "refused 54",
                "version 1 refused 54, version 1 refused 54: also 53, version 1 refused 54: no byte",
            ),
            (
                format!("24 {one}"),
                "capture 00",
                "version 1 whole, version 1 whole: 1 board, version 1 whole: no record, \
                 version 1 whole: one byte of the buffer left",
            ),
            (
                format!("23 {two}00"),
                "capture 00 refused 53",
                "version 2 53 beside, version 2 53 beside: cut after 1 bytes of a record, \
                 version 2 53 beside: no record before, version 2 53 beside: the buffer's whole length",
            ),
        ] {
            let line = format!("rewrite {fields}");
            let names = names(&line, answer, &Written::default());
            assert_eq!(names.join(", "), expected);
        }
    }
}
