//! How often each answer came, call by call, and which ones never did.

mod calendar;
mod captures;
mod schedule;
mod tables;
mod units;

use std::collections::BTreeMap;

use crate::block::{self, Command};
use crate::generate::Subject;
use crate::packet::{self, CODE_WORD, LONGEST};
use crate::record::{CLIENT, Record};
use crate::replay::BAD_LINE;
use captures::Written;

/// What a comparison of the board has to meet: each call with its refusals and its other answers.
const EXPECTED: [(&str, &[u8], &[&str]); 9] = [
    ("setup", &[20, 21, 22, 23], &["accepted"]),
    (
        "packet",
        &[70, 1, 2, 3, 4, 5, 6, 7, 8, 9, 10, 11, 12],
        &["silence", "response", "response of 256 bytes"],
    ),
    ("measure", &[70, 30, 31], &["accepted"]),
    ("record", &[], &["shown"]),
    ("poke", &[], &["poked"]),
    (
        "write",
        &[1, 40, 21, 42, 43],
        &["packet", "packet of 256 bytes"],
    ),
    ("read", &[40, 21, 2, 3, 4, 5, 6, 7, 8, 9, 10], &["reports"]),
    ("list", &[2, 3, 4, 5, 6, 9, 10], &["listed"]),
    ("line", &[], &["bad"]),
];

/// The refusals of a call, in the order in which they are checked.
pub fn refusals(call: &str) -> &'static [u8] {
    let of_board = EXPECTED
        .iter()
        .map(|(call, refusals, _)| (*call, *refusals));
    let others = captures::REFUSALS.into_iter().chain(tables::REFUSALS);
    let mut all = of_board.chain(others);
    all.find(|(name, _)| *name == call)
        .map_or(&[], |(_, refusals)| refusals)
}

/// The counts, by call and answer.
#[derive(Default)]
pub struct Tally {
    subject: Subject,
    counts: BTreeMap<String, usize>,
    written: Written,
}

impl Tally {
    pub fn new(subject: Subject) -> Tally {
        Tally {
            subject,
            ..Tally::default()
        }
    }

    /// Counts an answer; the record is the one after the call.
    pub fn add(&mut self, line: &str, answer: &str, record: &Record) {
        match self.subject {
            Subject::Board => self.add_board(line, answer, record),
            Subject::Captures => {
                self.add_written(line, answer, captures::met(line, answer, &self.written))
            }
            Subject::Tables => {
                self.add_written(line, answer, tables::met(line, answer, &self.written))
            }
        }
    }

    fn add_written(&mut self, line: &str, answer: &str, met: Vec<String>) {
        for name in met {
            *self.counts.entry(name).or_default() += 1;
        }
        self.written.keep(line, answer);
    }

    fn add_board(&mut self, line: &str, answer: &str, record: &Record) {
        let name = name(line, answer);
        let full_length = |word: &str| word.len() == 2 * LONGEST;
        if answer.split(' ').nth(1).is_some_and(full_length) && !name.starts_with("read") {
            let full = format!("{name} of {LONGEST} bytes");
            *self.counts.entry(full).or_default() += 1;
        }
        let mut names = schedule::met(line, answer, record);
        names.extend(calendar::met(line, answer, record));
        names.extend(units::met(line, answer, record));
        for name in names.into_iter().chain([name]) {
            *self.counts.entry(name).or_default() += 1;
        }
    }

    /// One line for each expected answer, with its count.
    pub fn lines(&self) -> Vec<String> {
        expected(self.subject)
            .iter()
            .map(|name| format!("{:>9}  {name}", self.count(name)))
            .collect()
    }

    /// The expected answers that never came.
    pub fn missing(&self) -> Vec<String> {
        let mut names = expected(self.subject);
        names.retain(|name| self.count(name) == 0);
        names
    }

    fn count(&self, name: &str) -> usize {
        self.counts.get(name).copied().unwrap_or(0)
    }
}

fn expected(subject: Subject) -> Vec<String> {
    match subject {
        Subject::Board => expected_of_board().collect(),
        Subject::Captures => captures::expected(),
        Subject::Tables => tables::expected(),
    }
}

fn expected_of_board() -> impl Iterator<Item = String> {
    let calls = EXPECTED.iter().flat_map(|(call, refusals, answers)| {
        let answers = answers.iter().map(move |answer| format!("{call} {answer}"));
        let refusals = refusals
            .iter()
            .map(move |number| format!("{call} refused {number}"));
        answers.chain(refusals)
    });
    calls
        .chain(schedule::expected())
        .chain(calendar::expected())
        .chain(units::expected())
}

/// The ID and the commands of a packet that can be read.
fn request(packet: &[u8]) -> Option<(&[u8], Vec<Command>)> {
    let frame = packet::read(packet).ok()?;
    let request = block::read_request(frame.function, frame.data)?;
    Some((frame.id, request.commands))
}

fn is_search(id: &[u8], record: &Record) -> bool {
    id == CODE_WORD && record.mode == CLIENT
}

/// Call and answer in words.
fn name(line: &str, answer: &str) -> String {
    let call = line.split(' ').next().unwrap_or_default();
    let first_word = answer.split(' ').next().unwrap_or_default();
    match first_word {
        _ if answer == BAD_LINE => "line bad".to_string(),
        "refused" => format!("{call} {answer}"),
        "record" => "record shown".to_string(),
        _ if call == "list" => match answer.strip_prefix("refused,") {
            Some(number) => format!("list refused {number}"),
            None => "list listed".to_string(),
        },
        word => format!("{call} {word}"),
    }
}

#[cfg(test)]
mod tests {
    use super::*;
    use crate::replay::Session;

    #[test]
    fn answers_are_named() {
        for (line, answer, expected) in [
            ("setup - - 1", "refused 20", "setup refused 20"),
            ("packet 256 -", "refused 2", "packet refused 2"),
            ("packet 256 00", "silence", "packet silence"),
            ("packet 256 00", "response FD", "packet response"),
            ("record", "record id=", "record shown"),
            ("list -", "refused,2", "list refused 2"),
            ("list FD", "number,value|0x0001,00", "list listed"),
            ("setup", "bad line", "line bad"),
            ("write 256 00 -", "packet FD", "write packet"),
            ("read 00 - FD", "reports 0001=00", "read reports"),
        ] {
            assert_eq!(name(line, answer), expected);
        }
    }

    #[test]
    fn full_lengths_are_counted_apart() {
        let mut tally = Tally::default();
        for length in [256, 255] {
            let answer = format!("response {}", "00".repeat(length));
            tally.add("packet 256 00", &answer, &Record::refused());
        }
        assert_eq!(tally.count("packet response"), 2);
        assert_eq!(tally.count("packet response of 256 bytes"), 1);
        assert!(tally.missing().contains(&"packet silence".to_string()));
        assert!(!tally.missing().contains(&"packet response".to_string()));
    }

    #[test]
    fn generated_lists_meet_every_answer_often() {
        for subject in Subject::ALL {
            let mut tally = Tally::new(subject);
            let mut session = Session::new();
            for line in subject.list(1, 30_000) {
                if let Some(answer) = session.line(line.as_bytes()) {
                    tally.add(&line, &answer, &session.record);
                }
            }
            for name in expected(subject) {
                assert!(tally.count(&name) >= 20, "{name}: {}", tally.count(&name));
            }
        }
    }
}
