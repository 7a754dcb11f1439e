//! The fixed hand-made list: the examples and the edge cases of each rule, with the answers of the papers.
//! The answers are written out here and not computed; a test holds the implementation against them.

mod blocks;
mod captures;
mod commands;
mod examples;
mod expert;
mod framing;
mod joining;
mod lines;
mod records;
mod rows;
mod schedule;
mod senders;
mod tables;
mod tool;
mod units;

use crate::call::Call;
use crate::hex;
use crate::packet;

/// The controller ID of the guide's program.
pub const ID: [u8; 16] = *b"002D6E1B34565815";
pub const ZERO_ID: [u8; 16] = [0; 16];
/// The guide's default password.
pub const PASSWORD: &[u8] = b"1111";

/// The rows of a start record of Micra, and those of type 3, which has every row of VENTO Expert; ID stands for the board's.
const MICRA_START: &str = "0001=00 0002=01 0003=03 0006=00 0007=00 0008=00 0009=00 000A=00 \
    000B=000000 000D=00 0014=00 0015=00 0018=0F 001D=00 001E=0000 001F=0000 0020=0000 0021=0000 \
    0022=0000 0032=00 0033=00 0036=00 0037=64 003A=00 003B=00 003C=00 003D=00 003E=00 003F=00 \
    0040=00 0041=00 0042=00 0043=00 0045=00 0046=00 0047=00 0060=00 0063=0000 0064=00000000 \
    0066=00 0067=00 0068=00 006A=0000 006F=000000 0070=01060100 0072=00 0073=00 0074=00 007C=ID \
    0086=000000000000 0088=00 0093=00 0094=01 0095=41 0096=3030303030303030 0099=30 009A=01 \
    009B=00 009C=00000000 009D=00000000 009E=00000000 009F=00000000 00A1=00 00A3=00000000 00B6=00 \
    00B9=0200 00F0=00 0111=0000 0112=000000000000 0400=00 0401=00 0402=00";
const EXPERT_START: &str = "0001=00 0002=01 0006=00 0007=00 000B=000000 000F=00 0014=00 0016=00 \
    0019=28 0024=0000 0025=00 002D=00 0032=00 003A=0A 003B=0A 003C=0A 003D=0A 003E=0A 003F=0A \
    0044=00 004A=0000 004B=0000 0063=4600 0064=000000 0066=00 006F=000000 0070=01060100 0072=00 \
    007C=ID 007E=00000000 0083=00 0086=000000000000 0088=00 0094=01 0095=41 0096=3030303030303030 \
    0099=30 009A=01 009B=00 009C=00000000 009D=00000000 009E=00000000 00A3=00000000 00B7=00 \
    00B8=05 00B9=0300 0302=0000 0303=0000 0304=00 0305=00";

/// Rows of VENTO Expert with one star, which type 5 lacks, and with two, which type 3 alone has.
const ONE_STAR: &str = "0016 002D 00B8 0305";
const TWO_STARS: &str = "003A 003B 003C 003D 003E 003F 0063";

/// A line of the list and the answer it must get; a comment has none.
pub struct Entry {
    pub line: String,
    pub answer: Option<String>,
}

/// The list in the making, and the identity of its board.
pub struct Edges {
    entries: Vec<Entry>,
    id: Vec<u8>,
    password: Vec<u8>,
    unit_type: u8,
}

/// The list of board, tool and captures.
pub fn list() -> Vec<Entry> {
    let mut edges = Edges::new();
    examples::add(&mut edges);
    framing::add(&mut edges);
    senders::add(&mut edges);
    blocks::add(&mut edges);
    commands::add(&mut edges);
    rows::add(&mut edges);
    records::add(&mut edges);
    schedule::add(&mut edges);
    units::add(&mut edges);
    expert::add(&mut edges);
    joining::add(&mut edges);
    tool::add(&mut edges);
    lines::add(&mut edges);
    captures::add(&mut edges);
    edges.entries
}

/// The list of tables, which may stand behind the other.
pub fn table_list() -> Vec<Entry> {
    let mut edges = Edges::new();
    tables::add(&mut edges);
    edges.entries
}

/// Bytes of hex digits that may have spaces between them.
pub fn bytes(digits: &str) -> Vec<u8> {
    let digits = digits.replace(' ', "");
    if digits.is_empty() {
        return Vec::new();
    }
    hex::parse_field(&digits).expect("hex digits of the hand-made list")
}

/// The entries of a hand-written table, which are separated by bars.
pub fn entries(table: &str) -> impl Iterator<Item = &str> {
    table.split('|').map(str::trim)
}

/// A packet as a field of a call.
pub fn framed(id: &[u8], password: &[u8], function: u8, data: &str) -> String {
    hex::field(&packet::write(id, password, function, &bytes(data)))
}

/// What `record` writes for a start record of Micra with some rows and entries changed.
pub fn record(id: &[u8], password: &[u8], mode: u8, changes: &[(&str, &str)]) -> String {
    record_of(2, id, password, mode, changes)
}

/// The same for a board of any type.
fn record_of(
    unit_type: u8,
    id: &[u8],
    password: &[u8],
    mode: u8,
    changes: &[(&str, &str)],
) -> String {
    let (id, password) = (hex::field(id), hex::field(password));
    let mut text = format!("record id={id} password={password} mode={mode} type={unit_type}");
    for (number, start) in start(unit_type) {
        let changed = changes.iter().find(|change| change.0 == number);
        let value = match changed {
            Some((_, value)) => value.to_string(),
            None if number == "007C" => id.clone(),
            None if number == "00B9" => format!("0{unit_type}00"),
            None => start.to_string(),
        };
        text += &format!(" {number}={value}");
    }
    match unit_type {
        2 => text + &shown_schedule(changes),
        _ => text,
    }
}

/// The rows of a type with their start values.
fn start(unit_type: u8) -> impl Iterator<Item = (&'static str, &'static str)> {
    let (rows, lacking) = match unit_type {
        2 => (MICRA_START, String::new()),
        3 => (EXPERT_START, String::new()),
        4 => (EXPERT_START, TWO_STARS.to_string()),
        _ => (EXPERT_START, format!("{ONE_STAR} {TWO_STARS}")),
    };
    let rows = rows.split_whitespace().map(|row| {
        let pair = row.split_once('=');
        pair.expect("a row of the start record")
    });
    rows.filter(move |(number, _)| !lacking.contains(number))
}

/// The entries of the schedule behind the rows, all zero but for those changed.
fn shown_schedule(changes: &[(&str, &str)]) -> String {
    let mut text = String::new();
    for (day, period) in (1..=7).flat_map(|day| (1..=4).map(move |period| (day, period))) {
        let place = format!("0077:{day}.{period}");
        let changed = changes.iter().find(|change| change.0 == place);
        let entry = changed.map_or("00000000", |change| change.1);
        text += &format!(" {place}={entry}");
    }
    text
}

impl Edges {
    fn new() -> Edges {
        Edges {
            entries: Vec::new(),
            id: ZERO_ID.to_vec(),
            password: Vec::new(),
            unit_type: 2,
        }
    }

    /// A comment that says which rule the next calls try.
    fn rule(&mut self, text: &str) {
        self.passed_over(&format!("# {text}"));
    }

    /// A line without an answer.
    fn passed_over(&mut self, line: &str) {
        self.entries.push(Entry {
            line: line.to_string(),
            answer: None,
        });
    }

    /// Any line with its answer.
    fn line(&mut self, line: impl Into<String>, answer: impl Into<String>) {
        self.entries.push(Entry {
            line: line.into(),
            answer: Some(answer.into()),
        });
    }

    /// An accepted set-up without a type, which is Micra's; later packets are for this board.
    fn set_up(&mut self, id: &[u8], password: &[u8], mode: u8) {
        self.accept(id, password, mode, None);
    }

    /// An accepted set-up of a board of this type, with the usual ID and password.
    fn set_up_type(&mut self, mode: u8, unit_type: u8) {
        self.accept(&ID, PASSWORD, mode, Some(unit_type));
    }

    fn accept(&mut self, id: &[u8], password: &[u8], mode: u8, unit_type: Option<u8>) {
        (self.id, self.password) = (id.to_vec(), password.to_vec());
        self.unit_type = unit_type.unwrap_or(2);
        let call = Call::Setup {
            id: id.to_vec(),
            password: password.to_vec(),
            mode,
            unit_type,
        };
        self.line(call.to_string(), "accepted");
    }

    /// A packet of any bytes.
    fn packet(&mut self, packet: &[u8], answer: &str) {
        self.line(format!("packet 256 {}", hex::field(packet)), answer);
    }

    /// A rightful request.
    fn ask(&mut self, function: u8, data: &str, answer: &str) {
        let request = framed(&self.id, &self.password, function, data);
        self.line(format!("packet 256 {request}"), answer);
    }

    /// A rightful request that gets a response with this data block.
    fn expect(&mut self, function: u8, data: &str, reports: &str) {
        let response = framed(&self.id, &self.password, packet::RESPONSE, reports);
        self.ask(function, data, &format!("response {response}"));
    }

    /// The board's record, as set up but for some rows and entries.
    fn record(&mut self, mode: u8, changes: &[(&str, &str)]) {
        let answer = record_of(self.unit_type, &self.id, &self.password, mode, changes);
        self.line("record", answer);
    }
}

#[cfg(test)]
mod tests {
    use super::*;
    use crate::replay::{self, Session};

    #[test]
    fn every_edge_gets_its_answer() {
        let mut session = Session::new();
        let mut rule = String::new();
        for Entry { line, answer } in list().into_iter().chain(table_list()) {
            assert_eq!(session.line(line.as_bytes()), answer, "{rule}\n{line}");
            if answer.is_none() {
                rule = line;
            }
        }
    }

    #[test]
    fn every_edge_is_stated() {
        for list in [list(), table_list()] {
            let lines: Vec<String> = list.into_iter().map(|entry| entry.line).collect();
            assert!(replay::is_stated(&lines));
        }
    }

    #[test]
    fn no_line_is_longer_than_a_replay_must_hold() {
        let list = list();
        let is_capture = |entry: &&Entry| {
            let calls = ["capread ", "capwrite ", "summary ", "rewrite "];
            calls.iter().any(|call| entry.line.starts_with(call))
        };
        let (captures, board): (Vec<&Entry>, Vec<&Entry>) = list.iter().partition(is_capture);
        let tables = table_list();
        let tables = tables.iter().collect();
        for (entries, longest) in [(board, 8_192), (captures, 65_536), (tables, 65_536)] {
            let longest_line = entries.iter().map(|entry| entry.line.len()).max();
            assert_eq!(longest_line, Some(longest));
        }
    }
}
