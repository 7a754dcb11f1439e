//! The linked libraries answer the call list of crates/replay as its stored output says: the exported functions are proved, how C and
//! Rust call them is not.
//!
//! Passed over are `record` and `poke`, which only the replay program has, a board's calls from a poke to the next set-up, and a packet's
//! buffers under 256 bytes, which this crate never lends.

mod capture_calls;
mod table_calls;

use std::fs;
use std::path::Path;
use udgornwy::ffi::{self, Answer, Board, Command, Places};
use udgornwy::hex::{self, digits};
use udgornwy::refusal::Refusal;

const CAPTURE_CALLS: [&str; 6] = [
    "capread", "capwrite", "summary", "rewrite", "export", "import",
];

/// The unit type of a set-up that names none.
const MICRA: &str = "2";

/// The board as the calls so far left it; none where a poke has changed it.
struct Session(Option<Board>);

impl Session {
    /// The answer to a well-formed line, if the libraries can be asked.
    fn answer(&mut self, line: &str) -> Option<String> {
        let fields: Vec<&str> = line.split(' ').collect();
        match fields[..] {
            ["setup", id, password, mode] => Some(self.set_up(id, password, mode, MICRA)),
            ["setup", id, password, mode, unit] => Some(self.set_up(id, password, mode, unit)),
            ["packet", room, packet] if has_room(room) => self.packet(packet),
            ["measure", number, value] => self.measure(number, value),
            ["write", room, id, password, ref commands @ ..] if has_room(room) => {
                Some(write(id, password, commands))
            }
            ["read", id, password, packet] => Some(read(id, password, packet)),
            ["list", packet] => Some(list(packet)),
            ["capread", capture] => Some(capture_calls::read(&bytes(capture))),
            ["capwrite", room, ids, ref records @ ..] => {
                Some(capture_calls::write(room, ids, records))
            }
            ["summary", capture] => Some(capture_calls::summarize(&bytes(capture))),
            ["rewrite", room, capture] => Some(capture_calls::rewrite(room, &bytes(capture))),
            ["export", room, capture] => Some(table_calls::export(room, &bytes(capture))),
            ["import", table] => Some(table_calls::import(&bytes(table))),
            ["poke", ..] => {
                self.0 = None;
                None
            }
            _ => None,
        }
    }

    fn set_up(&mut self, id: &str, password: &str, mode: &str, unit: &str) -> String {
        let mode = mode.parse().expect("a mode");
        let unit = unit.parse().expect("a unit type");
        let board = ffi::set_up(&bytes(id), &bytes(password), mode, unit);
        let answer = verdict(board.as_ref().err());
        self.0 = Some(board.unwrap_or_else(|_| unset()));
        answer
    }

    fn packet(&mut self, packet: &str) -> Option<String> {
        let board = self.0.as_mut()?;
        Some(match ffi::packet(board, &bytes(packet)) {
            Answer::Refused(refusal) => refused(&refusal),
            Answer::Silence => String::from("silence"),
            Answer::Response(response) => format!("response {}", digits(&response)),
        })
    }

    fn measure(&mut self, number: &str, value: &str) -> Option<String> {
        let measured = ffi::measure(self.0.clone()?, parse_number(number), &bytes(value));
        let answer = verdict(measured.as_ref().err());
        self.0 = measured.ok().or(self.0.take());
        Some(answer)
    }
}

fn write(id: &str, password: &str, commands: &[&str]) -> String {
    let commands: Vec<Command> = commands.iter().map(|text| command(text)).collect();
    match ffi::write(&bytes(id), &bytes(password), &commands) {
        Ok(packet) => format!("packet {}", digits(&packet)),
        Err(refusal) => refused(&refusal),
    }
}

/// The libraries' reader gives no reports, the listing does.
fn read(id: &str, password: &str, packet: &str) -> String {
    match ffi::read(&bytes(packet), &bytes(id), &bytes(password)) {
        Ok(()) => String::from("reports"),
        Err(refusal) => refused(&refusal),
    }
}

fn list(packet: &str) -> String {
    let listing = ffi::list(&bytes(packet)).expect("a listing that fits");
    let listing = String::from_utf8(listing).expect("text");
    listing.trim_end().replace('\n', "|")
}

/// The board of a refused set-up.
fn unset() -> Board {
    match ffi::set_up(&[0; 16], b"", 1, 2) {
        Ok(board) => board,
        Err(refusal) => panic!("the zero board is {refusal}"),
    }
}

fn verdict(refusal: Option<&Refusal>) -> String {
    refusal.map_or_else(|| String::from("accepted"), refused)
}

fn refused(refusal: &Refusal) -> String {
    format!("refused {}", refusal.0)
}

fn has_room(room: &str) -> bool {
    room.parse::<usize>().expect("a length") >= ffi::LONGEST_PACKET
}

fn bytes(field: &str) -> Vec<u8> {
    match field {
        "-" => Vec::new(),
        _ => hex::parse(field).expect("bytes"),
    }
}

fn parse_number(field: &str) -> u16 {
    u16::from_str_radix(field, 16).expect("a number")
}

/// `F:NNNN:VALUE`
fn command(field: &str) -> Command {
    let parts: Vec<&str> = field.split(':').collect();
    let [function, number, value] = parts[..] else {
        panic!("no command: {field}");
    };
    Command {
        function: function.parse().expect("a function"),
        number: parse_number(number),
        value: bytes(value),
    }
}

fn lines(name: &str) -> Vec<String> {
    let path = Path::new(env!("CARGO_MANIFEST_DIR")).join("../crates/replay");
    let text = fs::read(path.join(name)).expect("a file of crates/replay");
    let text = String::from_utf8_lossy(&text).into_owned();
    text.split_terminator('\n').map(String::from).collect()
}

/// The well-formed calls with their stored answers.
fn calls() -> impl Iterator<Item = (String, String)> {
    let passed_over = |line: &String| line.is_empty() || line.starts_with('#');
    let calls = lines("stdin")
        .into_iter()
        .filter(move |line| !passed_over(line));
    let answered = calls.zip(lines("stdout"));
    answered.filter(|(_, stored)| stored != "bad line")
}

#[test]
fn the_libraries_answer_the_call_list_as_stored() {
    let (mut session, mut asked) = (Session(None), 0);
    let mut on_captures = CAPTURE_CALLS.map(|name| (name, 0));
    for (call, stored) in calls() {
        if let Some(answer) = session.answer(&call) {
            let is_read = answer == "reports" && stored.starts_with("reports");
            assert!(is_read || answer == stored, "{call}\n{answer}\n{stored}");
            asked += 1;
            for (name, count) in &mut on_captures {
                *count += usize::from(call.starts_with(&format!("{name} ")));
            }
        }
    }
    assert!(asked > 3000, "only {asked} calls");
    let all: usize = on_captures.iter().map(|(_, count)| count).sum();
    let each = on_captures.iter().all(|(_, count)| *count > 10);
    assert!(all > 500 && each, "only {on_captures:?}");
}

/// The parser refuses what the stored listing refuses with 2 to 6, and finds the parts of every other packet.
#[test]
fn the_parser_takes_apart_what_the_listing_does() {
    let (mut refused, mut taken_apart) = (0, 0);
    for (call, stored) in calls() {
        let Some(packet) = call.strip_prefix("list ").map(bytes) else {
            continue;
        };
        match ffi::parse(&packet) {
            Err(refusal) => {
                assert_eq!(stored, format!("refused,{}", refusal.0), "{call}");
                refused += 1;
            }
            Ok(places) => {
                let number = stored.strip_prefix("refused,");
                assert!(number.is_none_or(|number| ["9", "10"].contains(&number)));
                assert_eq!(places, places_of(&packet), "{call}");
                taken_apart += 1;
            }
        }
    }
    assert!(refused > 20 && taken_apart > 20, "{refused}, {taken_apart}");
}

/// Where the guide puts the parts of a packet.
fn places_of(packet: &[u8]) -> Places {
    let function = 21 + usize::from(packet[20]);
    Places {
        id: 4,
        password: 21,
        function,
        block: function + 1,
        end: packet.len() - 2,
    }
}
