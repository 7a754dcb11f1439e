//! What the client writes: answers and raw bytes on standard output, the rest a line each on standard error.

use std::fs;
use std::io::{self, Write};
use std::net::SocketAddr;

use crate::boards::Unit;
use crate::dump::dump;
use crate::outcome::Outcome;
use crate::request::{Raw, Request};

/// Shows what a board has answered; whether all went well.
pub fn show(request: &Request, unit: &Unit, outcome: &Result<Outcome, String>) -> bool {
    let outcome = match outcome {
        Ok(outcome) => outcome,
        Err(error) => {
            tell(unit, error);
            return false;
        }
    };
    let written = write(request, outcome);
    if let Err(error) = &written {
        tell(unit, error);
    }
    for note in &outcome.notes {
        tell(unit, &note.text);
    }
    written.is_ok() && !outcome.notes.iter().any(|note| note.failed)
}

fn write(request: &Request, outcome: &Outcome) -> Result<(), String> {
    let response = outcome.responses.first();
    let bytes = response.map_or(&[][..], |response| &response.bytes);
    if request.raw == Some(Raw::Output) {
        return put(bytes);
    }
    for part in &outcome.parts {
        if let Some(sender) = part.sender {
            say(&format!("response from {sender}\n"));
        }
        put(part.text.as_bytes())?;
    }
    match &request.raw {
        Some(Raw::File(path)) => fs::write(path, bytes)
            .map_err(|error| format!("cannot keep the response in {}: {error}", path.display())),
        _ => Ok(()),
    }
}

/// On standard output.
pub fn put(bytes: &[u8]) -> Result<(), String> {
    let mut output = io::stdout().lock();
    let written = output.write_all(bytes).and_then(|()| output.flush());
    written.map_err(|error| format!("cannot write to standard output: {error}"))
}

/// A line about a board.
pub fn tell(unit: &Unit, text: &str) {
    match &unit.name {
        Some(name) => warn(&format!("{name}: {text}")),
        None => warn(text),
    }
}

/// A line on standard error.
pub fn warn(text: &str) {
    say(&format!("udgornwy: {text}\n"));
}

pub fn show_packet(what: &str, address: SocketAddr, bytes: &[u8]) {
    let preposition = if what == "sent" { "to" } else { "from" };
    let length = bytes.len();
    let dump = dump(bytes);
    say(&format!(
        "{what} {length} bytes {preposition} {address}\n{dump}"
    ));
}

/// On standard error, in one piece, since several boards may be asked at once. The work goes on where nobody reads it.
pub fn say(text: &str) {
    let _ = io::stderr().write_all(text.as_bytes());
}
