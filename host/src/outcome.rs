//! What a board's answer comes to: the reports that are shown, and what must be told beside them.

use std::net::SocketAddr;

use crate::answer;
use crate::boards::Unit;
use crate::exchange::Response;
use crate::ffi::Command;
use crate::format::{self, Format};
use crate::notes::{self, Note};
use crate::report::Report;
use crate::request::{Kind, Request};
use crate::target::Target;
use crate::unit_type::UnitType;

pub struct Outcome {
    pub parts: Vec<Part>,
    pub notes: Vec<Note>,
    pub responses: Vec<Response>,
}

/// What is shown of one board.
pub struct Part {
    /// Who it is from, where that is not known beforehand.
    pub sender: Option<SocketAddr>,
    pub text: String,
}

/// A command with its report.
#[derive(Clone, Copy)]
pub struct Line<'a> {
    /// What the board was asked as.
    pub unit_type: UnitType,
    pub command: &'a Command,
    pub report: &'a Report,
    pub response: &'a Response,
}

/// The outcome of packets and their responses.
pub fn of(
    request: &Request,
    unit: &Unit,
    target: Target,
    answers: Vec<(&[Command], Response)>,
) -> Outcome {
    let lines_of = |answer| lines_of(unit.unit_type, answer);
    let lines: Vec<Vec<Line>> = answers.iter().map(lines_of).collect();
    // Several boards have a listing each, several packets of one board have one.
    let lines = match target.every {
        true => lines,
        false => vec![lines.concat()],
    };
    let notes = lines.iter().flat_map(|lines| notes_of(request, lines));
    let notes = notes.collect();
    let part = |lines: &Vec<Line>| part(request, unit, target, lines);
    Outcome {
        parts: lines.iter().map(part).collect(),
        notes,
        responses: answers.into_iter().map(|(_, response)| response).collect(),
    }
}

fn notes_of(request: &Request, lines: &[Line]) -> Vec<Note> {
    let mut notes = notes::of(lines);
    match request.kind {
        Kind::Rows => notes.extend(notes::other_type(lines)),
        Kind::Schedule => notes.extend(notes::unknown_entries(lines)),
        // The other formats show the product.
        Kind::Search if request.format == Format::Listing => notes.extend(notes::product(lines)),
        Kind::Search => {}
    }
    notes
}

fn lines_of<'a>(
    unit_type: UnitType,
    (commands, response): &'a (&[Command], Response),
) -> Vec<Line<'a>> {
    let pairs = answer::reported(commands).zip(&response.reports);
    let line = |(command, report)| Line {
        unit_type,
        command,
        report,
        response,
    };
    pairs.map(line).collect()
}

fn part(request: &Request, unit: &Unit, target: Target, lines: &[Line]) -> Part {
    let sender = lines.first().map(|line| line.response.sender);
    let name = unit.name.as_deref();
    let has_head = request.questions.len() > 1;
    Part {
        sender: sender.filter(|_| target.every),
        text: format::show(request.format, name, has_head, &shown(lines)),
    }
}

/// The lines that are shown: of raises and lowers, not the reads before them.
fn shown<'a>(lines: &[Line<'a>]) -> Vec<Line<'a>> {
    let steps = lines.iter().any(|line| line.command.is_step());
    let lines = lines.iter().filter(|line| !steps || line.command.is_step());
    lines.copied().collect()
}

#[cfg(test)]
mod tests {
    use super::*;
    use crate::ffi::{RAISE, READ};
    use std::time::{Duration, UNIX_EPOCH};

    fn request(kind: Kind) -> Request {
        Request {
            questions: Vec::new(),
            warning: None,
            kind,
            limit: Duration::ZERO,
            retries: 0,
            dump: false,
            format: Format::Listing,
            raw: None,
        }
    }

    fn response(port: u16, value: &[u8]) -> Response {
        Response {
            sender: ([127, 0, 0, 1], port).into(),
            time: UNIX_EPOCH,
            bytes: Vec::new(),
            reports: value
                .iter()
                .map(|value| Report::new(2, Some(&[*value])))
                .collect(),
        }
    }

    fn outcome(kind: Kind, every: bool, answers: Vec<(&[Command], Response)>) -> Outcome {
        let unit = Unit {
            name: None,
            host: String::new(),
            id: Vec::new(),
            password: Vec::new(),
            unit_type: UnitType::Micra,
        };
        let address = ([127, 0, 0, 1], 4000).into();
        of(&request(kind), &unit, Target { address, every }, answers)
    }

    fn texts(outcome: &Outcome) -> Vec<&str> {
        outcome.parts.iter().map(|part| &part.text[..]).collect()
    }

    #[test]
    fn boards_have_a_listing_each_and_packets_have_one() {
        let read = [Command::new(READ, 2, &[])];
        let answers = || vec![(&read[..], response(1, &[3])), (&read, response(2, &[4]))];
        let search = outcome(Kind::Search, true, answers());
        assert_eq!(
            texts(&search),
            ["number,value\n0x0002,03\n", "number,value\n0x0002,04\n"]
        );
        let senders = search.parts.iter().map(|part| part.sender);
        let ports: Vec<u16> = senders.flatten().map(|sender| sender.port()).collect();
        assert_eq!(ports, [1, 2]);
        let get = outcome(Kind::Rows, false, answers());
        assert_eq!(texts(&get), ["number,value\n0x0002,03\n0x0002,04\n"]);
        assert!(get.parts[0].sender.is_none() && get.responses.len() == 2);
    }

    #[test]
    fn the_read_before_a_raise_is_not_shown() {
        let raise = [Command::new(READ, 2, &[]), Command::new(RAISE, 2, &[])];
        let raised = outcome(Kind::Rows, false, vec![(&raise[..], response(1, &[5, 5]))]);
        assert_eq!(texts(&raised), ["number,value\n0x0002,05\n"]);
        assert!(raised.notes.len() == 1 && !raised.notes[0].failed);
    }
}
