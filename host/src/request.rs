//! What is asked, of which boards, and how the answers are shown.

use std::path::PathBuf;
use std::time::Duration;

use crate::boards::Unit;
use crate::ffi::{Command, READ};
use crate::format::Format;
use crate::packing;
use crate::refusal::Refusal;
use crate::target;

#[derive(Debug)]
pub struct Request {
    pub questions: Vec<Question>,
    /// About the file of boards.
    pub warning: Option<String>,
    pub kind: Kind,
    pub limit: Duration,
    pub retries: u32,
    pub dump: bool,
    pub format: Format,
    pub raw: Option<Raw>,
}

/// What one board is asked: the same words are other commands to a board of another unit type.
#[derive(Debug)]
pub struct Question {
    pub unit: Unit,
    pub commands: Vec<Command>,
}

#[derive(Clone, Copy, Debug, PartialEq, Eq)]
pub enum Kind {
    Rows,
    Schedule,
    /// A discovery, which bears no password.
    Search,
}

/// Where the response's bytes go.
#[derive(Debug, PartialEq, Eq)]
pub enum Raw {
    /// Instead of what is shown.
    Output,
    File(PathBuf),
}

impl Question {
    fn is_change(&self) -> bool {
        self.commands.iter().any(|command| command.function != READ)
    }

    /// In one packet, and its reports in one response.
    fn fits(&self) -> bool {
        let unit = &self.unit;
        packing::fits(unit.unit_type, &self.commands, &unit.password)
    }

    /// The commands joined in packets.
    pub fn packets(&self) -> Result<Vec<&[Command]>, Refusal> {
        let unit = &self.unit;
        packing::pack(unit.unit_type, &self.commands, &unit.password)
    }
}

impl Request {
    pub fn is_change(&self) -> bool {
        self.questions.iter().any(Question::is_change)
    }

    /// Whether the request can be sent as it is meant; if not, why.
    pub fn check(&self) -> Result<(), String> {
        if self.is_change() && !self.questions.iter().all(Question::fits) {
            return Err(String::from(
                "these changes do not fit one packet of 256 bytes, or their response does not: ask for fewer at a time",
            ));
        }
        if self.raw.is_none() {
            return Ok(());
        }
        let every = |unit: &Unit| self.kind == Kind::Search && target::is_broadcast(&unit.host);
        let is_many = |question: &Question| {
            let packets = question.packets();
            every(&question.unit) || packets.is_ok_and(|packets| packets.len() > 1)
        };
        match &self.questions[..] {
            [question] if is_many(question) => Err(String::from(
                "--raw keeps one response, and here are more: ask one host for less",
            )),
            [_] => Ok(()),
            _ => Err(String::from("--raw keeps one response: ask one board")),
        }
    }
}
