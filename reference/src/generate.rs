//! Call lists from a seed. The calls are made here too, so that later calls can build on their answers.

mod blocks;
mod board_calls;
mod calendar;
mod capture_calls;
mod capture_damage;
mod captured;
mod contents;
mod drafts;
mod identities;
mod joining;
mod lines;
mod packets;
mod poke_calls;
mod responses;
mod schedule;
mod table_calls;
mod tool_calls;
mod values;

use crate::call::{self, Call};
use crate::random::Random;
use crate::replay::Session;

/// A list in the making.
struct Generator {
    random: Random,
    session: Session,
    lines: Vec<String>,
    calls: usize,
    limit: usize,
}

/// One or a few calls that belong together.
type Scenario = fn(&mut Generator);

/// How often a scenario comes, in parts of the sum of its table, and the scenario.
type Weighted = (usize, Scenario);

const BOARD_SCENARIOS: [Weighted; 26] = [
    (8, Generator::set_up),
    (24, Generator::rightful_traffic),
    (6, Generator::expert_traffic),
    (12, Generator::one_row),
    (8, Generator::search),
    (5, Generator::stranger),
    (4, Generator::malformed_block),
    (7, Generator::faulty_packet),
    (9, Generator::changed_packet),
    (5, Generator::packet_of_any_length),
    (6, Generator::full_response),
    (5, Generator::full_search_response),
    (16, Generator::measurement),
    (7, Generator::poke_row),
    (2, Generator::poke_identity),
    (3, Generator::poke_type),
    (20, Generator::schedule_traffic),
    (6, Generator::poke_entry),
    (13, Generator::calendar_traffic),
    (7, Generator::tool_to_board),
    (2, Generator::joined_packets),
    (7, Generator::faulty_write),
    (2, Generator::full_write),
    (8, Generator::handmade_response),
    (6, Generator::bad_line),
    (3, Generator::show_record),
];

/// What a board of VENTO Expert is tried with in its turn.
const EXPERT_SCENARIOS: [Weighted; 8] = [
    (6, Generator::rightful_traffic),
    (14, Generator::one_row),
    (14, Generator::measurement),
    (4, Generator::search),
    (1, Generator::stranger),
    (1, Generator::full_response),
    (3, Generator::poke_row),
    (1, Generator::tool_to_board),
];

const CAPTURE_SCENARIOS: [Weighted; 7] = [
    (16, Generator::sound_capture),
    (72, Generator::damaged_capture),
    (3, Generator::noise_capture),
    (10, Generator::many_boards),
    (12, Generator::capture_write),
    (20, Generator::faulty_capture_write),
    (2, Generator::bad_capture_line),
];

const TABLE_SCENARIOS: [Weighted; 8] = [
    (18, Generator::sound_export),
    (16, Generator::damaged_export),
    (2, Generator::export_of_many_boards),
    (8, Generator::sound_import),
    (44, Generator::damaged_import),
    (14, Generator::changed_import),
    (6, Generator::noise_import),
    (2, Generator::bad_table_line),
];

/// What a generated list tries.
#[derive(Clone, Copy, Debug, Default, PartialEq, Eq)]
pub enum Subject {
    /// The calls of board, tool and listing.
    #[default]
    Board,
    /// The calls on captures.
    Captures,
    /// The calls on tables.
    Tables,
}

/// A list of `count` calls of board, tool and listing.
pub fn list(seed: u64, count: usize) -> Vec<String> {
    Subject::Board.list(seed, count)
}

impl Subject {
    pub const ALL: [Subject; 3] = [Subject::Board, Subject::Captures, Subject::Tables];

    /// The word of a command line that asks for it; the board has none.
    pub fn word(self) -> Option<&'static str> {
        match self {
            Subject::Board => None,
            Subject::Captures => Some("captures"),
            Subject::Tables => Some("tables"),
        }
    }

    /// A list of `count` calls; lines that are passed over come on top of them.
    pub fn list(self, seed: u64, count: usize) -> Vec<String> {
        let mut generator = Generator::new(seed, count);
        while generator.calls < count {
            match self {
                Subject::Board => generator.board_scenario(),
                Subject::Captures => generator.capture_scenario(),
                Subject::Tables => generator.table_scenario(),
            }
        }
        generator.lines
    }
}

impl Generator {
    fn new(seed: u64, limit: usize) -> Generator {
        Generator {
            random: Random::new(seed),
            session: Session::new(),
            lines: Vec::new(),
            calls: 0,
            limit,
        }
    }

    fn board_scenario(&mut self) {
        if self.session.record.check().is_err() && self.random.chance(50) {
            self.set_up();
        }
        if self.random.chance(1) {
            self.passed_over_line();
        }
        if self.calls.is_multiple_of(500) && self.random.chance(50) {
            self.long_line();
        }
        self.scenario(&BOARD_SCENARIOS);
    }

    /// Sets a board of VENTO Expert up and stays with it for a while.
    fn expert_traffic(&mut self) {
        let unit_type = self.random.pick(&[3, 4, 5]);
        self.set_up_type(unit_type);
        for _ in 0..self.random.between(4, 16) {
            self.scenario(&EXPERT_SCENARIOS);
        }
    }

    fn capture_scenario(&mut self) {
        if self.random.chance(1) {
            self.passed_over_line();
        }
        if self.calls.is_multiple_of(300) && self.random.chance(50) {
            self.long_capture_line();
        }
        self.scenario(&CAPTURE_SCENARIOS);
    }

    fn table_scenario(&mut self) {
        if self.random.chance(1) {
            self.passed_over_line();
        }
        if self.calls.is_multiple_of(300) && self.random.chance(50) {
            self.long_table_line();
        }
        self.scenario(&TABLE_SCENARIOS);
    }

    fn scenario(&mut self, scenarios: &[Weighted]) {
        let sum: usize = scenarios.iter().map(|(weight, _)| weight).sum();
        let mut ticket = self.random.between(0, sum - 1);
        for (weight, scenario) in scenarios {
            if ticket < *weight {
                return scenario(self);
            }
            ticket -= weight;
        }
    }

    /// Adds a call and makes it; past the limit it does neither.
    fn call(&mut self, call: Call) -> String {
        self.line(call.to_string())
    }

    /// Adds any line and gives its answer, but for a call that the papers do not state.
    fn line(&mut self, line: String) -> String {
        let stated = call::parse(&line).is_none_or(|call| self.session.is_stated(&call));
        if self.calls >= self.limit || !stated {
            return String::new();
        }
        let answer = self.session.line(line.as_bytes());
        self.lines.push(line);
        self.calls += usize::from(answer.is_some());
        answer.unwrap_or_default()
    }

    fn show_record(&mut self) {
        self.call(Call::Record);
    }

    /// Now and then the whole state is compared.
    fn show_record_sometimes(&mut self, percent: usize) {
        if self.random.chance(percent) {
            self.show_record();
        }
    }

    fn id(&self) -> Vec<u8> {
        self.session.record.id.to_vec()
    }

    fn password(&self) -> Vec<u8> {
        self.session.record.password.clone()
    }

    /// Mostly the usual buffer, else one at an edge or of any length.
    fn buffer_length(&mut self) -> usize {
        if self.random.chance(85) {
            return 256;
        }
        let any = self.random.between(0, 1024);
        self.random
            .pick(&[0, 1, 24, 128, 254, 255, 257, 300, 512, 1023, 1024, any])
    }
}

#[cfg(test)]
mod tests {
    use super::*;
    use crate::replay;

    #[test]
    fn a_seed_gives_one_list_of_the_asked_length() {
        for subject in Subject::ALL {
            let first = subject.list(5, 700);
            assert_eq!(first, subject.list(5, 700));
            assert_ne!(first, subject.list(6, 700));
            let mut session = Session::new();
            let answers = first
                .iter()
                .filter_map(|line| session.line(line.as_bytes()))
                .count();
            assert_eq!(answers, 700);
            assert!(subject.list(5, 0).is_empty());
        }
    }

    #[test]
    fn every_call_is_stated() {
        for seed in 1..=5 {
            assert!(replay::is_stated(&list(seed, 10_000)));
        }
    }

    #[test]
    fn no_line_is_longer_than_a_replay_must_hold() {
        for (subject, longest) in Subject::ALL.into_iter().zip([8_192, 65_536, 65_536]) {
            let lines = subject.list(9, 5_000);
            assert!(lines.iter().all(|line| line.len() <= longest));
            assert!(lines.iter().any(|line| line.len() == longest));
        }
    }
}
