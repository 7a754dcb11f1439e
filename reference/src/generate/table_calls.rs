//! Calls on tables: captures are exported, tables of every kind imported.

use super::capture_calls::LONGEST_LINE;
use super::capture_damage::Sketch;
use super::captured::{self, Contents};
use super::drafts::{self, Draft};
use super::{Generator, responses};
use crate::call::{Call, MOST_ROOM};
use crate::capture;
use crate::hex;
use crate::table::{self, HEADER};

/// The longest table that is shown: its digits fit the longest answer that a replay must hold.
const LONGEST_TABLE: usize = 70_000;

/// Lines that have none of the forms.
const BAD_LINES: [&str; 26] = [
    "export",
    "export -",
    "export 0",
    "export 0 ",
    "export 0  -",
    "export 0 - -",
    "export 00 -",
    "export - -",
    "export +1 -",
    "export 1048577 -",
    "export 18446744073709551616 -",
    "export 0 564c47",
    "export 0 5",
    "export 0 56 4C",
    "Export 0 -",
    "exports 0 -",
    "import",
    "import ",
    "import  -",
    "import - -",
    "import 0 -",
    "import 5",
    "import 2g",
    "import 0d0a",
    "import --",
    "Import -",
];

impl Generator {
    /// The export of a capture that is accepted.
    pub fn sound_export(&mut self) {
        let version = self.version();
        let contents = Contents::of_responses(&mut self.random, version);
        self.export(contents.bytes());
    }

    /// The export of a capture with one kind of damage.
    pub fn damaged_export(&mut self) {
        let version = self.version();
        let contents = Contents::of_responses(&mut self.random, version);
        let mut capture = Sketch::new(&contents);
        capture.damage(&mut self.random);
        self.export(capture.bytes);
    }

    /// The export of a capture of many boards.
    pub fn export_of_many_boards(&mut self) {
        let contents = Contents::many_boards(&mut self.random);
        let contents = contents.with_responses(&mut self.random);
        self.export(contents.bytes());
    }

    /// The import of a table that is accepted.
    pub fn sound_import(&mut self) {
        let table = self.draft().bytes();
        self.import(table);
    }

    /// The import of a table with damage in its parts, now and then in any byte too.
    pub fn damaged_import(&mut self) {
        let mut draft = self.draft();
        draft.damage(&mut self.random);
        let mut table = draft.bytes();
        if self.random.chance(10) {
            drafts::change_bytes(&mut self.random, &mut table);
        }
        self.import(table);
    }

    /// The import of a table with damage in any byte, at its ends or in all line ends.
    pub fn changed_import(&mut self) {
        let mut table = self.draft().bytes();
        match self.random.chance(70) {
            true => drafts::change_bytes(&mut self.random, &mut table),
            false => drafts::change_whole(&mut self.random, &mut table),
        }
        self.import(table);
    }

    /// The import of bytes that matter to a table, behind a header, part of one or none.
    pub fn noise_import(&mut self) {
        let header = format!("{HEADER}\r\n").into_bytes();
        let length = self.random.between(0, header.len());
        let length = self.random.pick(&[0, 46, 48, 48, 48, 48, length]);
        let mut table = header[..length].to_vec();
        let count = self.random.between(0, 12);
        let count = self.random.pick(&[0, count, count, count]);
        let noise = (0..count).map(|_| self.random.pick(b"\"\"\"\",,,\r\nx1"));
        table.extend(noise.collect::<Vec<u8>>());
        if self.random.chance(60) {
            table.extend_from_slice(b"\r\n");
        }
        self.import(table);
    }

    pub fn bad_table_line(&mut self) {
        self.bad_line_of(&BAD_LINES);
    }

    /// A line of 65,536 characters, or just under.
    pub fn long_table_line(&mut self) {
        match self.random.chance(50) {
            true => self.long_export(),
            false => self.long_import(),
        }
    }

    fn long_export(&mut self) {
        let longest = (LONGEST_LINE - "export 999999 ".len()) / 2;
        let ids = captured::ids(&mut self.random, 2);
        let version = self.version();
        let records = match self.random.chance(30) {
            // A table that is longer than a replay can show.
            true => vec![responses::full(&mut self.random); 110],
            false => self.records_of(version, &ids, longest),
        };
        let mut bytes = capture::compose(version, &ids.concat(), &records);
        bytes.resize(longest, 0);
        self.export_to(999_999, bytes);
    }

    fn long_import(&mut self) {
        let longest = (LONGEST_LINE - "import ".len()) / 2;
        let draft = Draft::new(&mut self.random, 500);
        let mut table = draft.bytes_up_to(longest);
        let filler = self.random.pick(b"x\"\r\n0,");
        match self.random.between(0, 3) {
            0 => {}
            1 => table.resize(longest, filler),
            2 => {
                table.truncate(HEADER.len() + 2);
                table.resize(longest - 2, filler);
                table.extend_from_slice(b"\r\n");
            }
            _ => drafts::change_bytes(&mut self.random, &mut table),
        }
        table.truncate(longest);
        self.import(table);
    }

    fn draft(&mut self) -> Draft {
        let many = self.random.between(8, 40);
        let usual = self.random.pick(&[0, 1, 1, 1, 2, 2, 3, 4]);
        let rows = if self.random.chance(5) { many } else { usual };
        Draft::new(&mut self.random, rows)
    }

    /// Exports a capture with exactly the room that it needs, one byte less or more, none or much.
    fn export(&mut self, capture: Vec<u8>) {
        let size = table::table(&capture).text.len();
        let room = match self.random.chance(2) {
            true => MOST_ROOM,
            false => self.room_for(size),
        };
        self.export_to(room, capture);
    }

    /// Exports a capture, with too little room if its table is too long to be shown; then imports the table in some cases.
    fn export_to(&mut self, room: usize, capture: Vec<u8>) {
        let size = table::table(&capture).text.len();
        let room = match size > LONGEST_TABLE {
            true => room.min(size - 1),
            false => room,
        };
        let answer = self.capture_call(Call::Export { room, capture });
        let Some(table) = answer.strip_prefix("table ") else {
            return;
        };
        let table = table.split(' ').next().and_then(hex::parse_field);
        if let Some(mut table) = table.filter(|_| self.random.chance(40)) {
            if self.random.chance(30) {
                drafts::change_bytes(&mut self.random, &mut table);
            }
            self.import(table);
        }
    }

    fn import(&mut self, table: Vec<u8>) {
        self.capture_call(Call::Import { table });
    }
}

#[cfg(test)]
mod tests {
    use super::*;
    use crate::call;
    use crate::generate::Subject;
    use crate::replay::Session;

    #[test]
    fn the_bad_lines_are_bad() {
        for line in BAD_LINES {
            assert_eq!(call::parse(line), None, "{line}");
        }
    }

    #[test]
    fn no_answer_is_longer_than_a_replay_must_hold() {
        let mut session = Session::new();
        for line in Subject::Tables.list(4, 5_000) {
            let answer = session.line(line.as_bytes()).unwrap_or_default();
            assert!(answer.len() <= 2 * LONGEST_TABLE + 100);
        }
    }
}
