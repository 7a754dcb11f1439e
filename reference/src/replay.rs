//! Replay: makes the calls of a list in order on one board and writes one line for each.

use std::io::{self, BufRead, Write};

use crate::block::{Command, Report};
use crate::board;
use crate::call::{self, Call};
use crate::capture::{self, Captured, Version};
use crate::hex;
use crate::listing;
use crate::record::{self, Record};
use crate::refusal::Refusal;
use crate::rows::UNIT_TYPE_ROW;
use crate::schedule;
use crate::summary;
use crate::table::{self, Exported, Row};
use crate::tool;
use crate::units::{self, MICRA};

pub const BAD_LINE: &str = "bad line";

/// What each byte of a buffer is before the call.
const FILLER: u8 = 0xA5;

/// The board of a call list.
#[derive(Clone)]
pub struct Session {
    pub record: Record,
    /// The unit type that the last set-up gave.
    given_type: u8,
}

impl Default for Session {
    fn default() -> Session {
        Session::new()
    }
}

impl Session {
    /// Before the first set-up the board is that of a refused one.
    pub fn new() -> Session {
        Session {
            record: Record::refused(),
            given_type: MICRA,
        }
    }

    /// Whether the papers state what a call does now.
    ///
    /// A poked type is for trying refusal 70. How rows of different types share their room in a record is each implementation's own
    /// matter, so what the rows hold is not stated while the type is poked to another one of 2 to 5 than the one that set-up gave.
    /// Fixed, generated and stored lists make no call on the rows then, and let no packet or measurement meet a 00B9 that follows the
    /// poked type. All is stated where the type is none of 2 to 5, which has no rows, and again after it is poked back.
    pub fn is_stated(&self, call: &Call) -> bool {
        match call {
            Call::Record | Call::PokeRow { .. } | Call::PokeEntry { .. } => {
                !self.is_another(self.record.unit_type)
            }
            Call::PokeType(unit_type) => {
                let row = &self.record.values[&UNIT_TYPE_ROW];
                !self.is_another(*unit_type) || *row != units::row_value(*unit_type)
            }
            _ => true,
        }
    }

    /// Whether this is a unit type, but not the one that set-up gave.
    fn is_another(&self, unit_type: u8) -> bool {
        units::ALL.contains(&unit_type) && unit_type != self.given_type
    }

    /// The answer to one line, its line end taken off; none for a line that is passed over.
    pub fn line(&mut self, line: &[u8]) -> Option<String> {
        if line.is_empty() || line[0] == b'#' {
            return None;
        }
        let call = std::str::from_utf8(line).ok().and_then(call::parse);
        Some(match call {
            Some(call) => self.answer(&call),
            None => BAD_LINE.to_string(),
        })
    }

    /// Makes one call.
    pub fn answer(&mut self, call: &Call) -> String {
        match call {
            Call::Setup {
                id,
                password,
                mode,
                unit_type,
            } => self.setup(id, password, *mode, unit_type.unwrap_or(MICRA)),
            Call::Packet { length, packet } => self.packet(*length, packet),
            Call::Measure { number, value } => {
                accepted(board::measure(&mut self.record, *number, value))
            }
            Call::Record => show(&self.record),
            Call::Write {
                length,
                id,
                password,
                commands,
            } => write(*length, id, password, commands),
            Call::Read {
                id,
                password,
                packet,
            } => read(id, password, packet),
            Call::List { packet } => listing::lines(packet).join("|"),
            Call::CaptureRead { capture } => read_capture(capture),
            Call::CaptureWrite { room, ids, records } => {
                write_capture(*room, &ids.concat(), records)
            }
            Call::Summary { capture } => summarize(capture),
            Call::Rewrite { room, capture } => rewrite(*room, capture),
            Call::Export { room, capture } => export(*room, capture),
            Call::Import { table } => import(table),
            poke => self.poke(poke),
        }
    }

    fn setup(&mut self, id: &[u8], password: &[u8], mode: u8, unit_type: u8) -> String {
        let (record, answer) = record::setup(id, password, mode, unit_type);
        self.given_type = record.unit_type;
        self.record = record;
        accepted(answer)
    }

    fn packet(&mut self, length: usize, packet: &[u8]) -> String {
        let mut buffer = vec![FILLER; length];
        let answer = board::packet(&mut self.record, packet, &mut buffer);
        written("response", &buffer, answer)
    }

    fn poke(&mut self, call: &Call) -> String {
        match call {
            Call::PokeRow { number, value } => self.record.poke_row(*number, value),
            Call::PokeEntry { day, period, value } => {
                self.record.poke_entry(*day, *period, value);
            }
            Call::PokeId(id) => self.record.poke_id(id),
            Call::PokePassword(password) => self.record.poke_password(password),
            Call::PokeMode(mode) => self.record.mode = *mode,
            Call::PokeType(unit_type) => self.record.unit_type = *unit_type,
            _ => unreachable!("only pokes come here"),
        }
        "poked".to_string()
    }
}

fn refused(refusal: Refusal) -> String {
    format!("refused {}", refusal.number())
}

fn accepted(answer: Result<(), Refusal>) -> String {
    match answer {
        Ok(()) => "accepted".to_string(),
        Err(refusal) => refused(refusal),
    }
}

/// Marks a buffer that was changed outside the returned length.
fn dirty(buffer: &[u8], answer: Result<usize, Refusal>) -> &'static str {
    let rest = &buffer[answer.unwrap_or(0)..];
    if rest.iter().all(|byte| *byte == FILLER) {
        ""
    } else {
        " dirty"
    }
}

/// What stands at the front of a buffer, named by a word; silence for nothing, or the refusal.
fn written(word: &str, buffer: &[u8], answer: Result<usize, Refusal>) -> String {
    let text = match answer {
        Ok(0) => "silence".to_string(),
        Ok(length) => format!("{word} {}", hex::digits(&buffer[..length])),
        Err(refusal) => refused(refusal),
    };
    text + dirty(buffer, answer)
}

fn write(length: usize, id: &[u8], password: &[u8], commands: &[Command]) -> String {
    let mut buffer = vec![FILLER; length];
    let answer = tool::write(&mut buffer, id, password, commands);
    written("packet", &buffer, answer)
}

fn write_capture(room: usize, ids: &[u8], records: &[Captured]) -> String {
    let mut buffer = vec![FILLER; room];
    let answer = capture::write(&mut buffer, ids, records);
    written("capture", &buffer, answer)
}

fn rewrite(room: usize, capture: &[u8]) -> String {
    let mut buffer = vec![FILLER; room];
    let answer = capture::rewrite(&mut buffer, capture);
    let beside = answer.as_ref().ok().and_then(|rewritten| rewritten.refusal);
    let text = written("capture", &buffer, answer.map(|rewritten| rewritten.length));
    match beside {
        Some(refusal) => format!("{text} {}", refused(refusal)),
        None => text,
    }
}

fn read_capture(capture: &[u8]) -> String {
    let reading = capture::read(capture);
    let version = reading.version.map_or(0, Version::number);
    let mut text = format!("version {version}");
    for id in &reading.ids {
        text += &format!(" id:{}", hex::digits(id));
    }
    for record in &reading.records {
        text += &format!(" rec:{}", call::captured(record));
    }
    if let Some(refusal) = reading.refusal {
        text += &format!(" {}", refused(refusal));
    }
    text
}

fn summarize(capture: &[u8]) -> String {
    match &summary::lines(capture)[..] {
        [] => "-".to_string(),
        lines => lines.join("|"),
    }
}

/// The table, then how many responses were refused, and why the capture was if it was.
fn export(room: usize, capture: &[u8]) -> String {
    let mut buffer = vec![FILLER; room];
    let Exported {
        length,
        refused,
        refusal,
    } = match table::export(&mut buffer, capture) {
        Ok(exported) => exported,
        Err(refusal) => return written("table", &buffer, Err(refusal)),
    };
    let text = written("table", &buffer, Ok(length));
    let beside = refusal.map(|refusal| format!(" capture,{}", refusal.number()));
    format!("{text} refused,{refused}{}", beside.unwrap_or_default())
}

fn import(text: &[u8]) -> String {
    let imported = table::import(text);
    let mut text = "reports".to_string();
    for row in &imported.rows {
        text += &format!(" {}", shown_row(row));
    }
    if let Some((refusal, line)) = imported.refusal {
        text += &format!(" {} line {line}", refused(refusal));
    }
    text
}

/// `ID.D.C.NNNN=HEX`, or `unknown` for the value.
fn shown_row(row: &Row) -> String {
    let Row {
        board,
        direction,
        counter,
        report,
    } = row;
    let board = hex::digits(board);
    format!("{board}.{direction}.{counter}.{}", shown_report(report))
}

fn read(id: &[u8], password: &[u8], packet: &[u8]) -> String {
    match tool::read(id, password, packet) {
        Ok(reports) => reports.iter().fold("reports".to_string(), |text, report| {
            format!("{text} {}", shown_report(report))
        }),
        Err(refusal) => refused(refusal),
    }
}

/// `NNNN=HEX`, or `unknown` for the value.
fn shown_report(report: &Report) -> String {
    match report {
        Report::Value { number, value } => format!("{number:04X}={}", hex::field(value)),
        Report::Unknown { number } => format!("{number:04X}=unknown"),
    }
}

/// The whole record, legal or not.
fn show(record: &Record) -> String {
    let identity = format!(
        "record id={} password={} mode={} type={}",
        hex::field(&record.id),
        hex::field(&record.password),
        record.mode,
        record.unit_type
    );
    let rows = record
        .rows()
        .map(|(number, value)| format!(" {number:04X}={}", hex::field(value)));
    let entries = record.entries().map(|(day, period, entry)| {
        let number = schedule::NUMBER;
        format!(" {number:04X}:{day}.{period}={}", hex::field(entry))
    });
    identity + &rows.chain(entries).collect::<String>()
}

/// Whether the papers state what each call of a list does.
pub fn is_stated<Line: AsRef<str>>(lines: &[Line]) -> bool {
    let mut session = Session::new();
    lines.iter().all(|line| {
        let line = line.as_ref();
        let stated = call::parse(line).is_none_or(|call| session.is_stated(&call));
        session.line(line.as_bytes());
        stated
    })
}

/// Replays a whole list, line by line.
pub fn replay(mut input: impl BufRead, mut output: impl Write) -> io::Result<()> {
    let mut session = Session::new();
    let mut line = Vec::new();
    while input.read_until(b'\n', &mut line)? > 0 {
        if line.last() == Some(&b'\n') {
            line.pop();
        }
        if let Some(answer) = session.line(&line) {
            writeln!(output, "{answer}")?;
        }
        line.clear();
    }
    output.flush()
}

#[cfg(test)]
mod tests {
    use super::*;

    fn run(list: &str) -> String {
        let mut output = Vec::new();
        replay(list.as_bytes(), &mut output).unwrap();
        String::from_utf8(output).unwrap()
    }

    #[test]
    fn comments_and_empty_lines_are_passed_over() {
        assert_eq!(run(""), "");
        assert_eq!(run("\n# text\n#\n\nlist -\n"), "refused,2\n");
        assert_eq!(run("list -"), "refused,2\n");
        assert_eq!(
            run(" # text\n\r\nlist -\r\n"),
            "bad line\nbad line\nbad line\n"
        );
    }

    #[test]
    fn bytes_that_are_no_text_are_a_bad_line() {
        let mut output = Vec::new();
        replay(&b"\xFF\xFE\n# \xFF\nlist \xC3\xA9\n"[..], &mut output).unwrap();
        assert_eq!(output, b"bad line\nbad line\n");
    }

    #[test]
    fn before_the_first_setup_the_board_is_a_refused_one() {
        let first = run("record\n");
        assert!(first.starts_with(
            "record id=00000000000000000000000000000000 password=- mode=1 type=2 0001=00 0002=01 0003=03 "
        ));
        assert!(first.contains(
            " 00B9=0200 00F0=00 0111=0000 0112=000000000000 0400=00 0401=00 0402=00 0077:1.1="
        ));
        assert!(first.ends_with(" 0077:7.2=00000000 0077:7.3=00000000 0077:7.4=00000000\n"));
        let refused = run("setup 00 - 1\nrecord\n");
        assert_eq!(refused, format!("refused 20\n{first}"));
    }

    #[test]
    fn bad_lines_change_nothing() {
        let lines = run("record\nsetup 00 - 256\nsetup 00 -  1\nrecord\n");
        let lines: Vec<&str> = lines.lines().collect();
        assert_eq!(lines[0], lines[3]);
        assert_eq!(lines[1..3], ["bad line", "bad line"]);
    }

    #[test]
    fn pokes_show_in_the_record_also_where_70_refuses_it() {
        let lines = run(
            "poke 0095 -\npoke mode 7\npoke password 2A\npoke 0063 FF\nrecord\npacket 0 -\nmeasure FFFF -\n",
        );
        let lines: Vec<&str> = lines.lines().collect();
        assert_eq!(lines[..4], ["poked"; 4]);
        assert!(lines[4].contains(" password=2A mode=7 type=2 "));
        assert!(lines[4].contains(" 0095=- ") && lines[4].contains(" 0063=FF00 "));
        assert_eq!(lines[5..], ["refused 70", "refused 70"]);
    }

    #[test]
    fn the_28_entries_are_shown_behind_the_rows() {
        let mut list = String::new();
        let mut expected = String::new();
        for (day, period) in (1..=7).flat_map(|day| (1..=4).map(move |period| (day, period))) {
            list += &format!("poke 0077:{day}.{period} 0{day}0{period}FF0099\n");
            expected += &format!(" 0077:{day}.{period}=0{day}0{period}FF00");
        }
        let lines = run(&format!("{list}poke 0077 05\nrecord\n"));
        let (pokes, shown) = lines.rsplit_once("poked\n").unwrap();
        assert_eq!(pokes, "poked\n".repeat(28));
        assert!(shown.ends_with(&format!(" 0402=00{expected}\n")), "{shown}");
    }

    #[test]
    fn a_record_shows_the_rows_of_its_type() {
        let id = "30".repeat(16);
        let shown = run(&format!("setup {id} - 2 5\npoke 0077:1.1 05\nrecord\n"));
        let head = format!("accepted\npoked\nrecord id={id} password=- mode=2 type=5 0001=00 ");
        assert!(shown.starts_with(&head), "{shown}");
        assert!(shown.ends_with(" 00B7=00 00B9=0500 0302=0000 0303=0000 0304=00\n"));
        let shown = run(&format!(
            "setup {id} - 2 4\npoke type 6\npoke 0001 01\npoke 0077:1.1 05\nrecord\npacket 0 -\n\
             poke type 4\nrecord\n"
        ));
        let lines: Vec<&str> = shown.lines().collect();
        let nothing = format!("record id={id} password=- mode=2 type=6");
        assert_eq!(lines[4..6], [&nothing, "refused 70"]);
        assert!(lines[7].contains(" type=4 0001=00 ") && !lines[7].contains("0077"));
    }

    #[test]
    fn rows_of_another_type_than_given_are_not_stated() {
        let setup = format!("setup {} - 1 3", "30".repeat(16));
        for (lines, stated) in [
            (
                &["poke type 4", "packet 256 -", "measure 0064 00"][..],
                true,
            ),
            (&["poke type 4", "record"], false),
            (&["poke type 2", "poke 0077:1.1 00"], false),
            (&["poke type 5", "poke 0001 00"], false),
            (
                &["poke type 5", "poke mode 2", "poke type 3", "record"],
                true,
            ),
            (&["poke type 6", "record", "poke 0001 00"], true),
            (
                &["poke 00B9 02", "record", "poke type 4", "packet 0 -"],
                true,
            ),
            (&["poke 00B9 02", "poke type 2"], false),
            (&["poke type 2", "setup - - 1", "record"], true),
            (&["recor", "# record"], true),
        ] {
            let list = [&[setup.as_str()], lines].concat();
            assert_eq!(is_stated(&list), stated, "{lines:?}");
        }
    }

    #[test]
    fn captures_are_written_read_and_summed_up() {
        let id = "30".repeat(16);
        let written = format!("564C4702000100{id}0000010500000002000102");
        let list = format!("capwrite 34 {id} 0.1.5.0102\n");
        assert_eq!(run(&list), format!("capture {written}\n"));
        let of_version_1 = format!("564C47010001{id}00010500000002000102");
        for (number, capture) in [(1, of_version_1), (2, written)] {
            let list = format!(
                "capread {capture}\nsummary {capture}\ncapread {capture}00\nsummary {capture}00\n"
            );
            let read = format!("version {number} id:{id} rec:0.1.5.0102");
            let expected = format!("{read}\n0,2,1\n{read} refused 53\n0,2,1|refused,53\n");
            assert_eq!(run(&list), expected);
            let empty = &capture[..capture.len() - 2 * (number + 7) - 4];
            let list = format!("capread {empty}\nsummary {empty}\n");
            assert_eq!(run(&list), format!("version {number} id:{id}\n-\n"));
        }
        assert_eq!(
            run("capread -\nsummary -\ncapwrite 0 -\ncapread 564C470100\ncapread 564C470200\n"),
            "version 0 refused 50\nrefused,50\nrefused 52\nversion 1 refused 52\nversion 2 refused 52\n"
        );
    }

    #[test]
    fn captures_are_rewritten() {
        let id = "30".repeat(16);
        let of_version_1 = format!("564C47010001{id}00010500000002000102");
        let of_version_2 = format!("564C4702000100{id}0000010500000002000102");
        for capture in [&of_version_1, &of_version_2] {
            let list = format!(
                "rewrite 34 {capture}\nrewrite 33 {capture}\nrewrite 1000 {capture}00\nrewrite 33 {capture}00\n"
            );
            let whole = format!("capture {of_version_2}");
            let expected = format!("{whole}\nrefused 54\n{whole} refused 53\nrefused 54\n");
            assert_eq!(run(&list), expected);
        }
        assert_eq!(
            run("rewrite 0 -\nrewrite 0 564C47\nrewrite 0 564C470100\n"),
            "refused 50\nrefused 51\nrefused 52\n"
        );
    }

    #[test]
    fn captures_are_exported() {
        let id = "30".repeat(16);
        let capture = format!("564C47010001{id}00010500000002000102");
        // The header and its line end.
        let header = "22626F617264222C22646972656374696F6E222C22636F756E746572222C226E756D626572222C2276616C7565220D0A";
        let list = format!(
            "export 48 {capture}\nexport 47 {capture}\nexport 50 {capture}00\nexport 48 -\nexport 0 -\n"
        );
        let expected = format!(
            "table {header} refused,1\nrefused 54\ntable {header} refused,1 capture,53\n\
             table {header} refused,0 capture,50\nrefused 54\n"
        );
        assert_eq!(run(&list), expected);
    }

    #[test]
    fn tables_are_imported() {
        let header = "22626F617264222C22646972656374696F6E222C22636F756E746572222C226E756D626572222C2276616C7565220D0A";
        let line = |value: &str| {
            let id = "30".repeat(32);
            let text = format!("\",\"1\",\"70\",\"0x02AB\",\"{value}\"\r\n");
            format!("2278{id}{}", hex::digits(text.as_bytes()))
        };
        let id = "0".repeat(32);
        let (value, unknown) = (line("xC0DE"), line("x"));
        let list = format!(
            "import {header}\nimport {header}{value}{unknown}\nimport {header}{value}0D0A\nimport -\n"
        );
        let expected = format!(
            "reports\nreports {id}.1.70.02AB=C0DE {id}.1.70.02AB=unknown\n\
             reports {id}.1.70.02AB=C0DE refused 61 line 3\nreports refused 60 line 1\n"
        );
        assert_eq!(run(&list), expected);
    }

    #[test]
    fn a_line_of_any_length_is_read() {
        let long = format!("packet 1024 {}\n", "FD".repeat(100_000));
        assert_eq!(run(&long), "refused 2\n");
    }
}
