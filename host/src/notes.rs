//! What must be told beside the reports: what was not stored, what a raise did not change, and of which product a board is.

use crate::entry::Place;
use crate::escape;
use crate::ffi::{Command, LOWER, RAISE, READ, WRITE};
use crate::hex;
use crate::outcome::Line;
use crate::reading::Shown;
use crate::report::Report;
use crate::rows::{self, Access};
use crate::unit_type::UnitType;
use crate::values::INVERT;

/// A line on standard error.
#[derive(Debug, PartialEq, Eq)]
pub struct Note {
    pub text: String,
    /// Whether the command failed by it.
    pub failed: bool,
}

/// What a person must know of the changes that were asked for.
pub fn of(lines: &[Line]) -> Vec<Note> {
    let before = std::iter::once(None).chain(lines.iter().map(|line| Some(line.report)));
    let pairs = before.zip(lines);
    pairs
        .filter_map(|(before, line)| match line.command.function {
            WRITE => not_stored(line.unit_type, line.command, line.report),
            RAISE | LOWER => unchanged(line.unit_type, before, line.command, line.report),
            _ => None,
        })
        .collect()
}

/// The first line that reports the unit type, and the type's number.
fn first_type<'a, 'b>(lines: &'a [Line<'b>]) -> Option<(&'a Line<'b>, u16)> {
    const NUMBER: u16 = 0x00B9;
    let line = lines.iter().find(|line| line.report.number == NUMBER)?;
    let bytes = line.report.value.as_deref()?.try_into().ok()?;
    Some((line, u16::from_le_bytes(bytes)))
}

/// A unit type as messages call it, also one that there is not.
fn type_words(number: u16) -> String {
    let unknown = || format!("type {number} (which is none of 2 to 5)");
    UnitType::of(number).map_or_else(unknown, |unit_type| unit_type.to_string())
}

/// Which product has answered a search.
pub fn product(lines: &[Line]) -> Option<Note> {
    let (line, number) = first_type(lines)?;
    let id = escape::identity(line.response.id());
    Some(Note {
        text: format!("{id} is {}", type_words(number)),
        failed: false,
    })
}

/// A board whose type is another than it was asked as: names and values were then those of the other.
pub fn other_type(lines: &[Line]) -> Option<Note> {
    let (line, number) = first_type(lines)?;
    let asked = line.unit_type;
    let is_other = u16::from(asked.number()) != number;
    is_other.then(|| Note {
        text: format!(
            "the board is {}, but was asked as {asked}: names and values are those of the latter",
            type_words(number)
        ),
        failed: false,
    })
}

/// A board that does not know an entry cannot show the schedule.
pub fn unknown_entries(lines: &[Line]) -> Vec<Note> {
    let is_unknown = |line: &&Line| line.command.function == READ && line.report.value.is_none();
    let unknown = lines.iter().filter(is_unknown);
    let places = unknown.filter_map(|line| Place::of(&line.command.value));
    let note = |place: Place| Note {
        text: format!(
            "the board reports 0x0077 as unknown for {}",
            place.reported()
        ),
        failed: true,
    };
    places.map(note).collect()
}

fn not_stored(unit_type: UnitType, command: &Command, report: &Report) -> Option<Note> {
    let number = command.number;
    if is_stored(unit_type, command, report.value.as_deref()) {
        return None;
    }
    let sent = show(unit_type, number, &command.value);
    let held = match &report.value {
        Some(value) => format!("held {}", show(unit_type, number, value)),
        None => String::from("the board does not know it"),
    };
    let title = rows::title(unit_type, number);
    Some(Note {
        text: format!("{title} was not stored: sent {sent}, {held}"),
        failed: true,
    })
}

/// Whether a board that holds this has stored what was written.
fn is_stored(unit_type: UnitType, command: &Command, held: Option<&[u8]>) -> bool {
    let (number, sent) = (command.number, &command.value[..]);
    let row = rows::find(unit_type, number);
    let inverts = row.is_some_and(|row| row.access == Access::Invert);
    match held {
        None => false,
        Some(held) if rows::is_schedule(unit_type, number) => is_entry_stored(sent, held),
        Some(held) if inverts && sent == [INVERT] => matches!(held, [0 | 1]),
        Some(held) => held == sent,
    }
}

/// An entry is reported of the first of its days.
fn is_entry_stored(sent: &[u8], held: &[u8]) -> bool {
    const PLACE: usize = 2;
    let place = Place::of(sent).map(Place::reported);
    place == Place::of(held) && sent.get(PLACE..) == held.get(PLACE..)
}

/// A raise or a lower is asked with a read before it.
fn unchanged(
    unit_type: UnitType,
    before: Option<&Report>,
    command: &Command,
    report: &Report,
) -> Option<Note> {
    let held = report.value.as_ref()?;
    if before != Some(report) {
        return None;
    }
    let name = if command.function == RAISE {
        "raise"
    } else {
        "lower"
    };
    let number = command.number;
    let why = match rows::find(unit_type, number).map(|row| row.access) {
        Some(Access::Step) => String::from("no further value"),
        Some(_) => format!("the row takes no {name}"),
        None => format!("no further value, or the row takes no {name}"),
    };
    let title = rows::title(unit_type, number);
    let held = show(unit_type, number, held);
    Some(Note {
        text: format!("{title} stays {held}: {why}"),
        failed: false,
    })
}

/// A value with its bytes: `21 degC (15)`.
fn show(unit_type: UnitType, number: u16, value: &[u8]) -> String {
    let digits = hex::digits(value);
    let row = rows::find(unit_type, number).filter(|row| row.size.range().contains(&value.len()));
    match row.map(|row| row.reading.show(value)) {
        Some(Shown::Entry(entry)) => format!("{} ({digits})", entry.words()),
        Some(shown) => format!("{shown} ({digits})"),
        None => format!("0x{digits}"),
    }
}

#[cfg(test)]
mod tests {
    use super::*;
    use crate::exchange::Response;
    use crate::ffi;

    fn told(number: u16, sent: &[u8], held: Option<&[u8]>) -> Option<String> {
        told_of(UnitType::Micra, number, sent, held)
    }

    fn told_of(
        unit_type: UnitType,
        number: u16,
        sent: &[u8],
        held: Option<&[u8]>,
    ) -> Option<String> {
        let note = not_stored(
            unit_type,
            &Command::new(WRITE, number, sent),
            &Report::new(number, held),
        )?;
        assert!(note.failed);
        Some(note.text)
    }

    /// The timer of the VENTO Expert is no switch: a 2 that leaves 0 was not stored.
    #[test]
    fn what_was_stored_goes_by_the_unit_type() {
        let (micra, expert) = (UnitType::Micra, UnitType::ExpertDuo);
        assert_eq!(told_of(micra, 0x07, &[2], Some(&[0])), None);
        assert_eq!(told_of(expert, 0x07, &[2], Some(&[2])), None);
        let text = "night-party-timer (0x0007) was not stored: sent party (02), held off (00)";
        let note = told_of(expert, 0x07, &[2], Some(&[0]));
        assert_eq!(note.as_deref(), Some(text));
        let text = "0x0077 was not stored: sent 0x0101, the board does not know it";
        let note = told_of(expert, 0x77, &[1, 1], None);
        assert_eq!(note.as_deref(), Some(text));
    }

    /// The notes of a report of 0x00B9, for a board that was asked as a Micra.
    fn typed(value: Option<&[u8]>) -> [Option<String>; 2] {
        let (command, report) = (Command::new(READ, 0xB9, &[]), Report::new(0xB9, value));
        let response = Response {
            sender: ([127, 0, 0, 1], 4000).into(),
            time: std::time::UNIX_EPOCH,
            bytes: ffi::write(b"002D6E1B34565815", b"", &[]).expect("a packet"),
            reports: Vec::new(),
        };
        let lines = [Line {
            unit_type: UnitType::Micra,
            command: &command,
            report: &report,
            response: &response,
        }];
        [product(&lines), other_type(&lines)].map(|note| {
            assert!(!note.as_ref().is_some_and(|note| note.failed));
            note.map(|note| note.text)
        })
    }

    #[test]
    fn a_product_is_told_and_so_is_another_than_was_meant() {
        let told = |text: &str| Some(String::from(text));
        let micra = told("002D6E1B34565815 is type 2 (Micra 100 WiFi)");
        assert_eq!(typed(Some(&[2, 0])), [micra, None]);
        let found = told("002D6E1B34565815 is type 5 (VENTO Expert A30)");
        let other = told("the board is type 5 (VENTO Expert A30), but was asked as type 2 (Micra 100 WiFi): names and values are those of the latter");
        assert_eq!(typed(Some(&[5, 0])), [found, other]);
        let [found, _] = typed(Some(&[2, 1]));
        let none = "002D6E1B34565815 is type 258 (which is none of 2 to 5)";
        assert_eq!(found.as_deref(), Some(none));
        assert_eq!(typed(None), [None, None]);
    }

    #[test]
    fn what_was_stored_is_not_told() {
        for (number, sent, held) in [
            (0x02, &[3][..], &[3][..]),
            (0x01, &[1], &[1]),
            (0x01, &[2], &[0]),
            (0x01, &[2], &[1]),
            (0x95, b"Home", b"Home"),
            (0x0101, &[1, 2], &[1, 2]),
            (0x77, &[9, 2, 5, 21, 30, 22], &[6, 2, 5, 21, 30, 22]),
        ] {
            assert_eq!(told(number, sent, Some(held)), None);
        }
    }

    #[test]
    fn what_was_not_stored_is_told_with_both_values() {
        for (number, sent, held, name, values) in [
            (
                0x18,
                &[31][..],
                &[15][..],
                "temperature-setpoint-normal (0x0018)",
                "sent 31 degC (1F), held 15 degC (0F)",
            ),
            (
                0x01,
                &[2],
                &[2],
                "unit-on-off (0x0001)",
                "sent 2 (02), held 2 (02)",
            ),
            (
                0x0401,
                &[2],
                &[0],
                "sound-generator (0x0401)",
                "sent 2 (02), held off (00)",
            ),
            (
                0x63,
                &[70],
                &[0, 0],
                "filter-replacement-timer (0x0063)",
                "sent 0x46, held 0 d (0000)",
            ),
            (
                0x95,
                b"Home",
                b"\x1B[2J",
                "wifi-name (0x0095)",
                "sent Home (486F6D65), held \\x1B[2J (1B5B324A)",
            ),
        ] {
            let text = format!("{name} was not stored: {values}");
            assert_eq!(told(number, sent, Some(held)), Some(text));
        }
        let unknown = "0x0101 was not stored: sent 0x01, the board does not know it";
        assert_eq!(told(0x0101, &[1], None).as_deref(), Some(unknown));
        let entry = told(0x77, &[9, 2, 5, 21, 30, 22], Some(&[6, 2, 5, 21, 30, 23]));
        let text = "schedule-setup (0x0077) was not stored: sent weekend 2 5 21 22:30 (090205151E16), held saturday 2 5 21 23:30 (060205151E17)";
        assert_eq!(entry.as_deref(), Some(text));
    }

    #[test]
    fn a_step_that_changed_nothing_is_told() {
        for (function, number, before, after, text) in [
            (RAISE, 0x02, 4, 5, None),
            (
                4,
                0x02,
                5,
                5,
                Some("speed-mode (0x0002) stays 5 (05): no further value"),
            ),
            (
                5,
                0x01,
                0,
                0,
                Some("unit-on-off (0x0001) stays off (00): the row takes no lower"),
            ),
            (
                4,
                0x0101,
                0,
                0,
                Some("0x0101 stays 0x00: no further value, or the row takes no raise"),
            ),
        ] {
            let before = Report::new(number, Some(&[before]));
            let after = Report::new(number, Some(&[after]));
            let command = Command::new(function, number, &[]);
            let note = unchanged(UnitType::Micra, Some(&before), &command, &after);
            assert_eq!(note.as_ref().map(|note| note.text.as_str()), text);
            assert!(!note.is_some_and(|note| note.failed));
        }
        let unknown = Report::new(0x0101, None);
        let raise = Command::new(RAISE, 0x0101, &[]);
        let note = unchanged(UnitType::Micra, Some(&unknown), &raise, &unknown);
        assert_eq!(note, None);
    }
}
