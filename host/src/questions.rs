//! The commands of a command line's words.

use crate::entry::{self, Entry, Place};
use crate::ffi::{Command, READ, WRITE};
use crate::rows;
use crate::unit_type::UnitType;
use crate::values;

/// The word that stands for every row of a unit type, and its schedule.
const ALL: &str = "all";

pub fn reads(unit_type: UnitType, words: &[&str]) -> Result<Vec<Command>, String> {
    let mut commands = Vec::new();
    for word in words {
        match *word {
            ALL => commands.extend(all(unit_type)),
            row => commands.push(read(row_number(unit_type, row)?)),
        }
    }
    Ok(commands)
}

/// Every row and every entry, by their numbers.
fn all(unit_type: UnitType) -> Vec<Command> {
    let rows = rows::of(unit_type).flat_map(|row| match row.number {
        entry::NUMBER => entry::places().map(read_entry).collect(),
        number => vec![read(number)],
    });
    rows.collect()
}

pub fn read(number: u16) -> Command {
    Command::new(READ, number, &[])
}

/// Writes with a report, so that it shows what the row holds after it.
pub fn writes(unit_type: UnitType, words: &[&str]) -> Result<Vec<Command>, String> {
    let write = |word: &&str| {
        let (number, value) = values::parse_assignment(unit_type, word)?;
        Ok(Command::new(WRITE, number, &value))
    };
    words.iter().map(write).collect()
}

/// Each row read and then raised or lowered, so that the answer tells whether it changed.
pub fn steps(function: u8, unit_type: UnitType, words: &[&str]) -> Result<Vec<Command>, String> {
    let mut commands = Vec::new();
    for word in words {
        let number = row_number(unit_type, word)?;
        commands.push(read(number));
        commands.push(Command::new(function, number, &[]));
    }
    Ok(commands)
}

/// The schedule has no single value.
fn row_number(unit_type: UnitType, word: &str) -> Result<u16, String> {
    match rows::parse_number(unit_type, word)? {
        number if rows::is_schedule(unit_type, number) => Err(String::from(entry::HINT)),
        number => Ok(number),
    }
}

/// Whether a unit type has the schedule.
fn check_schedule(unit_type: UnitType) -> Result<(), String> {
    match rows::is_schedule(unit_type, entry::NUMBER) {
        true => Ok(()),
        false => Err(format!(
            "{unit_type} has no weekly schedule that can be asked for: 0x0077 is unknown there"
        )),
    }
}

pub fn entry_reads(unit_type: UnitType, words: &[&str]) -> Result<Vec<Command>, String> {
    check_schedule(unit_type)?;
    let places = entry::parse_places(words)?;
    Ok(places.into_iter().map(read_entry).collect())
}

fn read_entry(place: Place) -> Command {
    Command::new(READ, entry::NUMBER, &[place.day, place.period])
}

pub fn entry_write(unit_type: UnitType, words: &[&str]) -> Result<Vec<Command>, String> {
    check_schedule(unit_type)?;
    let words = <[&str; 5]>::try_from(words)
        .map_err(|_| String::from("schedule set takes DAY PERIOD SPEED TEMPERATURE HH:MM"))?;
    let value = Entry::parse(words)?.value();
    Ok(vec![Command::new(WRITE, entry::NUMBER, &value)])
}

#[cfg(test)]
mod tests {
    use super::*;
    use crate::ffi::{LOWER, RAISE};

    #[test]
    fn all_is_every_row_and_every_entry() {
        let commands = reads(UnitType::Micra, &["all"]).expect("all");
        assert_eq!(commands.len(), 72 + 28);
        assert!(commands.iter().all(|command| command.function == READ));
        let numbers: Vec<u16> = commands.iter().map(|command| command.number).collect();
        assert!(numbers.is_sorted());
        let entries = commands.iter().filter(|command| command.number == 0x77);
        let places: Vec<&[u8]> = entries.map(|command| &command.value[..]).collect();
        assert_eq!(
            (places.len(), places[0], places[27]),
            (28, &[1, 1][..], &[7, 4][..])
        );
        let more = reads(UnitType::Micra, &["0x0002", "all"]).expect("a row and all");
        assert_eq!(more.len(), 1 + commands.len());
        assert!(steps(RAISE, UnitType::Micra, &["all"]).is_err());
    }

    #[test]
    fn all_of_an_expert_has_no_entry() {
        for (unit_type, count) in UnitType::ALL.into_iter().zip([72 + 28, 50, 43, 39]) {
            let commands = reads(unit_type, &["all"]).expect("all");
            assert_eq!(commands.len(), count, "{unit_type}");
            let is_micra = unit_type == UnitType::Micra;
            let entries = commands.iter().any(|command| command.number == 0x77);
            assert_eq!(entries, is_micra, "{unit_type}");
            assert_eq!(entry_reads(unit_type, &[]).is_ok(), is_micra);
            let entry = ["mon", "1", "3", "21", "08:30"];
            assert_eq!(entry_write(unit_type, &entry).is_ok(), is_micra);
            // As a number it is one that the type does not know.
            assert_eq!(reads(unit_type, &["0x0077"]).is_err(), is_micra);
        }
    }

    #[test]
    fn a_step_has_a_read_before_it() {
        let commands = steps(LOWER, UnitType::Micra, &["0063", "speed-mode"]).expect("two rows");
        let asked: Vec<(u8, u16)> = commands
            .iter()
            .map(|command| (command.function, command.number))
            .collect();
        assert_eq!(asked, [(1, 0x63), (5, 0x63), (1, 0x02), (5, 0x02)]);
    }
}
