//! Which response is the answer to a request: the one that reports what the commands ask for, number by number in their order, and
//! nothing else. A board does not say which request it answers, so this is all that tells a late or a foreign answer from the right one.

use crate::entry::Place;
use crate::ffi::{Command, SILENT_WRITE};
use crate::report::Report;
use crate::rows;
use crate::unit_type::UnitType;

/// The commands that a board answers with a report, whether it knows their parameter or not.
pub fn reported(commands: &[Command]) -> impl Iterator<Item = &Command> {
    commands
        .iter()
        .filter(|command| command.function != SILENT_WRITE)
}

/// Whether these reports answer the commands to a board of the unit type; if not, why.
pub fn check(unit_type: UnitType, commands: &[Command], reports: &[Report]) -> Result<(), String> {
    let (asked, came) = (reported(commands).count(), reports.len());
    if asked != came {
        return Err(format!("has {came} report(s), not {asked}"));
    }
    let mut pairs = reported(commands).zip(reports);
    pairs.try_for_each(|(command, report)| check_one(unit_type, command, report))
}

fn check_one(unit_type: UnitType, command: &Command, report: &Report) -> Result<(), String> {
    let Report { number, value } = report;
    if *number != command.number {
        let asked = command.number;
        return Err(format!("reports 0x{number:04X}, not 0x{asked:04X}"));
    }
    // An unknown parameter counts as its report.
    let Some(value) = value else {
        return Ok(());
    };
    let length = value.len();
    let row = rows::find(unit_type, *number);
    if let Some(row) = row.filter(|row| !row.size.range().contains(&length)) {
        let size = row.size;
        return Err(format!(
            "reports 0x{number:04X} with {length} bytes, not the {size} of {unit_type}"
        ));
    }
    if rows::is_schedule(unit_type, *number) && Place::of(value) != place_of(command) {
        return Err(String::from("reports another entry of the schedule"));
    }
    Ok(())
}

/// Where the entry stands that a command for the schedule reports.
fn place_of(command: &Command) -> Option<Place> {
    Place::of(&command.value).map(Place::reported)
}

#[cfg(test)]
mod tests {
    use super::*;
    use crate::ffi::READ;

    /// By a Micra.
    fn check(commands: &[Command], reports: &[Report]) -> Result<(), String> {
        super::check(UnitType::Micra, commands, reports)
    }

    fn report(number: u16, value: &[u8]) -> Report {
        Report::new(number, Some(value))
    }

    fn unknown(number: u16) -> Report {
        Report::new(number, None)
    }

    #[test]
    fn each_command_has_its_report_in_order() {
        let commands = [
            Command::new(1, 0x02, &[]),
            Command::new(2, 0x01, &[1]),
            Command::new(3, 0x06, &[1]),
            Command::new(4, 0x0101, &[]),
            Command::new(5, 0x63, &[]),
        ];
        let (speed, boost) = (report(0x02, &[9]), report(0x06, &[0]));
        let (free, timer) = (report(0x0101, &[1, 2, 3]), report(0x63, &[0, 0]));
        let answer = [speed.clone(), boost.clone(), free.clone(), timer.clone()];
        assert_eq!(check(&commands, &answer), Ok(()));
        let answer = [0x02, 0x06, 0x0101, 0x63].map(unknown);
        assert_eq!(check(&commands, &answer), Ok(()));
        assert_eq!(check(&commands[1..2], &[]), Ok(()));
        for other in [
            vec![],
            vec![speed.clone()],
            vec![
                speed.clone(),
                report(0x01, &[1]),
                boost.clone(),
                timer.clone(),
            ],
            vec![boost.clone(), speed.clone(), free.clone(), timer.clone()],
            vec![speed.clone(), boost.clone(), free.clone(), unknown(0x64)],
            vec![
                speed.clone(),
                boost.clone(),
                free.clone(),
                report(0x63, &[0]),
            ],
            vec![speed, boost, free, timer.clone(), timer],
        ] {
            assert!(check(&commands, &other).is_err(), "{other:?}");
        }
    }

    #[test]
    fn lengths_are_those_that_a_row_can_have() {
        for (number, right, wrong) in [
            (0x01, &[1][..], &[0, 2][..]),
            (0x1F, &[2], &[1, 3]),
            (0x95, &[1, 32], &[33]),
            (0x96, &[8, 64], &[7, 65]),
            (0x7C, &[16], &[15, 17]),
        ] {
            let answers = |length: usize| {
                let reports = [report(number, &vec![0; length])];
                check(&[Command::new(READ, number, &[])], &reports).is_ok()
            };
            assert!(right.iter().all(|length| answers(*length)), "{number}");
            assert!(!wrong.iter().any(|length| answers(*length)), "{number}");
        }
    }

    #[test]
    fn lengths_go_by_the_unit_type() {
        for (number, lengths) in [
            (0x0064, [&[4][..], &[3], &[3], &[3]]),
            (0x0063, [&[2], &[2], &[1, 2, 9], &[1, 2, 9]]),
            (0x002D, [&[1, 2, 9], &[1], &[1], &[1, 2, 9]]),
            (0x007E, [&[1, 2, 9], &[4], &[4], &[4]]),
            (0x0302, [&[1, 2, 9], &[2], &[2], &[2]]),
            (0x00B9, [&[2], &[2], &[2], &[2]]),
        ] {
            for (unit_type, right) in UnitType::ALL.into_iter().zip(lengths) {
                for length in 1..=9 {
                    let reports = [report(number, &vec![0; length])];
                    let commands = [Command::new(READ, number, &[])];
                    let answers = super::check(unit_type, &commands, &reports).is_ok();
                    let is_any = right.len() > 1;
                    assert_eq!(answers, is_any || right.contains(&length), "{number}");
                }
            }
        }
        let reports = [report(0x0064, &[0; 4])];
        let commands = [Command::new(READ, 0x0064, &[])];
        let reason = "reports 0x0064 with 4 bytes, not the 3 of type 4 (VENTO Expert Duo A30-1)";
        let answer = super::check(UnitType::ExpertDuo, &commands, &reports);
        assert_eq!(answer, Err(String::from(reason)));
    }

    #[test]
    fn an_entry_is_that_of_the_day_and_period() {
        let entry = report(0x77, &[6, 2, 5, 21, 30, 22]);
        for (value, is_right) in [
            (&[6, 2][..], true),
            (&[9, 2, 5, 21, 30, 22], true),
            (&[6, 3], false),
            (&[7, 2], false),
            (&[8, 2, 5, 21, 30, 22], false),
            (&[6], false),
            (&[], false),
        ] {
            let command = Command::new(3, 0x77, value);
            let answer = check(std::slice::from_ref(&command), std::slice::from_ref(&entry));
            assert_eq!(answer.is_ok(), is_right, "{value:?}");
            assert_eq!(check(&[command], &[unknown(0x77)]), Ok(()));
        }
    }
}
