//! Traffic for the calendar, 0070: dates, the days next to them, wrong weekdays, the end of every February.

use super::Generator;
use crate::block::Command;
use crate::calendar::{days_in, weekday_of};
use crate::call::Call;
use crate::random::Random;
use crate::rows::CALENDAR_ROW;

/// Day, month and year of a day that exists, often the first or the last of its month.
fn date(random: &mut Random) -> (u8, u8, u8) {
    let year = random.between(0, 99) as u8;
    let year = random.pick(&[year, year, year, year, 0, 99]);
    let month = random.between(1, 12) as u8;
    let month = random.pick(&[month, month, month, 1, 2, 2, 12]);
    let last = days_in(month, year);
    let any = random.between(1, usize::from(last)) as u8;
    (random.pick(&[any, any, 1, last]), month, year)
}

/// A date with its weekday.
pub fn legal(random: &mut Random) -> Vec<u8> {
    let (day, month, year) = date(random);
    vec![day, weekday_of(day, month, year), month, year]
}

/// A date off by a day, the day after the last of a month, another weekday, or a byte out of its range; now and then a date.
pub fn edge(random: &mut Random) -> Vec<u8> {
    let mut value = legal(random);
    let next_weekday = value[1] % 7 + 1;
    match random.between(0, 15) {
        0..=2 => value[0] += 1,
        3 | 4 => value[0] -= 1,
        5..=7 => value = after_the_last(value[2], value[3]),
        8 | 9 => value[1] = next_weekday,
        10 | 11 => value[1] = random.between(0, 8) as u8,
        12 => value[2] = random.pick(&[0, 13, 255]),
        13 => value[3] = random.pick(&[100, 100, 255]),
        14 => value[0] = random.pick(&[0, 31, 32, 255]),
        _ => {}
    }
    value
}

/// The day after the last of a month, with its weekday: it is none of that month.
fn after_the_last(month: u8, year: u8) -> Vec<u8> {
    let last = days_in(month, year);
    let weekday = weekday_of(last, month, year) % 7 + 1;
    vec![last + 1, weekday, month, year]
}

/// The last days of a year's February and those that would follow, then 1 March, each with the next weekday.
fn february(year: u8) -> Vec<Vec<u8>> {
    let weekday = weekday_of(27, 2, year);
    let mut values: Vec<Vec<u8>> = (27..=31)
        .zip(weekday..)
        .map(|(day, weekday)| vec![day, (weekday - 1) % 7 + 1, 2, year])
        .collect();
    values.push(vec![1, weekday_of(1, 3, year), 3, year]);
    values
}

impl Generator {
    /// Several writes of 0070 in one packet; now and then a record with a date that is none.
    pub fn calendar_traffic(&mut self) {
        let values = match self.random.chance(50) {
            true => february(self.random.between(0, 99) as u8),
            false => (0..self.random.between(2, 9))
                .map(|_| match self.random.chance(40) {
                    true => legal(&mut self.random),
                    false => edge(&mut self.random),
                })
                .collect(),
        };
        let commands = values.into_iter().map(|value| Command {
            function: self.random.pick(&[2, 3, 3]),
            number: CALENDAR_ROW,
            value,
        });
        let commands = commands.collect();
        self.send_commands(commands);
        if self.random.chance(20) {
            self.poke_calendar();
        }
        self.show_record_sometimes(15);
    }

    fn poke_calendar(&mut self) {
        let number = CALENDAR_ROW;
        for value in [edge(&mut self.random), legal(&mut self.random)] {
            self.call(Call::PokeRow { number, value });
            self.meet_the_record();
        }
    }
}

#[cfg(test)]
mod tests {
    use super::*;
    use crate::calendar::{Fault, judge};

    fn judged(value: &[u8]) -> Result<(), Fault> {
        judge(value.try_into().expect("four bytes"))
    }

    #[test]
    fn edges_have_each_fault_and_none() {
        let mut random = Random::new(4);
        let drawn: Vec<_> = (0..1_000).map(|_| judged(&edge(&mut random))).collect();
        for fault in [Fault::Year, Fault::Month, Fault::Day, Fault::Weekday] {
            assert!(drawn.iter().filter(|judged| **judged == Err(fault)).count() > 40);
        }
        assert!(drawn.iter().filter(|judged| judged.is_ok()).count() > 40);
    }

    #[test]
    fn a_february_ends_once() {
        for year in 0..=99 {
            let values = february(year);
            let exist = values.iter().filter(|value| judged(value).is_ok());
            assert_eq!(exist.count(), usize::from(days_in(2, year)) - 25);
            let faults = values
                .iter()
                .filter(|value| judged(value) == Err(Fault::Weekday));
            assert_eq!(faults.count(), 0);
        }
    }
}
