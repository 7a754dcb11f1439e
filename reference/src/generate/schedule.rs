//! Traffic for the weekly schedule, 0077: reads and writes, legal, at the bounds and with each fault.

use super::{Generator, values};
use crate::block::{self, Command};
use crate::call::Call;
use crate::random::Random;
use crate::schedule::{DAYS, Entry, FIELDS, NUMBER};
use crate::units::MICRA;

/// The ends of each field's range, and bytes just outside it or far from it.
const BOUNDS: [(&[u8], &[u8]); 4] = [
    (&[0, 5], &[6, 6, 255]),
    (&[0, 15, 30], &[1, 1, 14, 14, 31, 31, 255]),
    (&[0, 59], &[60, 60, 255]),
    (&[0, 23], &[24, 24, 59, 255]),
];

/// A value for a command on 0077 that its function takes in most cases.
pub fn value(random: &mut Random, function: u8) -> Vec<u8> {
    match function {
        1 => read(random),
        2 | 3 => write(random),
        _ => {
            let (read, written) = (read(random), write(random));
            random.pick(&[Vec::new(), Vec::new(), read, written])
        }
    }
}

fn day(random: &mut Random) -> u8 {
    random.between(1, 7) as u8
}

fn period(random: &mut Random) -> u8 {
    random.between(1, 4) as u8
}

/// A period that 0077 lacks.
fn bad_period(random: &mut Random) -> u8 {
    let any = random.between(5, 255) as u8;
    random.pick(&[0, 0, 0, 5, 5, any])
}

fn read(random: &mut Random) -> Vec<u8> {
    let mut value = vec![day(random), period(random)];
    let any = random.between(10, 255) as u8;
    match random.between(0, 14) {
        0 => value[0] = 0,
        1 => value[0] = 8,
        2 => value[0] = 9,
        3 => value[0] = random.pick(&[10, any]),
        4 | 5 => value[1] = bad_period(random),
        6 => value.clear(),
        7 => {
            let length = random.pick(&[1, 1, 3, 3, 4, 5, 6, 6, 7, 12]);
            value.resize(length, 0);
        }
        _ => {}
    }
    value
}

/// A value for a write: never empty, six bytes but where its length is the fault.
pub fn write(random: &mut Random) -> Vec<u8> {
    let single = day(random);
    let written = random.pick(&[single, single, single, 0, 8, 9]);
    let mut value = vec![written, period(random)];
    value.extend_from_slice(&entry(random, 40));
    let any = random.between(10, 255) as u8;
    match random.between(0, 19) {
        0 | 1 => value[0] = random.pick(&[10, any]),
        2..=4 => value[1] = bad_period(random),
        5 | 6 => {
            let length = random.pick(&[1, 2, 3, 4, 5, 5, 5, 7, 7, 7, 8, 12, 28]);
            value.resize(length, 0);
        }
        _ => {}
    }
    value
}

/// An entry with a bad field in `percent` of a hundred cases.
fn entry(random: &mut Random, percent: usize) -> Entry {
    let mut entry = [0; 4];
    for (place, field) in FIELDS.into_iter().enumerate() {
        let legal: Vec<u8> = (0..=255).filter(|byte| field.contains(*byte)).collect();
        let (any, end) = (random.pick(&legal), random.pick(BOUNDS[place].0));
        entry[place] = random.pick(&[any, end]);
    }
    if random.chance(percent) {
        let place = random.between(0, 3);
        entry[place] = random.pick(BOUNDS[place].1);
    }
    if random.chance(percent / 10) {
        let place = random.between(0, 3);
        entry[place] = random.byte();
    }
    entry
}

/// A value of 0077 as an item of a block.
fn item(value: &[u8]) -> Vec<u8> {
    let [_, low] = NUMBER.to_be_bytes();
    [&[block::CHANGE_SIZE, value.len() as u8, low], value].concat()
}

impl Generator {
    /// Several commands on 0077 in one packet, now and then others between them; mostly to a board that has a schedule.
    pub fn schedule_traffic(&mut self) {
        if !self.session.record.has_schedule() && self.random.chance(60) {
            self.set_up_type(MICRA);
        }
        let mut commands = Vec::new();
        for _ in 0..self.random.between(1, 8) {
            let function = self.random.pick(&[1, 1, 2, 2, 2, 3, 3, 3, 3, 4, 5]);
            let number = match self.random.chance(85) {
                true => NUMBER,
                false => values::number(&mut self.random),
            };
            let value = match number {
                NUMBER => value(&mut self.random, function),
                _ if matches!(function, 2 | 3) => values::value(&mut self.random, number),
                _ => Vec::new(),
            };
            commands.push(Command {
                function,
                number,
                value,
            });
        }
        self.send_commands(commands);
        if self.random.chance(25) {
            self.read_a_period();
        }
        self.show_record_sometimes(15);
    }

    /// Reads one period of every day.
    fn read_a_period(&mut self) {
        let period = period(&mut self.random);
        let commands = DAYS
            .map(|day| Command {
                function: 1,
                number: NUMBER,
                value: vec![day, period],
            })
            .collect();
        self.send_commands(commands);
    }

    /// Writes one entry past all checks, mostly so that the record becomes illegal.
    pub fn poke_entry(&mut self) {
        let (day, period) = (day(&mut self.random), period(&mut self.random));
        let mut value = entry(&mut self.random, 80).to_vec();
        if self.random.chance(20) {
            let length = self.random.between(0, 7);
            value.resize(length, 0xFF);
        }
        let held = self.session.record.schedule.entry(day, period).to_vec();
        if self.random.chance(10) {
            let (number, value) = (NUMBER, value.clone());
            self.call(Call::PokeRow { number, value });
        }
        self.call(Call::PokeEntry { day, period, value });
        self.meet_the_record();
        if self.random.chance(80) {
            let value = held;
            self.call(Call::PokeEntry { day, period, value });
        }
    }

    /// A read of an entry that exists, as an item of a block.
    pub fn entry_read(&mut self) -> Vec<u8> {
        item(&[day(&mut self.random), period(&mut self.random)])
    }

    /// A write that is stored if its packet is accepted, as an item of a block.
    pub fn entry_write(&mut self) -> Vec<u8> {
        let random = &mut self.random;
        let single = day(random);
        let place = [random.pick(&[single, 0, 8, 9]), period(random)];
        item(&[&place[..], &entry(random, 0)].concat())
    }
}

#[cfg(test)]
mod tests {
    use super::*;
    use crate::schedule::{PERIODS, Request, bad_field, judge};

    #[test]
    fn the_bounds_are_those_of_the_fields() {
        for (field, (ends, outside)) in FIELDS.into_iter().zip(BOUNDS) {
            assert!(ends.iter().all(|byte| field.contains(*byte)));
            assert!(!outside.iter().any(|byte| field.contains(*byte)));
        }
    }

    #[test]
    fn values_of_each_function_are_legal_or_not() {
        let mut random = Random::new(3);
        for function in 1..=5 {
            let faults = (0..1_000)
                .map(|_| value(&mut random, function))
                .inspect(|value| assert!(!value.is_empty() || !matches!(function, 2 | 3)))
                .filter(|value| matches!(judge(function, value), Request::Fault(_)))
                .count();
            let expected = if function > 3 {
                1_000..=1_000
            } else {
                100..=600
            };
            assert!(expected.contains(&faults), "{function}: {faults}");
        }
        let bad = (0..1_000).filter(|_| bad_field(&entry(&mut random, 80)).is_some());
        assert!((600..1_000).contains(&bad.count()));
        assert!((0..1_000).all(|_| bad_field(&entry(&mut random, 0)).is_none()));
        assert!((0..1_000).all(|_| PERIODS.contains(&period(&mut random))));
        assert!((0..1_000).all(|_| !PERIODS.contains(&bad_period(&mut random))));
    }
}
