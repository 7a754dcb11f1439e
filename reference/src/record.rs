//! The board record, set-up, and the check whether a record is a legal one.

use std::collections::BTreeMap;

use crate::packet::{self, CODE_WORD, ID_SIZE, LONGEST_PASSWORD};
use crate::refusal::Refusal;
use crate::rows::{self, ID_ROW, UNIT_TYPE_ROW};
use crate::schedule::{Entry, Schedule};
use crate::units::{self, MICRA};

pub const CLIENT: u8 = 1;
pub const ACCESS_POINT: u8 = 2;

/// All that a board holds. The mode is the one in force; 0094 is only stored.
#[derive(Clone, Debug, PartialEq, Eq)]
pub struct Record {
    pub id: [u8; ID_SIZE],
    pub password: Vec<u8>,
    pub mode: u8,
    pub unit_type: u8,
    /// The value of each row that the type given at set-up has.
    pub values: BTreeMap<u16, Vec<u8>>,
    /// Micra's; on other types nothing reads or changes it.
    pub schedule: Schedule,
}

impl Record {
    fn start(id: [u8; ID_SIZE], password: &[u8], mode: u8, unit_type: u8) -> Record {
        let mut values: BTreeMap<u16, Vec<u8>> = rows::of(unit_type)
            .iter()
            .map(|(number, row)| (*number, row.start()))
            .collect();
        values.insert(ID_ROW, id.to_vec());
        values.insert(UNIT_TYPE_ROW, units::row_value(unit_type));
        Record {
            id,
            password: password.to_vec(),
            mode,
            unit_type,
            values,
            schedule: Schedule::start(),
        }
    }

    /// What a refused set-up returns.
    pub fn refused() -> Record {
        Record::start([0; ID_SIZE], &[], CLIENT, MICRA)
    }

    /// Refusal 70: a record that no call works on.
    pub fn check(&self) -> Result<(), Refusal> {
        let identity = check_identity(&self.id, &self.password, self.mode, self.unit_type).is_ok();
        // A read-only row holds any bytes of its size.
        let rows = rows::of(self.unit_type).values().all(|row| {
            let held = self.values.get(&row.number);
            held.is_some_and(|value| row.contains(value))
        });
        let copies = self.values[&ID_ROW] == self.id
            && self.values[&UNIT_TYPE_ROW] == units::row_value(self.unit_type);
        let schedule = !self.has_schedule() || self.schedule.is_legal();
        if identity && rows && copies && schedule {
            Ok(())
        } else {
            Err(Refusal::IllegalRecord)
        }
    }

    /// Whether 0077 is the weekly schedule; on other types it is unknown.
    pub fn has_schedule(&self) -> bool {
        self.unit_type == MICRA
    }

    /// The rows of the record's type with their values, by ascending number.
    pub fn rows(&self) -> impl Iterator<Item = (u16, &Vec<u8>)> {
        let numbers = rows::of(self.unit_type).keys();
        numbers.filter_map(|number| Some((*number, self.values.get(number)?)))
    }

    /// The entries of the schedule with their days and periods, where there is one.
    pub fn entries(&self) -> impl Iterator<Item = (u8, u8, &Entry)> {
        let schedule = self.has_schedule().then_some(&self.schedule);
        schedule.into_iter().flat_map(Schedule::entries)
    }

    /// Writes a row without any check. A row that the record's type lacks has no room.
    pub fn poke_row(&mut self, number: u16, value: &[u8]) {
        if let Some(row) = rows::find(self.unit_type, number) {
            let mut stored = value[..value.len().min(row.room())].to_vec();
            if !row.is_text() {
                stored.resize(row.room(), 0);
            }
            self.values.insert(number, stored);
        }
    }

    /// Writes an entry of the schedule without any check, where there is one.
    pub fn poke_entry(&mut self, day: u8, period: u8, value: &[u8]) {
        if self.has_schedule() {
            self.schedule.poke(day, period, value);
        }
    }

    pub fn poke_id(&mut self, id: &[u8]) {
        self.id = [0; ID_SIZE];
        for (stored, byte) in self.id.iter_mut().zip(id) {
            *stored = *byte;
        }
    }

    pub fn poke_password(&mut self, password: &[u8]) {
        self.password = password[..password.len().min(LONGEST_PASSWORD)].to_vec();
    }
}

/// The lowest of 20 to 23 that applies; otherwise the ID.
fn check_identity(
    id: &[u8],
    password: &[u8],
    mode: u8,
    unit_type: u8,
) -> Result<[u8; ID_SIZE], Refusal> {
    let id: [u8; ID_SIZE] = id.try_into().map_err(|_| Refusal::SetupId)?;
    if id == CODE_WORD {
        return Err(Refusal::SetupId);
    }
    if !packet::is_legal_password(password) {
        return Err(Refusal::IllegalPassword);
    }
    if mode != CLIENT && mode != ACCESS_POINT {
        return Err(Refusal::SetupMode);
    }
    if !units::ALL.contains(&unit_type) {
        return Err(Refusal::SetupType);
    }
    Ok(id)
}

/// Sets a board up; a refused set-up gives a record too.
pub fn setup(id: &[u8], password: &[u8], mode: u8, unit_type: u8) -> (Record, Result<(), Refusal>) {
    match check_identity(id, password, mode, unit_type) {
        Ok(id) => (Record::start(id, password, mode, unit_type), Ok(())),
        Err(refusal) => (Record::refused(), Err(refusal)),
    }
}

#[cfg(test)]
mod tests {
    use super::*;

    const ID: [u8; 16] = *b"002D6E1B34565815";

    #[test]
    fn accepted_setup_gives_the_start_record() {
        let (record, answer) = setup(&ID, b"1111", ACCESS_POINT, MICRA);
        assert_eq!(answer, Ok(()));
        assert_eq!((record.id, record.mode), (ID, ACCESS_POINT));
        assert_eq!(record.password, b"1111");
        assert_eq!(record.values.len(), 72);
        assert_eq!(record.values[&0x007C], ID);
        assert_eq!(record.values[&0x00B9], [2, 0]);
        assert_eq!(record.values[&0x0037], [100]);
        assert_eq!(record.values[&0x0036], [0]);
        assert_eq!(record.values[&0x0095], b"A");
        assert_eq!(record.values[&0x0096], b"00000000");
        assert_eq!(record.values[&0x0094], [1]);
        assert_eq!(record.values[&0x0112], [0; 6]);
        assert_eq!(record.check(), Ok(()));
    }

    #[test]
    fn refused_setup_gives_the_zero_client() {
        for (id, password, mode, unit_type, refusal) in [
            (&ID[..15], &b"*"[..], 3, 1, Refusal::SetupId),
            (&CODE_WORD[..], b"1111", 1, 2, Refusal::SetupId),
            (&[], b"", 1, 2, Refusal::SetupId),
            (&[0; 17], b"", 1, 2, Refusal::SetupId),
            (&ID[..], b"123456789", 0, 0, Refusal::IllegalPassword),
            (&ID[..], b"1 ", 1, 6, Refusal::IllegalPassword),
            (&ID[..], b"12345678", 0, 3, Refusal::SetupMode),
            (&ID[..], b"", 3, 6, Refusal::SetupMode),
            (&ID[..], b"", 255, 2, Refusal::SetupMode),
            (&ID[..], b"", 1, 0, Refusal::SetupType),
            (&ID[..], b"", 1, 1, Refusal::SetupType),
            (&ID[..], b"", 2, 6, Refusal::SetupType),
            (&ID[..], b"", 2, 255, Refusal::SetupType),
        ] {
            let (record, answer) = setup(id, password, mode, unit_type);
            assert_eq!(answer, Err(refusal));
            assert_eq!((record.id, record.mode), ([0; 16], CLIENT));
            assert_eq!(record.unit_type, MICRA);
            assert!(record.password.is_empty() && record.check().is_ok());
            assert_eq!(record, Record::refused());
        }
    }

    #[test]
    fn each_type_has_its_own_rows() {
        for (unit_type, count) in [(2, 72), (3, 50), (4, 43), (5, 39)] {
            let (record, answer) = setup(&ID, b"", CLIENT, unit_type);
            assert_eq!((answer, record.unit_type), (Ok(()), unit_type));
            assert_eq!(record.values.len(), count);
            assert_eq!(record.values[&0x00B9], [unit_type, 0]);
            assert_eq!(record.check(), Ok(()));
            for other in (0..=255).filter(|other| *other != unit_type) {
                let mut record = record.clone();
                record.unit_type = other;
                assert_eq!(record.check(), Err(Refusal::IllegalRecord), "{other}");
            }
        }
    }

    #[test]
    fn entries_are_not_judged_on_expert() {
        let (mut record, _) = setup(&ID, b"", CLIENT, 3);
        let before = record.clone();
        record.poke_entry(1, 1, &[6]);
        assert_eq!(record, before);
        record.schedule.poke(1, 1, &[6]);
        assert_eq!(record.check(), Ok(()));
        assert_eq!(record.entries().count(), 0);
    }

    #[test]
    fn password_characters_end_where_the_rules_say() {
        for byte in 0..=255u8 {
            let legal = matches!(byte, b'0'..=b'9' | b'a'..=b'z' | b'A'..=b'Z');
            assert_eq!(setup(&ID, &[byte], 1, MICRA).1.is_ok(), legal, "{byte:02X}");
        }
    }

    #[test]
    fn pokes_drop_pad_and_keep_text_lengths() {
        let mut record = Record::refused();
        record.poke_row(0x0063, &[1, 2, 3]);
        assert_eq!(record.values[&0x0063], [1, 2]);
        record.poke_row(0x0063, &[7]);
        assert_eq!(record.values[&0x0063], [7, 0]);
        record.poke_row(0x0095, &[]);
        assert!(record.values[&0x0095].is_empty());
        record.poke_row(0x0095, &[0x41; 40]);
        assert_eq!(record.values[&0x0095], [0x41; 32]);
        record.poke_id(&[9; 20]);
        assert_eq!(record.id, [9; 16]);
        record.poke_id(&[9]);
        assert_eq!(record.id[..2], [9, 0]);
        record.poke_password(b"123456789");
        assert_eq!(record.password, b"12345678");
        let before = record.clone();
        record.poke_row(0x0077, &[1]);
        assert_eq!(record, before);
    }

    #[test]
    fn each_part_of_the_record_can_make_it_illegal() {
        let spoil: [fn(&mut Record); 12] = [
            |record| record.poke_id(&CODE_WORD),
            |record| record.poke_id(&[1]),
            |record| record.poke_password(b"*"),
            |record| record.mode = 0,
            |record| record.unit_type = 3,
            |record| record.unit_type = 6,
            |record| record.poke_row(0x0001, &[2]),
            |record| record.poke_row(0x0096, b"1234567"),
            |record| record.poke_row(0x007C, &ID[..15]),
            |record| record.poke_row(0x00B9, &[3, 0]),
            |record| record.schedule.poke(1, 1, &[6]),
            |record| record.schedule.poke(7, 4, &[0, 0, 0, 24]),
        ];
        for change in spoil {
            let (mut record, _) = setup(&ID, b"1111", CLIENT, MICRA);
            change(&mut record);
            assert_eq!(record.check(), Err(Refusal::IllegalRecord));
        }
    }

    #[test]
    fn another_legal_identity_and_any_read_only_bytes_are_legal() {
        let (mut record, _) = setup(&ID, b"1111", CLIENT, MICRA);
        record.poke_id(&[7; 16]);
        record.poke_row(0x007C, &[7; 16]);
        record.poke_password(b"zZ9");
        record.mode = ACCESS_POINT;
        record.poke_row(0x001E, &[0, 0x80]);
        record.poke_row(0x0006, &[255]);
        assert_eq!(record.check(), Ok(()));
        record.poke_id(&CODE_WORD);
        record.poke_row(0x007C, &CODE_WORD);
        assert_eq!(record.check(), Err(Refusal::IllegalRecord));
    }
}
