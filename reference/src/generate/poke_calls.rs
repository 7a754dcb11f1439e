//! Pokes: records that are legal or not, and the calls that meet them.

use super::{Generator, identities, values};
use crate::call::Call;
use crate::packet::CODE_WORD;
use crate::rows;
use crate::units;

impl Generator {
    /// Writes one row past all checks, mostly so that the record becomes illegal.
    pub fn poke_row(&mut self) {
        let number = values::number(&mut self.random);
        let value = self.poked_value(number);
        let held = self.session.record.values.get(&number).cloned();
        self.call(Call::PokeRow { number, value });
        self.meet_the_record();
        if let Some(value) = held.filter(|_| self.random.chance(70)) {
            self.call(Call::PokeRow { number, value });
        }
    }

    fn poked_value(&mut self, number: u16) -> Vec<u8> {
        let random = &mut self.random;
        let Some(row) = values::row(random, number) else {
            return values::value(random, number);
        };
        match random.between(0, 9) {
            0 | 1 => values::legal(random, row),
            2..=5 => values::edge(random, row),
            6 => values::wrong_length(random, row),
            7 => Vec::new(),
            8 => vec![2],
            _ => {
                let length = random.between(0, row.room() + 3);
                random.bytes(length)
            }
        }
    }

    /// Writes ID, password, mode or 00B9 past all checks, sometimes to another legal identity.
    pub fn poke_identity(&mut self) {
        match self.random.between(0, 8) {
            0 => {
                let id = self.poked_id();
                self.call(Call::PokeId(id));
            }
            1 | 2 => {
                let legal = identities::legal_id(&mut self.random);
                let id = self
                    .random
                    .pick(&[legal.clone(), legal, CODE_WORD.to_vec()]);
                self.call(Call::PokeId(id.clone()));
                self.meet_the_record();
                let number = rows::ID_ROW;
                self.call(Call::PokeRow { number, value: id });
            }
            3 => {
                let password = identities::illegal_password(&mut self.random);
                self.call(Call::PokePassword(password));
            }
            4 => {
                let password = identities::legal_password(&mut self.random);
                self.call(Call::PokePassword(password));
            }
            5 | 6 => self.poke_type_row(),
            _ => {
                let mode = self.random.pick(&[0, 1, 1, 2, 2, 3, 255]);
                self.call(Call::PokeMode(mode));
            }
        }
        self.meet_the_record();
    }

    /// Writes 00B9 past all checks, close to the unit type, and mostly back.
    fn poke_type_row(&mut self) {
        let number = rows::UNIT_TYPE_ROW;
        let unit_type = self.session.record.unit_type;
        let high = self.random.pick(&[1, 0x80, unit_type]);
        let value = self.random.pick(&[
            vec![unit_type, high],
            vec![unit_type ^ 1, 0],
            vec![unit_type ^ 0x80, 0],
            vec![0, unit_type],
            vec![unit_type],
            Vec::new(),
        ]);
        self.call(Call::PokeRow { number, value });
        self.meet_the_record();
        if self.random.chance(80) {
            let value = units::row_value(unit_type);
            self.call(Call::PokeRow { number, value });
        }
    }

    /// Writes the unit type past all checks, mostly for a few calls only.
    pub fn poke_type(&mut self) {
        let held = self.session.record.unit_type;
        let random = &mut self.random;
        let (legal, illegal) = (
            identities::legal_type(random),
            identities::illegal_type(random),
        );
        let unit_type = random.pick(&[legal, illegal]);
        self.call(Call::PokeType(unit_type));
        self.meet_the_record();
        if self.random.chance(40) {
            // Where the type is another one of 2 to 5, `line` leaves these out: they are not stated.
            self.poke_row();
            self.poke_entry();
        }
        if self.random.chance(85) {
            self.call(Call::PokeType(held));
            self.show_record_sometimes(50);
        }
    }

    fn poked_id(&mut self) -> Vec<u8> {
        let held = self.id();
        let length = self.random.between(0, 20);
        let any = self.random.bytes(length);
        let cut = held[..self.random.between(0, 15)].to_vec();
        let longer = [&held[..], &[0xAA]].concat();
        self.random.pick(&[any, cut, longer, CODE_WORD.to_vec()])
    }

    /// One to three calls on the record as it now is.
    pub fn meet_the_record(&mut self) {
        for _ in 0..self.random.between(1, 3) {
            match self.random.between(0, 5) {
                0 | 1 => {
                    let packet = self.rightful_packet();
                    self.send(&packet);
                }
                2 => {
                    let length = self.random.pick(&[0, 255, 256]);
                    let size = self.random.pick(&[0, 23, 24, 257]);
                    let packet = self.random.bytes(size);
                    self.call(Call::Packet { length, packet });
                }
                3 => self.measurement(),
                4 => self.search(),
                _ => self.show_record(),
            }
        }
    }
}
