//! Calls on the board: set-up, packets and measurements.

use super::{Generator, blocks, identities, packets, values};
use crate::block::{self, Command};
use crate::call::Call;
use crate::hex;
use crate::packet::{self, CODE_WORD, LONGEST, SHORTEST};
use crate::record::{ACCESS_POINT, CLIENT};
use crate::rows::{self, Access};
use crate::units;

/// The most data that fits beside a password.
pub fn room(password: &[u8]) -> usize {
    LONGEST - SHORTEST - password.len()
}

impl Generator {
    /// A set-up, mostly a legal one; each field may be illegal by itself.
    pub fn set_up(&mut self) {
        let chance = self.random.pick(&[0, 40, 50]);
        let random = &mut self.random;
        let id = match random.chance(chance) {
            true => identities::illegal_id(random),
            false => identities::legal_id(random),
        };
        let password = match random.chance(chance) {
            true => identities::illegal_password(random),
            false => identities::legal_password(random),
        };
        let mode = match random.chance(chance) {
            true => random.pick(&[0, 3, 4, 128, 254, 255]),
            false => random.pick(&[CLIENT, ACCESS_POINT]),
        };
        let unit_type = match random.chance(chance) {
            true => identities::illegal_type(random),
            false => identities::legal_type(random),
        };
        let unit_type = identities::type_field(random, unit_type);
        self.call(Call::Setup {
            id,
            password,
            mode,
            unit_type,
        });
        self.show_record_sometimes(30);
    }

    /// A legal set-up of a board of this type.
    pub fn set_up_type(&mut self, unit_type: u8) {
        let random = &mut self.random;
        let (id, password) = (
            identities::legal_id(random),
            identities::legal_password(random),
        );
        let mode = random.pick(&[CLIENT, ACCESS_POINT]);
        let unit_type = identities::type_field(random, unit_type);
        self.call(Call::Setup {
            id,
            password,
            mode,
            unit_type,
        });
    }

    /// Sends a packet with some buffer and gives the response, if there is one.
    pub fn send(&mut self, packet: &[u8]) -> Option<Vec<u8>> {
        let length = self.buffer_length();
        self.send_with(length, packet)
    }

    fn send_with(&mut self, length: usize, packet: &[u8]) -> Option<Vec<u8>> {
        let packet = packet.to_vec();
        let answer = self.call(Call::Packet { length, packet });
        hex::parse_field(answer.strip_prefix("response ")?)
    }

    /// Sends as many of the commands as a packet can bear.
    pub fn send_commands(&mut self, mut commands: Vec<Command>) {
        let (id, password) = (self.rightful_id(), self.password());
        while block::write_request(&commands).len() > room(&password) {
            commands.pop();
        }
        let data = block::write_request(&commands);
        let function = block::first_function(&commands);
        let packet = packet::write(&id, &password, function, &data);
        let response = self.send(&packet);
        self.read_response_sometimes(&packet, response);
    }

    /// An ID that the board takes from a rightful sender.
    pub fn rightful_id(&mut self) -> Vec<u8> {
        if self.session.record.mode == ACCESS_POINT && self.random.chance(40) {
            CODE_WORD.to_vec()
        } else {
            self.id()
        }
    }

    /// A well-formed request that bears the board's password.
    pub fn rightful_packet(&mut self) -> Vec<u8> {
        let (id, password) = (self.rightful_id(), self.password());
        let function = self.random.pick(&[1, 1, 2, 3, 3, 3, 4, 5]);
        let data = blocks::request(&mut self.random, function, room(&password));
        packet::write(&id, &password, function, &data)
    }

    /// What a client does: requests, whose responses it reads.
    pub fn rightful_traffic(&mut self) {
        let packet = self.rightful_packet();
        let response = self.send(&packet);
        self.read_response_sometimes(&packet, response);
        self.show_record_sometimes(15);
    }

    /// Many commands on one row in one packet: writes at the edges, raises, lowers and reads.
    pub fn one_row(&mut self) {
        let number = self.row_of_the_board();
        let mut commands = Vec::new();
        for _ in 0..self.random.between(1, 12) {
            let function = self.random.pick(&[1, 2, 3, 3, 3, 4, 4, 4, 5, 5, 5]);
            let value = match function {
                2 | 3 => values::value(&mut self.random, number),
                _ => Vec::new(),
            };
            commands.push(Command {
                function,
                number,
                value,
            });
        }
        self.send_commands(commands);
        self.show_record_sometimes(10);
    }

    /// A row that the board's type has in most cases.
    fn row_of_the_board(&mut self) -> u16 {
        let rows = rows::of(self.session.record.unit_type).keys();
        let rows: Vec<u16> = rows.copied().collect();
        if rows.is_empty() || self.random.chance(15) {
            return values::number(&mut self.random);
        }
        self.random.pick(&rows)
    }

    pub fn search(&mut self) {
        let packet = self.search_packet();
        let response = self.send(&packet);
        self.read_response_sometimes(&packet, response);
        self.show_record_sometimes(5);
    }

    /// A packet with the code word and any password: in client mode a search.
    fn search_packet(&mut self) -> Vec<u8> {
        let password = match self.random.between(0, 3) {
            0 => self.password(),
            1 => identities::strange_password(&mut self.random),
            _ => identities::legal_password(&mut self.random),
        };
        let mut data = self.search_block();
        let mut function = 1;
        match self.random.between(0, 9) {
            0 => function = self.random.between(0, 6) as u8,
            1 => data.extend_from_slice(&[0xFC, self.random.between(0, 6) as u8]),
            2 => data.splice(0..0, [0xFC, 2, 0xFC, 1]).for_each(drop),
            3 => blocks::spoil_request(&mut self.random, &mut data),
            _ => {}
        }
        packet::write(&CODE_WORD, &password, function, &data)
    }

    /// Reads of the two rows that a search reports, with others between them.
    fn search_block(&mut self) -> Vec<u8> {
        let mut data = Vec::new();
        for _ in 0..self.random.between(0, 8) {
            let any = values::number(&mut self.random).to_be_bytes()[1];
            let item = match self.random.between(0, 12) {
                0..=3 => vec![0x7C],
                4..=6 => vec![0xB9],
                7 => vec![any],
                8 => vec![0xFE, 2, any, 0xFC, 3],
                9 => vec![0xFF, self.random.pick(&[0, 0, 1])],
                10 => vec![0xFC, 1],
                11 => self.entry_read(),
                _ => vec![0xFE, 1, 0x7C, self.random.byte()],
            };
            data.extend_from_slice(&item);
        }
        data
    }

    /// A sender with a wrong password or a wrong ID, the rest mostly well formed.
    pub fn stranger(&mut self) {
        let (own_id, own_password) = (self.rightful_id(), self.password());
        let entry_write = self.entry_write();
        let random = &mut self.random;
        let mut function = random.between(1, 5) as u8;
        let mut data = blocks::request(random, function, 200);
        if random.chance(20) {
            function = random.pick(&[2, 3]);
            data = entry_write;
        }
        if random.chance(25) {
            blocks::spoil_request(random, &mut data);
        }
        let (id, password) = match random.chance(70) {
            true => (own_id, identities::other_password(random, &own_password)),
            false => (identities::other_id(random, &own_id), own_password),
        };
        let packet = packet::write(&id, &password, function, &data);
        self.send(&packet);
        self.show_record_sometimes(10);
    }

    /// A rightful packet that writes before its block goes wrong.
    pub fn malformed_block(&mut self) {
        let (id, password) = (self.rightful_id(), self.password());
        let function = self.random.between(1, 5) as u8;
        let mut data = blocks::request(&mut self.random, function, 200);
        data.splice(0..0, [0xFC, 3, 0x01, 2, 0x02, 4, 0xFC, function])
            .for_each(drop);
        blocks::spoil_request(&mut self.random, &mut data);
        let illegal = self.random.pick(&[0, 6, 7, 0xFF]);
        let sent = match self.random.chance(10) {
            true => illegal,
            false => function,
        };
        let packet = packet::write(&id, &password, sent, &data);
        self.send(&packet);
        self.show_record_sometimes(40);
    }

    pub fn faulty_packet(&mut self) {
        let (id, password) = (self.rightful_id(), self.password());
        let packet = packets::faulty(&mut self.random, &id, &password);
        self.send(&packet);
        self.show_record_sometimes(5);
    }

    pub fn changed_packet(&mut self) {
        let packet = match self.random.chance(75) {
            true => self.rightful_packet(),
            false => self.search_packet(),
        };
        let packet = packets::changed(&mut self.random, &packet);
        self.send(&packet);
        self.show_record_sometimes(10);
    }

    pub fn packet_of_any_length(&mut self) {
        let any = self.random.between(0, 260);
        let edge = self
            .random
            .pick(&[0, 1, 22, 23, 24, 25, 255, 256, 257, 260]);
        let length = self.random.pick(&[any, any, any, edge]);
        let (id, password) = (self.rightful_id(), self.password());
        let packet = packets::of_length(&mut self.random, length, &id, &password);
        match self.random.between(0, 9) {
            0 => self.read_and_list(&id, &password, &packet),
            _ => drop(self.send(&packet)),
        }
    }

    /// A request whose response has 256 bytes, or a few more or less; a write in it shows what is kept.
    pub fn full_response(&mut self) {
        let (id, password) = (self.rightful_id(), self.password());
        let over = self.random.pick(&[0, 0, 1, 1, 2, 20]);
        let under = self.random.pick(&[0, 0, 0, 1, 2]);
        let target = room(&password) + over - under;
        let mut data = match self.random.chance(40) {
            true => self.entry_write(),
            false => vec![self.random.pick(&[0x01, 0x07, 0x14, 0x72]), 2],
        };
        let function = self.random.pick(&[1, 1, 4, 5]);
        data.extend_from_slice(&[0xFC, function]);
        let mut target = target;
        // An entry's report has nine bytes; on VENTO Expert 0077 is unknown.
        let report = if self.session.record.has_schedule() {
            9
        } else {
            2
        };
        for _ in 0..self.random.pick(&[0, 1, 3, 14]) * usize::from(function == 1) {
            data.extend(self.entry_read());
            target -= report;
        }
        data.extend(self.reads_with_response_of(target));
        let packet = packet::write(&id, &password, 2, &data);
        let response = self.send_with(256, &packet);
        self.read_response_sometimes(&packet, response);
        self.show_record_sometimes(30);
    }

    /// Low bytes on page 0 whose reports have `target` bytes together.
    fn reads_with_response_of(&mut self, target: usize) -> Vec<u8> {
        let mut reads = Vec::new();
        let mut rest = target;
        while rest > 80 {
            let number = values::number(&mut self.random) % 0x0100;
            let size = self.session.record.values.get(&number).map_or(1, Vec::len);
            // No report changes its size under a raise or lower.
            let report = if size == 1 { 2 } else { 3 + size };
            if report <= rest {
                reads.push(number as u8);
                rest -= report;
            }
        }
        if rest % 2 == 1 {
            reads.push(self.low_byte_of_two_bytes());
            rest -= 5;
        }
        for _ in 0..rest / 2 {
            reads.push(
                self.random
                    .pick(&[0x01, 0x02, 0x06, 0x18, 0x77, 0xA0, 0xFB]),
            );
        }
        reads
    }

    /// A row on page 0 that holds two bytes, as 00B9 does on every type.
    fn low_byte_of_two_bytes(&mut self) -> u8 {
        let values = self.session.record.values.iter();
        let rows = values.filter(|(number, value)| **number < 0x0100 && value.len() == 2);
        let rows: Vec<u8> = rows.map(|(number, _)| *number as u8).collect();
        self.random.pick(&rows)
    }

    /// The same for a search, whose response has reports of 19 and 5 bytes only.
    pub fn full_search_response(&mut self) {
        let password = identities::legal_password(&mut self.random);
        let over = self.random.pick(&[0, 0, 1, 5]);
        let target = room(&password) + over;
        let identities = (0..5)
            .find(|count| (target - 19 * count).is_multiple_of(5))
            .unwrap_or(0);
        let more = self.random.pick(&[0, 5]);
        let identities = identities + more;
        let mut data = vec![0xB9; (target - 19 * identities) / 5];
        for _ in 0..identities {
            let place = self.random.between(0, data.len());
            data.insert(place, 0x7C);
        }
        // Parameters that a search passes over take no room in its response.
        for _ in 0..self.random.between(0, 20) {
            let place = self.random.between(0, data.len());
            data.insert(place, self.random.pick(&[0x01, 0x77, 0x95]));
        }
        let packet = packet::write(&CODE_WORD, &password, 1, &data);
        let response = self.send_with(256, &packet);
        self.read_response_sometimes(&packet, response);
    }

    /// A row that is read only, mostly one of the board's type.
    pub fn measured_row(&mut self) -> u16 {
        let (own, any) = (
            self.session.record.unit_type,
            identities::legal_type(&mut self.random),
        );
        let unit_type = match units::ALL.contains(&own) && self.random.chance(75) {
            true => own,
            false => any,
        };
        let measured: Vec<u16> = rows::of(unit_type)
            .values()
            .filter(|row| row.access == Access::ReadOnly)
            .map(|row| row.number)
            .collect();
        self.random.pick(&measured)
    }

    /// A measurement, then a read of its row.
    pub fn measurement(&mut self) {
        let row = self.measured_row();
        let any = values::number(&mut self.random);
        let countdown = self.random.pick(&[0x000B, 0x0064, 0x0064]);
        let number = self.random.pick(&[
            row, row, row, row, countdown, countdown, countdown, any, 0x007C, 0x00B9, 0x0077,
        ]);
        let size = values::row(&mut self.random, number).map_or(1, |row| row.room());
        let length = match self.random.chance(75) {
            true => size,
            false => self.random.pick(&[0, 1, size - 1, size + 1, size * 2, 100]),
        };
        let mut value = self.random.bytes(length);
        if self.random.chance(20) {
            let marks = [[0x00, 0x80], [0xFF, 0x7F], [0xCE, 0xFF], [0xFF, 0xFF]];
            value = self.random.pick(&marks)[..length.min(2)].to_vec();
        }
        self.call(Call::Measure { number, value });
        if self.random.chance(30) {
            let [high, low] = number.to_be_bytes();
            let (id, password) = (self.rightful_id(), self.password());
            let packet = packet::write(&id, &password, 1, &[0xFF, high, low]);
            self.send(&packet);
        }
        self.show_record_sometimes(10);
    }
}
