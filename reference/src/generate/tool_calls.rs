//! Calls of the tool and the listing, by themselves and in a chain with the board.

use super::{Generator, blocks, identities, packets};
use crate::block::{self, Command};
use crate::call::Call;
use crate::hex;
use crate::packet::{self, CODE_WORD, LONGEST, SHORTEST};
use crate::random::Random;

impl Generator {
    /// Reads and lists a response of the board, sometimes a damaged one.
    pub fn read_response_sometimes(&mut self, request: &[u8], response: Option<Vec<u8>>) {
        let Some(mut response) = response.filter(|_| self.random.chance(35)) else {
            return;
        };
        let Ok(asked) = packet::read(request) else {
            return;
        };
        let (id, password) = (asked.id.to_vec(), asked.password.to_vec());
        if self.random.chance(30) {
            response = packets::changed(&mut self.random, &response);
        }
        self.read_and_list(&id, &password, &response);
    }

    /// Reads with what was asked or with something else, and lists.
    pub fn read_and_list(&mut self, id: &[u8], password: &[u8], response: &[u8]) {
        let chance = self.random.pick(&[0, 0, 30]);
        let random = &mut self.random;
        let mut expected_id = id.to_vec();
        if random.chance(chance) {
            let other = identities::other_id(random, &[0; 16]);
            let illegal = identities::illegal_id(random);
            expected_id = random.pick(&[other, illegal.clone(), illegal, CODE_WORD.to_vec()]);
        }
        let mut expected_password = password.to_vec();
        if random.chance(chance) {
            let other = identities::other_password(random, password);
            let illegal = identities::illegal_password(random);
            expected_password = random.pick(&[other, illegal]);
        }
        let packet = response.to_vec();
        if self.random.chance(75) {
            self.call(Call::Read {
                id: expected_id,
                password: expected_password,
                packet: packet.clone(),
            });
        }
        if self.random.chance(60) {
            self.call(Call::List { packet });
        }
    }

    /// A response made here, with faults in any part.
    pub fn handmade_response(&mut self) {
        let random = &mut self.random;
        let (id, password, response) = packets::faulty_response(random);
        let asked = match random.chance(15) {
            true => CODE_WORD.to_vec(),
            false => id,
        };
        self.read_and_list(&asked, &password, &response);
    }

    /// The tool writes, the board reads it and answers, the tool reads the answer.
    pub fn tool_to_board(&mut self) {
        let (own_id, own_password) = (self.id(), self.password());
        let random = &mut self.random;
        let count = random.between(0, 12);
        let mut commands = blocks::commands(random, count);
        let id = random.pick(&[own_id.clone(), own_id, CODE_WORD.to_vec()]);
        if id == CODE_WORD && random.chance(60) {
            for command in &mut commands {
                let number = random.pick(&[0x007C, 0x00B9, command.number]);
                *command = Command {
                    function: 1,
                    number,
                    value: Vec::new(),
                };
            }
        }
        let answer = self.call(Call::Write {
            length: 256,
            id,
            password: own_password,
            commands,
        });
        let Some(packet) = answer.strip_prefix("packet ").and_then(hex::parse_field) else {
            return;
        };
        let response = self.send(&packet);
        self.read_response_sometimes(&packet, response);
        self.show_record_sometimes(15);
    }

    /// Writes whose fields are each illegal with some chance.
    pub fn faulty_write(&mut self) {
        let length = self.buffer_length();
        let random = &mut self.random;
        let chance = random.pick(&[10, 25]);
        let id = match random.chance(chance) {
            true => identities::illegal_id(random),
            false => identities::legal_id(random),
        };
        let password = match random.chance(chance) {
            true => identities::illegal_password(random),
            false => identities::legal_password(random),
        };
        let count = random.between(0, 6);
        let mut commands = blocks::commands(random, count);
        if random.chance(50) && count > 0 {
            let place = random.between(0, count - 1);
            spoil_command(random, &mut commands[place]);
        }
        self.call(Call::Write {
            length,
            id,
            password,
            commands,
        });
    }

    /// A packet of 256 bytes, or a few more or less.
    pub fn full_write(&mut self) {
        let (id, password) = (self.id(), self.password());
        let target = LONGEST - SHORTEST - password.len();
        let target = target + self.random.pick(&[0, 0, 1, 2, 40]) - self.random.pick(&[0, 0, 1]);
        let commands = match self.random.chance(30) {
            true => reads_of(target),
            false => self.commands_of(target),
        };
        let answer = self.call(Call::Write {
            length: 256,
            id,
            password,
            commands,
        });
        if let Some(packet) = answer.strip_prefix("packet ").and_then(hex::parse_field) {
            self.send(&packet);
        }
    }

    /// A few commands, the last of which fills the block up to `target` bytes.
    fn commands_of(&mut self, target: usize) -> Vec<Command> {
        let count = self.random.between(0, 5);
        let mut commands = blocks::commands(&mut self.random, count);
        let used = block::write_request(&commands).len();
        let (function, number) = commands
            .last()
            .map_or((3, 0x0001), |last| (last.function, last.number));
        // FE, size and low byte come before the value.
        let value = vec![self.random.byte(); target.saturating_sub(used + 3)];
        if (2..=255).contains(&value.len()) {
            commands.push(Command {
                function,
                number,
                value,
            });
        }
        commands
    }
}

/// One command for each byte of the block.
fn reads_of(target: usize) -> Vec<Command> {
    (0..target)
        .map(|place| Command {
            function: 1,
            number: place as u16 % 0xFC,
            value: Vec::new(),
        })
        .collect()
}

/// Makes a command one that 42 names, or one just short of it.
fn spoil_command(random: &mut Random, command: &mut Command) {
    let low = random.pick(&[0xFB, 0xFC, 0xFD, 0xFE, 0xFF]);
    match random.between(0, 3) {
        0 => command.function = random.pick(&[0, 6, 7, 254, 255]),
        1 => command.number = command.number & 0xFF00 | low,
        2 => {
            let length = random.pick(&[254, 255, 256, 257, 300]);
            command.value = random.bytes(length);
        }
        _ => command.value.clear(),
    }
}
