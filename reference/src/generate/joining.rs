//! Two packets in turn and the tool's packet of both command lists, each from the same start.

use super::{Generator, blocks, board_calls, identities, values};
use crate::block::{self, Command};
use crate::call::Call;
use crate::hex;
use crate::packet;
use crate::record::{ACCESS_POINT, CLIENT};

/// A board's identity, with which its packets are written.
struct Identity {
    id: Vec<u8>,
    password: Vec<u8>,
}

impl Identity {
    fn ask(&self, request: &Request) -> Call {
        Call::Packet {
            length: 256,
            packet: packet::write(&self.id, &self.password, request.function, &request.data),
        }
    }
}

/// A request block and its commands.
struct Request {
    function: u8,
    data: Vec<u8>,
    commands: Vec<Command>,
}

impl Generator {
    pub fn joined_packets(&mut self) {
        self.join();
    }

    /// The answers to the two packets and the record after them; then the answer of the writer and, where it writes a packet, that of the
    /// board and the record again.
    fn join(&mut self) -> (Vec<String>, Vec<String>) {
        let (own, start) = self.start();
        let requests = [self.request(&own), self.request(&own)];
        let mut apart = Vec::new();
        self.make(&start);
        for request in &requests {
            apart.push(self.call(own.ask(request)));
        }
        apart.push(self.call(Call::Record));
        self.make(&start);
        let commands = requests.map(|request| request.commands).concat();
        (apart, self.joined(own, commands))
    }

    /// A set-up and what may come after it; none of it depends on an answer, so that it can be made again.
    fn start(&mut self) -> (Identity, Vec<Call>) {
        let (id, password) = (
            identities::legal_id(&mut self.random),
            identities::legal_password(&mut self.random),
        );
        let mode = self.random.pick(&[CLIENT, ACCESS_POINT]);
        let unit_type = identities::legal_type(&mut self.random);
        let own = Identity { id, password };
        let mut calls = vec![Call::Setup {
            id: own.id.clone(),
            password: own.password.clone(),
            mode,
            unit_type: Some(unit_type),
        }];
        for _ in 0..self.random.between(0, 2) {
            let call = match self.random.chance(70) {
                true => own.ask(&self.request(&own)),
                false => self.any_measurement(),
            };
            calls.push(call);
        }
        (own, calls)
    }

    fn make(&mut self, calls: &[Call]) {
        for call in calls {
            self.call(call.clone());
        }
    }

    fn any_measurement(&mut self) -> Call {
        let number = self.measured_row();
        let value = values::value(&mut self.random, number);
        Call::Measure { number, value }
    }

    /// A few commands in any form; now and then many of one row, so that two such packets may not fit together.
    fn request(&mut self, own: &Identity) -> Request {
        let function = self.random.between(1, 5) as u8;
        let room = board_calls::room(&own.password);
        let data = match self.random.chance(80) {
            true => blocks::request(&mut self.random, function, room),
            false => {
                let low = self.random.pick(&[0x01, 0x63, 0x04]);
                let item = if matches!(function, 2 | 3) {
                    vec![low, 2]
                } else {
                    vec![low]
                };
                item.repeat(self.random.between(20, room / 2))
            }
        };
        let read = block::read_request(function, &data).expect("a well-formed block");
        Request {
            function,
            data,
            commands: read.commands,
        }
    }

    fn joined(&mut self, own: Identity, commands: Vec<Command>) -> Vec<String> {
        let written = self.call(Call::Write {
            length: 256,
            id: own.id,
            password: own.password,
            commands,
        });
        let Some(packet) = written.strip_prefix("packet ").and_then(hex::parse_field) else {
            return vec![written];
        };
        let length = self.random.pick(&[256, 256, 257, 300, 1024]);
        let answer = self.call(Call::Packet { length, packet });
        vec![written, answer, self.call(Call::Record)]
    }
}

#[cfg(test)]
mod tests {
    use std::collections::BTreeMap;

    use super::*;
    use crate::block::Report;
    use crate::packet::{LONGEST, SHORTEST};

    fn reports(answer: &str) -> Vec<Report> {
        let Some(response) = answer.strip_prefix("response ").and_then(hex::parse_field) else {
            assert_eq!(answer, "silence");
            return Vec::new();
        };
        let frame = packet::read(&response).expect("a response");
        block::read_response(frame.data).expect("reports")
    }

    /// The law of joined packets, and how often each outcome is met.
    #[test]
    fn a_joined_packet_does_what_its_two_do() {
        let mut generator = Generator::new(11, usize::MAX);
        let mut met: BTreeMap<&str, usize> = BTreeMap::new();
        for _ in 0..4_000 {
            let (apart, joined) = generator.join();
            let room = LONGEST - SHORTEST - generator.password().len();
            let outcome = match (&apart[..], &joined[..]) {
                ([first, second, _], _) if first == "refused 12" || second == "refused 12" => {
                    "one does not fit"
                }
                (_, [written]) => {
                    assert_eq!(written, "refused 43");
                    "the packet does not fit"
                }
                ([first, second, left], [_, answer, record]) => {
                    let both = [reports(first), reports(second)].concat();
                    let fits = block::write_response(&both).len() <= room;
                    if fits {
                        assert_eq!((left, both), (record, reports(answer)));
                    }
                    assert_eq!(answer == "refused 12", !fits);
                    match fits {
                        true if answer == "silence" => "silence",
                        true => "a response",
                        false => "the response does not fit",
                    }
                }
                other => panic!("no pair: {other:?}"),
            };
            *met.entry(outcome).or_default() += 1;
        }
        assert_eq!(met.len(), 5, "{met:?}");
        assert!(met.values().all(|count| *count > 50), "{met:?}");
    }
}
