//! Captures for tables: mostly responses, with reports of every kind, some of them refused, and requests among them.

use super::captured::{self, Contents};
use super::{blocks, identities, packets};
use crate::block::{self, LAST_LOW_BYTE, Report};
use crate::capture::{Captured, RESPONSE, Version};
use crate::packet::{self, LONGEST, SHORTEST};
use crate::random::Random;

/// Room for the data blocks of most responses, so that lines stay short.
const USUAL_ROOM: usize = 60;

impl Contents {
    /// A capture of a few boards and their responses.
    pub fn of_responses(random: &mut Random, version: Version) -> Contents {
        let boards = captured::board_count(random, version);
        let ids = captured::ids(random, boards);
        let records = records(random, &ids);
        Contents {
            version,
            ids,
            records,
        }
    }

    /// The same boards with responses.
    pub fn with_responses(self, random: &mut Random) -> Contents {
        let records = records(random, &self.ids);
        Contents { records, ..self }
    }
}

fn records(random: &mut Random, ids: &[Vec<u8>]) -> Vec<Captured> {
    let mut records = match random.chance(3) {
        true => many_refused(random),
        false => Vec::new(),
    };
    let count = records.len() + random.pick(&[0, 1, 1, 2, 2, 3, 4, 6]);
    while records.len() < count {
        match random.between(0, 15) {
            0..=1 => captured::exchange(random, ids, &mut records),
            2..=3 => records.push(captured::record(random, ids)),
            _ => records.push(response(random, ids)),
        }
    }
    records
}

/// Responses without a byte, more than a byte can count in most cases.
fn many_refused(random: &mut Random) -> Vec<Captured> {
    let record = Captured {
        index: 0,
        direction: RESPONSE,
        counter: captured::counter(random),
        packet: Vec::new(),
    };
    vec![record; random.pick(&[99, 254, 255, 256, 257, 300])]
}

/// A response, accepted in most cases.
fn response(random: &mut Random, ids: &[Vec<u8>]) -> Captured {
    let index = captured::index(random, ids.len());
    let mut packet = match random.chance(75) {
        true => accepted(random, &ids[index]),
        false => refused(random, &ids[index]),
    };
    packet.truncate(LONGEST);
    Captured {
        index: index as u16,
        direction: RESPONSE,
        counter: captured::counter(random),
        packet,
    }
}

/// A response that is refused in most cases.
fn refused(random: &mut Random, id: &[u8]) -> Vec<u8> {
    let whole = accepted(random, id);
    let length = random.between(0, whole.len());
    match random.between(0, 9) {
        0 => Vec::new(),
        1 => whole[..length].to_vec(),
        2..=4 => packets::changed(random, &whole),
        5..=6 => {
            let mut packet = whole;
            packets::spoil_frame(random, 25, &mut packet);
            packet
        }
        7 => {
            // No other fault than the password size.
            let mut packet = whole;
            packet[20] = random.pick(&[9, 0x80, 0xFF]);
            packets::repair(&mut packet);
            packet
        }
        _ => packets::faulty_response(random).2,
    }
}

/// A response with many reports.
pub fn full(random: &mut Random) -> Captured {
    let id = identities::legal_id(random);
    let data = many_reports(random, LONGEST - SHORTEST);
    Captured {
        index: 0,
        direction: RESPONSE,
        counter: captured::counter(random),
        packet: packet::write(&id, b"", packet::RESPONSE, &data),
    }
}

/// A response of this board or of another.
fn accepted(random: &mut Random, id: &[u8]) -> Vec<u8> {
    let other = identities::legal_id(random);
    let id = random.pick(&[id, id, id, &other]).to_vec();
    let password = identities::legal_password(random);
    let room = LONGEST - SHORTEST - password.len();
    let data = match random.between(0, 13) {
        0 => long_value(random, room),
        1 => many_reports(random, room),
        2..=3 => blocks::response(random, room),
        _ => blocks::response(random, USUAL_ROOM),
    };
    packet::write(&id, &password, packet::RESPONSE, &data)
}

/// One value, often the longest that there is room for.
fn long_value(random: &mut Random, room: usize) -> Vec<u8> {
    let longest = room - 3;
    let length = random.pick(&[100, 127, 128, 200, longest - 1, longest, longest]);
    let number = u16::from(random.byte() % LAST_LOW_BYTE);
    let value = random.bytes(length);
    block::write_response(&[Report::Value { number, value }])
}

/// Short reports, often as many as there is room for.
fn many_reports(random: &mut Random, room: usize) -> Vec<u8> {
    let most = room / 2;
    let count = random.pick(&[20, 50, most, most]);
    let mut pair = || {
        let low = random.byte() % LAST_LOW_BYTE;
        match random.chance(10) {
            true => [block::UNKNOWN, low],
            false => [low, random.byte()],
        }
    };
    (0..count).flat_map(|_| pair()).collect()
}

#[cfg(test)]
mod tests {
    use super::*;
    use crate::capture;
    use crate::listing;

    #[test]
    fn responses_of_both_kinds_and_requests_come() {
        let mut random = Random::new(3);
        let (mut accepted, mut refused, mut requests) = (0, 0, 0);
        for version in Version::ALL.repeat(500) {
            let contents = Contents::of_responses(&mut random, version);
            let reading = capture::read(&contents.bytes());
            assert_eq!((reading.version, reading.refusal), (Some(version), None));
            for record in &reading.records {
                match record.direction {
                    RESPONSE if listing::reports(&record.packet).is_ok() => accepted += 1,
                    RESPONSE => refused += 1,
                    _ => requests += 1,
                }
            }
        }
        assert!(accepted > 1_000 && refused > 100 && requests > 100);
    }
}
