//! What a capture holds: the IDs of its boards and records of both directions, at the edges of each field.

use super::{blocks, identities, packets};
use crate::board;
use crate::capture::{self, Captured, REQUEST, RESPONSE, Version};
use crate::packet::{self, CODE_WORD, LONGEST};
use crate::random::Random;
use crate::record::{self, ACCESS_POINT};

const COUNTERS: [u32; 10] = [
    0,
    1,
    255,
    256,
    65_535,
    65_536,
    0x7FFF_FFFF,
    0x8000_0000,
    0xFFFF_FFFE,
    0xFFFF_FFFF,
];

/// Room for the data blocks of most packets, so that lines stay short.
const USUAL_ROOM: usize = 60;

/// Many boards: about as many as a byte counts, and as a capture may have; the last are too many.
const MANY_BOARDS: [usize; 6] = [255, 256, 257, 999, 1_000, 1_001];

/// What a capture holds, and the version that it is for.
pub struct Contents {
    pub version: Version,
    pub ids: Vec<Vec<u8>>,
    pub records: Vec<Captured>,
}

impl Contents {
    /// A capture of a few boards.
    pub fn few_boards(random: &mut Random, version: Version) -> Contents {
        let boards = board_count(random, version);
        let ids = ids(random, boards);
        let records = match random.chance(3) {
            true => many_records(random, &ids),
            false => records(random, &ids),
        };
        Contents {
            version,
            ids,
            records,
        }
    }

    /// A capture of many boards, which version 2 alone can have.
    pub fn many_boards(random: &mut Random) -> Contents {
        let boards = random.pick(&MANY_BOARDS);
        let ids = ids(random, boards);
        let records = records(random, &ids);
        Contents {
            version: Version::Two,
            ids,
            records,
        }
    }

    pub fn bytes(&self) -> Vec<u8> {
        capture::compose(self.version, &self.ids.concat(), &self.records)
    }
}

/// The number of boards of a capture, mostly one or two.
pub fn board_count(random: &mut Random, version: Version) -> usize {
    let any = random.between(1, 16);
    let more = version.most_boards().min(17);
    random.pick(&[1, 1, 1, 1, 2, 2, 3, 15, 16, more, any])
}

/// IDs of boards, equal ones and the code word among them.
pub fn ids(random: &mut Random, boards: usize) -> Vec<Vec<u8>> {
    let first = identities::legal_id(random);
    let mut ids = vec![first.clone()];
    while ids.len() < boards {
        ids.push(match random.between(0, 4) {
            0 => identities::other_id(random, &first),
            1 => first.clone(),
            2 => CODE_WORD.to_vec(),
            _ => identities::legal_id(random),
        });
    }
    ids
}

/// Records that a capture of these boards may have.
fn records(random: &mut Random, ids: &[Vec<u8>]) -> Vec<Captured> {
    let mut records = Vec::new();
    let count = random.pick(&[0, 1, 1, 2, 2, 3, 5]);
    while records.len() < count {
        if random.chance(20) {
            exchange(random, ids, &mut records);
        } else {
            records.push(record(random, ids));
        }
    }
    records
}

/// Many short records, more than a byte can count now and then.
fn many_records(random: &mut Random, ids: &[Vec<u8>]) -> Vec<Captured> {
    let count = random.pick(&[20, 60, 256, 257, 300, 350]);
    let mut next = || {
        let mut record = record(random, ids);
        if random.chance(97) {
            record.packet.truncate(random.pick(&[0, 0, 0, 1, 2]));
        }
        if random.chance(97) {
            record.index = 0;
        }
        record
    };
    (0..count).map(|_| next()).collect()
}

/// One record, with any packet that a record may hold.
pub fn record(random: &mut Random, ids: &[Vec<u8>]) -> Captured {
    let index = index(random, ids.len());
    let direction = random.pick(&[REQUEST, RESPONSE]);
    let counter = counter(random);
    let mut packet = packet(random, direction, &ids[index]);
    packet.truncate(LONGEST);
    Captured {
        index: index as u16,
        direction,
        counter,
        packet,
    }
}

pub fn index(random: &mut Random, boards: usize) -> usize {
    let (any, last) = (random.between(0, boards - 1), boards - 1);
    // Another digit, another byte.
    let edge = random.pick(&[9, 10, 99, 100, 255, 256]);
    random.pick(&[0, last, any, edge.min(last)])
}

pub fn counter(random: &mut Random) -> u32 {
    let any = random.next_number() as u32;
    match random.chance(70) {
        true => random.pick(&COUNTERS),
        false => any,
    }
}

/// A packet of this direction: well formed, faulty, changed, of a length at an edge, or one of the other direction.
fn packet(random: &mut Random, direction: u8, id: &[u8]) -> Vec<u8> {
    let password = identities::legal_password(random);
    match random.between(0, 9) {
        0..=2 => well_formed(random, direction, id, &password),
        3..=5 if direction == REQUEST => packets::faulty(random, id, &password),
        3..=5 => packets::faulty_response(random).2,
        6 => {
            let packet = well_formed(random, direction, id, &password);
            packets::changed(random, &packet)
        }
        7 => {
            let length = random.pick(&[0, 0, 1, 22, 23, 24, 25, 255, 256]);
            packets::of_length(random, length, id, &password)
        }
        8 => well_formed(random, RESPONSE - direction, id, &password),
        _ => malformed(random, direction, id, &password),
    }
}

fn well_formed(random: &mut Random, direction: u8, id: &[u8], password: &[u8]) -> Vec<u8> {
    if direction == RESPONSE {
        let data = blocks::response(random, USUAL_ROOM);
        return packet::write(id, password, packet::RESPONSE, &data);
    }
    let function = random.between(1, 5) as u8;
    let data = blocks::request(random, function, USUAL_ROOM);
    packet::write(id, password, function, &data)
}

/// A packet whose block is mostly malformed, and nothing else.
fn malformed(random: &mut Random, direction: u8, id: &[u8], password: &[u8]) -> Vec<u8> {
    let packet = well_formed(random, direction, id, password);
    let frame = packet::read(&packet).expect("a well-formed packet");
    let mut data = frame.data.to_vec();
    match direction {
        RESPONSE => blocks::spoil_response(random, &mut data),
        _ => blocks::spoil_request(random, &mut data),
    }
    packet::write(id, password, frame.function, &data)
}

/// A request and what a board answers to it.
pub fn exchange(random: &mut Random, ids: &[Vec<u8>], records: &mut Vec<Captured>) {
    let index = index(random, ids.len());
    let (id, password) = (&ids[index], identities::legal_password(random));
    let unit_type = identities::legal_type(random);
    let (mut board, _) = record::setup(id, &password, ACCESS_POINT, unit_type);
    let request = well_formed(random, REQUEST, id, &password);
    let mut buffer = [0; LONGEST];
    let answer = board::packet(&mut board, &request, &mut buffer);
    let sent = counter(random);
    let mut kept = |direction, counter, packet: &[u8]| {
        records.push(Captured {
            index: index as u16,
            direction,
            counter,
            packet: packet.to_vec(),
        });
    };
    kept(REQUEST, sent, &request);
    if let Ok(length @ 1..) = answer {
        let delay = random.pick(&[0, 1, 3, 250]);
        kept(RESPONSE, sent.wrapping_add(delay), &buffer[..length]);
    }
}

#[cfg(test)]
mod tests {
    use super::*;

    #[test]
    fn captures_of_few_boards_are_accepted() {
        let mut random = Random::new(12);
        for version in [Version::One, Version::Two].repeat(250) {
            let contents = Contents::few_boards(&mut random, version);
            let reading = capture::read(&contents.bytes());
            assert_eq!((reading.version, reading.refusal), (Some(version), None));
            assert_eq!(reading.ids.concat(), contents.ids.concat());
            assert_eq!(reading.records, contents.records);
        }
    }

    #[test]
    fn captures_of_many_boards_are_accepted_up_to_the_most() {
        let mut random = Random::new(12);
        for _ in 0..50 {
            let contents = Contents::many_boards(&mut random);
            let reading = capture::read(&contents.bytes());
            let accepted = contents.ids.len() <= 1_000;
            assert_eq!(reading.refusal.is_none(), accepted);
            if accepted {
                assert_eq!(reading.ids.concat(), contents.ids.concat());
                assert_eq!(reading.records, contents.records);
            }
        }
    }
}
