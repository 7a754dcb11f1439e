//! Whole packets: with faults in any part, of any length, or with a byte changed.

use super::{blocks, identities};
use crate::packet::{self, CODE_WORD, LONGEST, RESPONSE, SHORTEST};
use crate::random::Random;

/// Puts the right checksum at the end.
pub fn repair(packet: &mut [u8]) {
    let length = packet.len();
    if length >= 4 {
        let sum: u32 = packet[2..length - 2]
            .iter()
            .map(|byte| u32::from(*byte))
            .sum();
        packet[length - 2..].copy_from_slice(&(sum as u16).to_le_bytes());
    }
}

/// A request whose parts are each spoiled with some chance, so that several refusals apply at once.
pub fn faulty(random: &mut Random, id: &[u8], password: &[u8]) -> Vec<u8> {
    let chance = random.pick(&[5, 15, 30]);
    let mut function = random.between(1, 5) as u8;
    let mut data = blocks::request(random, function, 200);
    if random.chance(chance) {
        blocks::spoil_request(random, &mut data);
    }
    if random.chance(chance) {
        function = random.pick(&[0, 6, 7, 0x11, 0xFC, 0xFF]);
    }
    let (mut id, mut password) = (id.to_vec(), password.to_vec());
    if random.chance(chance) {
        password = identities::other_password(random, &password);
    }
    if random.chance(chance) {
        let other = identities::other_id(random, &id);
        id = random.pick(&[other, CODE_WORD.to_vec()]);
    }
    let mut packet = packet::write(&id, &password, function, &data);
    spoil_frame(random, chance, &mut packet);
    packet
}

/// A response with faults in any part, behind its ID and password.
pub fn faulty_response(random: &mut Random) -> (Vec<u8>, Vec<u8>, Vec<u8>) {
    let chance = random.pick(&[5, 15, 25]);
    let id = match random.chance(5) {
        true => CODE_WORD.to_vec(),
        false => identities::legal_id(random),
    };
    let password = match random.chance(10) {
        true => identities::strange_password(random),
        false => identities::legal_password(random),
    };
    let mut data = blocks::response(random, LONGEST - SHORTEST - password.len());
    if random.chance(20) {
        blocks::spoil_response(random, &mut data);
    }
    let function = match random.chance(chance) {
        true => random.pick(&[0, 1, 2, 3, 4, 5, 7, 0xFF]),
        false => RESPONSE,
    };
    let mut response = packet::write(&id, &password, function, &data);
    match random.between(0, 3) {
        0 | 1 => spoil_frame(random, chance, &mut response),
        2 if random.chance(chance) => response = changed(random, &response),
        _ => {}
    }
    (id, password, response)
}

/// Spoils sizes, TYPE, checksum, start and length, each with some chance.
pub fn spoil_frame(random: &mut Random, chance: usize, packet: &mut Vec<u8>) {
    if random.chance(chance) {
        let size = random.between(0, 20) as u8;
        packet[20] = random.pick(&[size, 9, 0x80, 0xFF]);
    }
    if random.chance(chance) {
        packet[2] = random.pick(&[0, 1, 3, 0x10, 0xFF]);
    }
    if random.chance(chance) {
        packet[3] = random.pick(&[0, 8, 15, 17, 0xFF]);
    }
    repair(packet);
    if random.chance(chance) {
        spoil_checksum(random, packet);
    }
    if random.chance(chance) {
        let place = random.between(0, 1);
        packet[place] = random.pick(&[0xFC, 0xFE, 0x00, 0xDF]);
    }
    if random.chance(chance) {
        let length = random.pick(&[0, 1, 2, 4, 20, 22, 23, 24, 255, 257, 300]);
        packet.resize(length, 0);
    }
}

fn spoil_checksum(random: &mut Random, packet: &mut [u8]) {
    let length = packet.len();
    match random.between(0, 2) {
        0 => packet[length - 2] ^= random.pick(&[0x01, 0x80]),
        1 => packet[length - 1] ^= random.pick(&[0x01, 0x80]),
        _ => packet.swap(length - 2, length - 1),
    }
}

/// The packet with one byte changed, inserted or left out, or cut short; the checksum repaired or not.
pub fn changed(random: &mut Random, packet: &[u8]) -> Vec<u8> {
    let mut packet = packet.to_vec();
    let last = packet.len() - 1;
    let any = random.between(0, last);
    let head = random.between(0, 25.min(last));
    let place = random.pick(&[any, head]);
    match random.between(0, 9) {
        0 => packet.insert(place, random.byte()),
        1 => {
            packet.remove(place);
        }
        2 => packet.truncate(place),
        3 => packet[place] = packet[place].wrapping_add(1),
        4 => packet[place] = random.pick(&[0, 1, 2, 0xFB, 0xFC, 0xFD, 0xFE, 0xFF]),
        5 => packet[place] = random.byte(),
        _ => packet[place] ^= 1 << random.between(0, 7),
    }
    if random.chance(60) {
        repair(&mut packet);
    }
    packet
}

/// A packet of exactly this length: noise, a right start, a right checksum, or well framed.
pub fn of_length(random: &mut Random, length: usize, id: &[u8], password: &[u8]) -> Vec<u8> {
    let mut packet = random.bytes(length);
    let kind = random.between(0, 5);
    if kind >= 1 {
        for byte in packet.iter_mut().take(2) {
            *byte = 0xFD;
        }
    }
    if kind >= 3 && length >= SHORTEST + password.len() {
        let function = random.between(1, 5) as u8;
        let room = length - SHORTEST - password.len();
        let data = match kind {
            3 => random.bytes(room),
            _ => padded_request(random, function, room),
        };
        packet = packet::write(id, password, function, &data);
    } else if kind >= 2 {
        repair(&mut packet);
    }
    packet
}

/// A well-formed block of exactly `room` bytes where that is possible, filled up with items of two bytes.
fn padded_request(random: &mut Random, function: u8, room: usize) -> Vec<u8> {
    let start = random.between(0, room);
    let mut data = blocks::request(random, function, start);
    if room - data.len() >= 2 {
        data.extend_from_slice(&[0xFC, 0x02]);
    }
    let rest = room - data.len();
    if rest % 2 == 1 && rest >= 5 && random.chance(80) {
        data.extend_from_slice(&[0xFE, 0x02, 0x63, 0x46, 0x00]);
    }
    while room - data.len() >= 2 {
        let pairs: [[u8; 2]; 5] = [
            [0x01, 0x02],
            [0x02, 0x03],
            [0xFF, 0x00],
            [0x77, 0x00],
            [0x09, 0x3C],
        ];
        data.extend_from_slice(&random.pick(&pairs));
    }
    if data.len() < room {
        data.push(0xFF);
    }
    data
}

#[cfg(test)]
mod tests {
    use super::*;

    #[test]
    fn lengths_are_exact() {
        let mut random = Random::new(8);
        for length in 0..=260 {
            for _ in 0..8 {
                let packet = of_length(&mut random, length, &[0; 16], b"1111");
                assert_eq!(packet.len(), length);
            }
        }
    }
}
