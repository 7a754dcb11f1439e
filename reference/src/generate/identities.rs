//! IDs, passwords and unit types, legal or not.

use crate::packet::CODE_WORD;
use crate::random::Random;
use crate::units::MICRA;

const PASSWORD_CHARACTERS: &[u8] =
    b"0123456789abcdefghijklmnopqrstuvwxyzABCDEFGHIJKLMNOPQRSTUVWXYZ";
/// The neighbours of the legal ranges, and some bytes far from them.
const OTHER_CHARACTERS: &[u8] = b"/:@[`{ *_-\x00\x7F\x80\xFC\xFD\xFE\xFF";

/// An ID that set-up takes.
pub fn legal_id(random: &mut Random) -> Vec<u8> {
    let digits: Vec<u8> = (0..16).map(|_| random.pick(b"0123456789ABCDEF")).collect();
    let any = random.bytes(16);
    let mut almost = CODE_WORD.to_vec();
    let place = random.between(0, 15);
    almost[place] ^= random.pick(&[0x20, 0x01, 0x80]);
    let choices = [
        digits.clone(),
        digits,
        any,
        almost,
        vec![0; 16],
        vec![0xFF; 16],
        vec![0xFD; 16],
        b"002D6E1B34565815".to_vec(),
    ];
    random.pick(&choices)
}

/// An ID of another length, or the code word.
pub fn illegal_id(random: &mut Random) -> Vec<u8> {
    let length = random.pick(&[0, 1, 8, 15, 17, 18, 32, 200]);
    let other_length = random.bytes(length);
    let mut longer = CODE_WORD.to_vec();
    longer.push(0);
    random.pick(&[other_length, CODE_WORD.to_vec(), longer])
}

/// An ID that differs from the one held, of the right length.
pub fn other_id(random: &mut Random, held: &[u8]) -> Vec<u8> {
    let mut id = held.to_vec();
    let place = random.between(0, 15);
    id[place] ^= random.pick(&[0x01, 0x80, 0xFF]);
    let mut almost = CODE_WORD.to_vec();
    almost[place] = almost[place].to_ascii_lowercase() ^ 1;
    let any = random.bytes(16);
    random.pick(&[id.clone(), id, almost, any])
}

pub fn legal_password(random: &mut Random) -> Vec<u8> {
    let length = random.between(0, 8);
    let length = random.pick(&[0, 4, 8, length]);
    let default = b"1111".to_vec();
    let any: Vec<u8> = (0..length)
        .map(|_| random.pick(PASSWORD_CHARACTERS))
        .collect();
    let edges: Vec<u8> = (0..length).map(|_| random.pick(b"09azAZ")).collect();
    random.pick(&[default, any.clone(), any, edges])
}

/// Over 8 bytes, or with a character that is not legal.
pub fn illegal_password(random: &mut Random) -> Vec<u8> {
    let length = random.pick(&[9, 10, 16, 100]);
    let long = vec![random.pick(PASSWORD_CHARACTERS); length];
    let strange = strange_password(random);
    random.pick(&[long, strange])
}

/// At most 8 bytes, one of which is not a legal character.
pub fn strange_password(random: &mut Random) -> Vec<u8> {
    let mut password = legal_password(random);
    let place = random.between(0, password.len());
    password.insert(place, random.pick(OTHER_CHARACTERS));
    password.truncate(8);
    if password.iter().all(u8::is_ascii_alphanumeric) {
        password[7] = random.pick(OTHER_CHARACTERS);
    }
    password
}

/// A password of at most 8 bytes that differs from the one held, often by little.
pub fn other_password(random: &mut Random, held: &[u8]) -> Vec<u8> {
    let mut shorter = held.to_vec();
    shorter.pop();
    let mut longer = held.to_vec();
    longer.push(random.pick(b"01aZ\0"));
    longer.truncate(8);
    let mut changed = held.to_vec();
    if !changed.is_empty() {
        let place = random.between(0, changed.len() - 1);
        changed[place] ^= random.pick(&[0x01, 0x20, 0x80]);
    }
    let (legal, strange) = (legal_password(random), strange_password(random));
    let near = random.pick(&[shorter, longer, changed]);
    let other = random.pick(&[near.clone(), near, legal, strange]);
    if other != held {
        other
    } else if held.is_empty() {
        b"1".to_vec()
    } else {
        Vec::new()
    }
}

/// A unit type that set-up takes, in half of the cases Micra.
pub fn legal_type(random: &mut Random) -> u8 {
    random.pick(&[MICRA, MICRA, MICRA, 3, 4, 5])
}

/// A number that is no unit type.
pub fn illegal_type(random: &mut Random) -> u8 {
    let any = random.between(6, 255) as u8;
    random.pick(&[0, 1, 6, 6, 0x82, 255, any])
}

/// The unit type as a field of set-up, where Micra may be left out.
pub fn type_field(random: &mut Random, unit_type: u8) -> Option<u8> {
    Some(unit_type).filter(|unit_type| *unit_type != MICRA || random.chance(50))
}

#[cfg(test)]
mod tests {
    use super::*;
    use crate::record::setup;
    use crate::refusal::Refusal;

    #[test]
    fn each_kind_is_what_its_name_says() {
        let mut random = Random::new(3);
        for _ in 0..2_000 {
            let (id, password) = (legal_id(&mut random), legal_password(&mut random));
            let unit_type = legal_type(&mut random);
            let answer =
                |id: &[u8], password: &[u8], unit_type| setup(id, password, 1, unit_type).1;
            assert!(answer(&id, &password, unit_type).is_ok());
            assert!(answer(&illegal_id(&mut random), &password, unit_type).is_err());
            let illegal = illegal_password(&mut random);
            assert!(answer(&id, &illegal, unit_type).is_err());
            let illegal = illegal_type(&mut random);
            assert_eq!(answer(&id, &password, illegal), Err(Refusal::SetupType));
            let strange = strange_password(&mut random);
            assert!(strange.len() <= 8 && answer(&id, &strange, unit_type).is_err());
            let other = other_password(&mut random, &password);
            assert!(other.len() <= 8 && other != password);
            assert_eq!(other_id(&mut random, &id).len(), 16);
        }
    }
}
