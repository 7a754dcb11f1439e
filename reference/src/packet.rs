//! Framing: start, sizes, ID, password, function, data block and checksum of a packet.

use crate::refusal::Refusal;

pub const SHORTEST: usize = 24;
pub const LONGEST: usize = 256;
pub const ID_SIZE: usize = 16;
pub const LONGEST_PASSWORD: usize = 8;
/// The function number of a response.
pub const RESPONSE: u8 = 6;
/// Stands for the board's own ID, or makes the packet a search.
pub const CODE_WORD: [u8; ID_SIZE] = *b"DEFAULT_DEVICEID";

const START: [u8; 2] = [0xFD, 0xFD];
const TYPE: u8 = 2;

/// What a packet that passes 2 to 6 holds.
#[derive(Debug, PartialEq, Eq)]
pub struct Frame<'a> {
    pub id: &'a [u8],
    pub password: &'a [u8],
    pub function: u8,
    pub data: &'a [u8],
}

/// Sum of all bytes from TYPE to the end of the data block.
pub fn checksum(packet: &[u8]) -> u16 {
    let counted = &packet[2..packet.len() - 2];
    counted.iter().map(|byte| u16::from(*byte)).sum()
}

/// Checks 2 to 6, in this order.
pub fn read(packet: &[u8]) -> Result<Frame<'_>, Refusal> {
    let length = packet.len();
    if !(SHORTEST..=LONGEST).contains(&length) {
        return Err(Refusal::Length);
    }
    if packet[..2] != START {
        return Err(Refusal::Start);
    }
    if checksum(packet).to_le_bytes() != packet[length - 2..] {
        return Err(Refusal::Checksum);
    }
    if packet[2] != TYPE || usize::from(packet[3]) != ID_SIZE {
        return Err(Refusal::TypeOrIdSize);
    }
    let size = usize::from(packet[20]);
    if size > LONGEST_PASSWORD || SHORTEST + size > length {
        return Err(Refusal::PasswordSize);
    }
    Ok(Frame {
        id: &packet[4..20],
        password: &packet[21..21 + size],
        function: packet[21 + size],
        data: &packet[22 + size..length - 2],
    })
}

/// The packet of these parts, of any length; sizes are the caller's concern.
pub fn write(id: &[u8], password: &[u8], function: u8, data: &[u8]) -> Vec<u8> {
    let mut packet = START.to_vec();
    packet.push(TYPE);
    packet.push(ID_SIZE as u8);
    packet.extend_from_slice(id);
    packet.push(password.len() as u8);
    packet.extend_from_slice(password);
    packet.push(function);
    packet.extend_from_slice(data);
    let sum: u64 = packet[2..].iter().map(|byte| u64::from(*byte)).sum();
    packet.extend_from_slice(&(sum as u16).to_le_bytes());
    packet
}

/// Whether set-up and the tool take this password: at most 8 of 0-9, a-z, A-Z.
pub fn is_legal_password(password: &[u8]) -> bool {
    password.len() <= LONGEST_PASSWORD && password.iter().all(u8::is_ascii_alphanumeric)
}

#[cfg(test)]
mod tests {
    use super::*;

    /// The guide's read of 0001 and 0002.
    const GUIDE: [u8; 30] = [
        0xFD, 0xFD, 0x02, 0x10, 0, 0, 0, 0, 0, 0, 0, 0, 0, 0, 0, 0, 0, 0, 0, 0, 0x04, 0x31, 0x31,
        0x31, 0x31, 0x01, 0x01, 0x02, 0xDE, 0x00,
    ];

    fn repaired(mut packet: Vec<u8>) -> Vec<u8> {
        let end = packet.len() - 2;
        let sum = checksum(&packet).to_le_bytes();
        packet[end..].copy_from_slice(&sum);
        packet
    }

    #[test]
    fn the_guides_packet_is_read_and_written() {
        let frame = read(&GUIDE).unwrap();
        assert_eq!((frame.id, frame.password), (&[0; 16][..], &b"1111"[..]));
        assert_eq!((frame.function, frame.data), (1, &[1, 2][..]));
        assert_eq!(write(&[0; 16], b"1111", 1, &[1, 2]), GUIDE);
    }

    #[test]
    fn lengths_from_24_to_256_are_taken() {
        let shortest = write(&[0; 16], b"", 1, &[]);
        assert_eq!(shortest.len(), SHORTEST);
        assert_eq!(shortest[22..], [0x13, 0x00]);
        assert!(read(&shortest).is_ok());
        assert_eq!(read(&shortest[..23]), Err(Refusal::Length));
        assert_eq!(read(&[]), Err(Refusal::Length));
        let longest = write(&[0xFF; 16], b"", 0xFF, &[0xFF; 232]);
        assert_eq!(longest.len(), LONGEST);
        assert!(read(&longest).is_ok());
        let longer = write(&[0; 16], b"", 1, &[0; 233]);
        assert_eq!(read(&longer), Err(Refusal::Length));
    }

    #[test]
    fn the_greatest_sum_fits() {
        assert_eq!(checksum(&[0xFF; 256]), 64_260);
    }

    #[test]
    fn checks_come_in_their_order() {
        let mut packet = GUIDE.to_vec();
        packet[20] = 9;
        assert_eq!(read(&packet), Err(Refusal::Checksum));
        assert_eq!(read(&repaired(packet.clone())), Err(Refusal::PasswordSize));
        packet[2] = 3;
        assert_eq!(read(&repaired(packet.clone())), Err(Refusal::TypeOrIdSize));
        packet[2] = 2;
        packet[3] = 15;
        assert_eq!(read(&repaired(packet.clone())), Err(Refusal::TypeOrIdSize));
        packet[1] = 0xFC;
        assert_eq!(read(&packet), Err(Refusal::Start));
        packet[1] = 0xFD;
        packet[0] = 0xFC;
        assert_eq!(read(&packet), Err(Refusal::Start));
        assert_eq!(read(&packet[..23]), Err(Refusal::Length));
    }

    #[test]
    fn each_checksum_byte_counts() {
        for (position, change) in [(28, 1), (29, 1), (28, 0x80)] {
            let mut packet = GUIDE.to_vec();
            packet[position] ^= change;
            assert_eq!(read(&packet), Err(Refusal::Checksum));
        }
    }

    #[test]
    fn the_password_needs_room_for_function_and_checksum() {
        for size in 0..=9u8 {
            for length in 24..40 {
                let mut packet = write(&[0; 16], b"", 1, &vec![1; length - 24]);
                packet[20] = size;
                let packet = repaired(packet);
                let fits = size <= 8 && 24 + usize::from(size) <= length;
                let expected = (!fits).then_some(Refusal::PasswordSize);
                assert_eq!(read(&packet).err(), expected, "{size} {length}");
            }
        }
    }
}
