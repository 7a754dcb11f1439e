//! Captures that are damaged: in each part of the head, in each field of a record, or anywhere.

use super::captured::Contents;
use crate::capture::{MARK, START, Version};
use crate::packet::ID_SIZE;
use crate::random::Random;

/// The places of version and board count.
const VERSION: usize = MARK.len();
const COUNT: usize = START;

/// A capture and where its parts stand.
pub struct Sketch {
    pub bytes: Vec<u8>,
    version: Version,
    boards: u16,
    /// Where each record begins, and where the last one ends.
    starts: Vec<usize>,
}

impl Sketch {
    pub fn new(contents: &Contents) -> Sketch {
        let Contents {
            version,
            ids,
            records,
        } = contents;
        let mut starts = vec![version.ids_start() + ID_SIZE * ids.len()];
        for record in records {
            let size = version.record_head() + record.packet.len();
            starts.push(starts[starts.len() - 1] + size);
        }
        Sketch {
            bytes: contents.bytes(),
            version: *version,
            boards: ids.len() as u16,
            starts,
        }
    }

    /// Does one kind of damage.
    pub fn damage(&mut self, random: &mut Random) {
        let has_record = self.starts.len() > 1;
        match random.between(0, 23) {
            0 => self.damage_mark(random),
            1..=2 => self.damage_version(random),
            3..=4 => self.damage_count(random),
            5..=8 => self.cut_head(random),
            9 => self.change_anywhere(random),
            10 => self.add_behind(random),
            11..=14 if has_record => self.cut_record(random),
            15..=17 if has_record => self.damage_length(random),
            18..=20 if has_record => self.damage_index(random),
            21..=22 if has_record => self.damage_direction(random),
            _ => self.cut_added_record(random),
        }
    }

    fn damage_mark(&mut self, random: &mut Random) {
        let place = random.between(0, MARK.len() - 1);
        self.bytes[place] = match random.between(0, 3) {
            0 => self.bytes[place].to_ascii_lowercase(),
            1 => random.byte(),
            2 => self.bytes[place] ^ 0x80,
            _ => self.bytes[place] + 1,
        };
        if random.chance(20) {
            self.bytes[..MARK.len()].reverse();
        }
    }

    /// Another version, now and then the other one that there is.
    fn damage_version(&mut self, random: &mut Random) {
        let any = random.next_number() as u16;
        let other = 3 - self.version.number();
        let version = random.pick(&[
            0, 0, 3, 3, 256, 256, 257, 257, 512, 512, 513, 513, 0x8002, any, other, other,
        ]);
        self.bytes[VERSION..COUNT].copy_from_slice(&version.to_le_bytes());
    }

    /// Puts a board count or index.
    fn put_index(&mut self, place: usize, number: u16) {
        let bytes = &number.to_le_bytes()[..self.version.index_size()];
        self.bytes[place..place + bytes.len()].copy_from_slice(bytes);
    }

    /// Another number of boards than there are IDs, mostly one that no capture may have.
    fn damage_count(&mut self, random: &mut Random) {
        let (less, more) = (self.boards - 1, self.boards + 1);
        let swapped = self.boards.swap_bytes();
        let count = match self.version {
            Version::One => random.pick(&[0, 0, 17, 17, 18, 128, 255, 255, 255, more, less]),
            Version::Two => random.pick(&[
                0, 0, 1_001, 1_001, 1_024, 65_535, 65_535, swapped, more, less,
            ]),
        };
        self.put_index(COUNT, count);
        // IDs for each of them, so that only the count is wrong.
        let missing = usize::from(count.saturating_sub(self.boards));
        let percent = if missing < 256 { 50 } else { 10 };
        if missing < 1_024 && random.chance(percent) {
            let more = random.bytes(ID_SIZE * missing);
            self.bytes.splice(self.starts[0]..self.starts[0], more);
        }
    }

    /// Ends the capture at any byte of its head, often before the IDs or in the board count.
    fn cut_head(&mut self, random: &mut Random) {
        let (ids, end) = (self.version.ids_start(), self.starts[0]);
        let any = random.between(0, end - 1);
        let before_ids = random.between(0, ids);
        let in_count = random.between(COUNT, ids - 1);
        let length = random.pick(&[any, before_ids, before_ids, in_count, end - 1]);
        self.bytes.truncate(length);
    }

    /// One bit, one byte more, one byte less.
    fn change_anywhere(&mut self, random: &mut Random) {
        let last = self.bytes.len() - 1;
        let place = random.between(0, last);
        match random.between(0, 5) {
            0 => self.bytes.insert(place, random.byte()),
            1 => {
                self.bytes.remove(place);
            }
            _ => self.bytes[place] ^= 1 << random.between(0, 7),
        }
    }

    fn add_behind(&mut self, random: &mut Random) {
        let whole = self.bytes.clone();
        let count = random.between(1, 12);
        let junk = match random.between(0, 3) {
            0 => random.bytes(count),
            1 => vec![0; count],
            2 => vec![0xFF; count],
            _ => whole,
        };
        self.bytes.extend_from_slice(&junk);
    }

    /// The place of a record, the last one in half of the cases.
    fn any_record(&self, random: &mut Random) -> usize {
        let last = self.starts.len() - 2;
        let any = random.between(0, last);
        random.pick(&[any, last])
    }

    /// The place of a record's direction.
    fn any_direction(&self, random: &mut Random) -> usize {
        self.starts[self.any_record(random)] + self.version.index_size()
    }

    /// Ends the capture at any byte of a record, its first and its last included.
    fn cut_record(&mut self, random: &mut Random) {
        let record = self.any_record(random);
        let (start, end) = (self.starts[record], self.starts[record + 1]);
        let in_head = random.between(start, start + self.version.record_head());
        let any = random.between(start, end);
        self.bytes.truncate(random.pick(&[in_head, any, end - 1]));
    }

    /// Adds a record without a packet and cuts it.
    fn cut_added_record(&mut self, random: &mut Random) {
        let count = random.between(0, self.version.record_head());
        self.bytes.extend_from_slice(&vec![0; count]);
    }

    fn damage_length(&mut self, random: &mut Random) {
        // Behind direction and counter.
        let start = self.any_direction(random) + 5;
        let field = [self.bytes[start], self.bytes[start + 1]];
        let held = u16::from_le_bytes(field);
        let any = random.next_number() as u16;
        let length = random.pick(&[
            257,
            257,
            257,
            257,
            65_535,
            65_535,
            256,
            0,
            512,
            held.swap_bytes(),
            held.swap_bytes(),
            held.wrapping_add(1),
            held.wrapping_sub(1),
            any,
        ]);
        self.bytes[start..start + 2].copy_from_slice(&length.to_le_bytes());
        // Often there are bytes enough, so that only the length is wrong.
        if random.chance(60) {
            let more = random.pick(&[0, 257, 257, 600]);
            self.bytes.extend_from_slice(&vec![0; more]);
        }
    }

    fn damage_index(&mut self, random: &mut Random) {
        let start = self.starts[self.any_record(random)];
        let boards = self.boards;
        let (last, more) = (boards - 1, boards + 1);
        let index = match self.version {
            Version::One => random.pick(&[last, boards, boards, more, 16, 128, 255, 255]),
            // The greater ones have a low byte that is in range, or the high byte first.
            Version::Two => random.pick(&[
                last,
                boards,
                boards,
                more,
                255,
                255,
                256,
                65_280,
                65_535,
                65_535,
                last.swap_bytes(),
            ]),
        };
        self.put_index(start, index);
    }

    fn damage_direction(&mut self, random: &mut Random) {
        let place = self.any_direction(random);
        let other = 1 - self.bytes[place];
        self.bytes[place] = random.pick(&[2, 2, 2, 3, 128, 255, 255, other]);
    }
}
