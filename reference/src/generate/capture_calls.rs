//! Calls on captures: sound and damaged ones are read, summed up and rewritten, others are written and read back.

use super::capture_damage::Sketch;
use super::captured::Contents;
use super::{Generator, captured};
use crate::call::{Call, MOST_ROOM};
use crate::capture::{self, Captured, Version};
use crate::hex;
use crate::packet::{ID_SIZE, LONGEST};
use crate::random::Random;

/// The longest line of a list with captures.
pub const LONGEST_LINE: usize = 65_536;

/// Lines that have none of the forms.
const BAD_LINES: [&str; 52] = [
    "capread",
    "capread ",
    "capread  -",
    "capread - -",
    "capread 5",
    "capread 564c47",
    "capread 56 4C47",
    "capread -\r",
    "Capread -",
    "cap-read -",
    "summary",
    "summary ",
    "summary - -",
    "summary 0x56",
    "summary --",
    "Summary -",
    "capwrite",
    "capwrite 0",
    "capwrite 0 ",
    "capwrite -",
    "capwrite - -",
    "capwrite 00 -",
    "capwrite 1048577 -",
    "capwrite 18446744073709551616 -",
    "capwrite 0 ,",
    "capwrite 0 00,",
    "capwrite 0 ,00",
    "capwrite 0 00,,00",
    "capwrite 0 00,-",
    "capwrite 0 -,-",
    "capwrite 0 - ",
    "capwrite 0 - -",
    "capwrite 0 - 0.0.0",
    "capwrite 0 - 0.0.0.",
    "capwrite 0 - 0.0.0.-.",
    "capwrite 0 - 65536.0.0.-",
    "capwrite 0 - 0.256.0.-",
    "capwrite 0 - 0.0.4294967296.-",
    "capwrite 0 - 0.0.00.-",
    "capwrite 0 - 0.0.0.- x",
    "rewrite",
    "rewrite -",
    "rewrite 0",
    "rewrite 0 ",
    "rewrite 0  -",
    "rewrite 0 - -",
    "rewrite 00 -",
    "rewrite - -",
    "rewrite 1048577 -",
    "rewrite 0 564c47",
    "rewrite 0 56 4C",
    "Rewrite 0 -",
];

impl Generator {
    /// A capture that is accepted.
    pub fn sound_capture(&mut self) {
        let contents = self.few_boards();
        self.take(contents.bytes());
    }

    /// A capture with one kind of damage, now and then with two.
    pub fn damaged_capture(&mut self) {
        let contents = self.few_boards();
        self.take_damaged(&contents);
    }

    fn take_damaged(&mut self, contents: &Contents) {
        let mut capture = Sketch::new(contents);
        capture.damage(&mut self.random);
        if self.random.chance(5) && !capture.bytes.is_empty() {
            let place = self.random.between(0, capture.bytes.len() - 1);
            capture.bytes[place] ^= 1 << self.random.between(0, 7);
        }
        self.take(capture.bytes);
    }

    /// Noise, alone or behind a mark, a version or a board count.
    pub fn noise_capture(&mut self) {
        let heads = [&b"VLG\x01\x00\x01"[..], b"VLG\x02\x00\x01\x00"];
        let mut capture = self.random.pick(&heads).to_vec();
        capture.truncate(self.random.pick(&[0, 3, 5, 6, 7, 7]));
        let count = self.random.between(0, 40);
        let noise = self.random.bytes(count);
        capture.extend_from_slice(&noise);
        self.take(capture);
    }

    /// A capture of many boards: sound, damaged or written.
    pub fn many_boards(&mut self) {
        let contents = Contents::many_boards(&mut self.random);
        match self.random.between(0, 8) {
            0..=3 => self.take(contents.bytes()),
            4 => self.take_damaged(&contents),
            5 => self.write_faulty(contents),
            _ => self.write_sound(contents),
        }
    }

    /// A capture that is written if the buffer is long enough, and then read back.
    pub fn capture_write(&mut self) {
        let contents = Contents::few_boards(&mut self.random, Version::WRITTEN);
        self.write_sound(contents);
    }

    fn write_sound(&mut self, contents: Contents) {
        let room = self.room_for(contents.bytes().len());
        self.write_capture(room, contents.ids, contents.records);
    }

    /// A capture of which IDs, records and room are each wrong with some chance.
    pub fn faulty_capture_write(&mut self) {
        let contents = Contents::few_boards(&mut self.random, Version::WRITTEN);
        self.write_faulty(contents);
    }

    fn write_faulty(&mut self, contents: Contents) {
        let size = contents.bytes().len();
        let Contents {
            mut ids,
            mut records,
            ..
        } = contents;
        let random = &mut self.random;
        if random.chance(70) {
            let late = captured::record(random, &ids);
            let boards = ids.len() as u16;
            insert_out_of_range(random, boards, &mut records, late);
        }
        if random.chance(40) {
            change_ids(random, &mut ids);
        }
        let room = random.pick(&[size, size + 3_000, size - 1, 0]);
        self.write_capture(room, ids, records);
    }

    pub fn bad_capture_line(&mut self) {
        self.bad_line_of(&BAD_LINES);
    }

    /// One of these bad lines, or the last line with a character or a field changed.
    pub fn bad_line_of(&mut self, lines: &[&str]) {
        let fixed = self.random.pick(lines).to_string();
        let last = self.lines.last().cloned().unwrap_or_default();
        let line = match last.len() < LONGEST_LINE / 2 && self.random.chance(50) {
            true => self.spoiled(&last),
            false => fixed,
        };
        self.line(line);
    }

    /// A line of exactly 65,536 characters, or just under.
    pub fn long_capture_line(&mut self) {
        let boards = self.random.pick(&[1, 2]);
        let ids = captured::ids(&mut self.random, boards);
        if self.random.chance(40) {
            self.long_write(ids);
            return;
        }
        let word = self
            .random
            .pick(&["capread ", "summary ", "rewrite 1048576 "]);
        let longest = (LONGEST_LINE - word.len()) / 2;
        let version = self.version();
        let records = match self.random.chance(70) {
            true => self.records_of(version, &ids, longest),
            false => Vec::new(),
        };
        let mut bytes = capture::compose(version, &ids.concat(), &records);
        // What is filled up has records without a packet, as many as there is place for, and then a cut one.
        bytes.resize(longest, 0);
        self.line(format!("{word}{}", hex::field(&bytes)));
    }

    fn long_write(&mut self, ids: Vec<Vec<u8>>) {
        let room = self.random.pick(&[MOST_ROOM, MOST_ROOM, 100_000, 32_000]);
        let records = match self.random.chance(50) {
            true => vec![captured::record(&mut self.random, &ids)],
            false => self.records_of(Version::WRITTEN, &ids, 30_000),
        };
        let records = filled_up(room, &ids, records);
        self.write_capture(room, ids, records);
    }

    pub fn version(&mut self) -> Version {
        self.random.pick(&Version::ALL)
    }

    /// What a capture of either version and of a few boards holds.
    fn few_boards(&mut self) -> Contents {
        let version = self.version();
        Contents::few_boards(&mut self.random, version)
    }

    /// Records that make a capture of at most so many bytes, and nearly so many.
    pub fn records_of(&mut self, version: Version, ids: &[Vec<u8>], size: usize) -> Vec<Captured> {
        let head = capture::compose(version, &ids.concat(), &[]).len();
        let mut rest = size - head;
        let mut records = Vec::new();
        loop {
            let record = captured::record(&mut self.random, ids);
            let size = version.record_head() + record.packet.len();
            let Some(left) = rest.checked_sub(size) else {
                return records;
            };
            rest = left;
            records.push(record);
        }
    }

    /// Room for so many bytes in most cases, often exactly so much or one byte less.
    pub fn room_for(&mut self, size: usize) -> usize {
        self.random.pick(&[
            size,
            size,
            size,
            size + 1,
            size + 1,
            size - 1,
            size - 1,
            size + 300,
            size / 2,
            0,
        ])
    }

    fn write_capture(&mut self, room: usize, ids: Vec<Vec<u8>>, records: Vec<Captured>) {
        let answer = self.capture_call(Call::CaptureWrite { room, ids, records });
        self.read_back(&answer);
    }

    fn rewrite(&mut self, capture: Vec<u8>) {
        let reading = capture::read(&capture);
        let ids = reading.ids.concat();
        let size = capture::compose(Version::WRITTEN, &ids, &reading.records).len();
        let room = self.room_for(size);
        let answer = self.capture_call(Call::Rewrite { room, capture });
        self.read_back(&answer);
    }

    /// Takes what a writer has written, in some cases.
    fn read_back(&mut self, answer: &str) {
        let Some(written) = answer.strip_prefix("capture ") else {
            return;
        };
        // Behind a space may stand that the rewritten capture was refused.
        let written = written.split(' ').next().and_then(hex::parse_field);
        if let Some(capture) = written.filter(|_| self.random.chance(60)) {
            self.take(capture);
        }
    }

    /// Reads the capture, sums it up or rewrites it, in some cases two of these.
    fn take(&mut self, capture: Vec<u8>) {
        let choice = self.random.between(0, 6);
        if choice <= 2 {
            self.capture_call(Call::Summary {
                capture: capture.clone(),
            });
        }
        match choice {
            0 => {}
            1..=3 => {
                self.capture_call(Call::CaptureRead { capture });
            }
            _ => self.rewrite(capture),
        }
    }

    /// Makes a call if its line is not too long.
    pub fn capture_call(&mut self, call: Call) -> String {
        let line = call.to_string();
        match line.len() <= LONGEST_LINE {
            true => self.line(line),
            false => String::new(),
        }
    }
}

/// The records, and as many short ones behind them as the longest line has place for.
fn filled_up(room: usize, ids: &[Vec<u8>], records: Vec<Captured>) -> Vec<Captured> {
    let short = Captured {
        index: 0,
        direction: capture::RESPONSE,
        counter: 0,
        packet: Vec::new(),
    };
    let call = Call::CaptureWrite {
        room,
        ids: ids.to_vec(),
        records: records.clone(),
    };
    let place = LONGEST_LINE - call.to_string().len();
    let more = place / " 0.1.0.-".len();
    let more = std::iter::repeat_n(short, more);
    records.into_iter().chain(more).collect()
}

/// Puts a record that has a field outside its range, or just inside, at any place of the list.
fn insert_out_of_range(
    random: &mut Random,
    boards: u16,
    records: &mut Vec<Captured>,
    mut record: Captured,
) {
    match random.between(0, 3) {
        0 | 1 => {
            // The greater ones have a low byte that is in range.
            let index = [
                boards - 1,
                boards,
                boards + 1,
                255,
                256,
                257,
                1_000,
                65_280,
                65_535,
            ];
            record.index = random.pick(&index);
        }
        2 => record.direction = random.pick(&[0, 1, 2, 2, 3, 128, 255, 255]),
        _ => {
            let length = random.pick(&[LONGEST, LONGEST + 1, LONGEST + 1, 300, 512]);
            record.packet = random.bytes(length);
        }
    }
    let any = random.between(0, records.len());
    let place = random.pick(&[any, records.len()]);
    records.insert(place, record);
}

/// Gives the writer other IDs: none, too many, of another length, or the same bytes in other parts.
fn change_ids(random: &mut Random, ids: &mut Vec<Vec<u8>>) {
    let last = ids.len() - 1;
    match random.between(0, 12) {
        0..=1 => ids.clear(),
        2 => {
            let boards = random.pick(&[1_001, 1_001, 1_002, 1_024]);
            *ids = captured::ids(random, boards);
        }
        3..=4 => ids[last].truncate(random.pick(&[1, 8, 15, 15])),
        5..=6 => ids[last].push(random.byte()),
        7..=8 => {
            let length = random.pick(&[1, 15, 16, 17, 255, 256, 257, 272]);
            *ids = vec![random.bytes(length)];
        }
        _ => {
            let bytes = ids.concat();
            let size = random.pick(&[1, 8, 15, 2 * ID_SIZE]);
            *ids = bytes.chunks(size).map(<[u8]>::to_vec).collect();
        }
    }
}

#[cfg(test)]
mod tests {
    use super::*;
    use crate::call;

    #[test]
    fn the_bad_lines_are_bad() {
        for line in BAD_LINES {
            assert_eq!(call::parse(line), None, "{line}");
        }
    }
}
