//! Captures: packets kept as they were sent, in the form `VLG`. Versions 1 and 2 are read, version 2 is written.

use crate::packet::{ID_SIZE, LONGEST};
use crate::reader::Reader;
use crate::refusal::Refusal;

pub const MARK: [u8; 3] = *b"VLG";
/// The bytes of mark and version.
pub const START: usize = MARK.len() + size_of::<u16>();
/// The directions of a packet.
pub const REQUEST: u8 = 0;
pub const RESPONSE: u8 = 1;

/// A version of the form, by its number.
#[derive(Clone, Copy, Debug, PartialEq, Eq)]
pub enum Version {
    One = 1,
    Two = 2,
}

impl Version {
    pub const ALL: [Version; 2] = [Version::One, Version::Two];
    /// The one that writers write.
    pub const WRITTEN: Version = Version::Two;

    pub fn number(self) -> u16 {
        self as u16
    }

    /// The bytes of a board index, and of the board count.
    pub fn index_size(self) -> usize {
        match self {
            Version::One => 1,
            Version::Two => 2,
        }
    }

    pub fn most_boards(self) -> usize {
        match self {
            Version::One => 16,
            Version::Two => 1_000,
        }
    }

    /// The bytes before the IDs: mark, version, board count.
    pub fn ids_start(self) -> usize {
        START + self.index_size()
    }

    /// The bytes of a record before its packet: index, direction, counter, length.
    pub fn record_head(self) -> usize {
        self.index_size() + 1 + size_of::<u32>() + size_of::<u16>()
    }

    fn has_room_for(self, boards: usize) -> bool {
        (1..=self.most_boards()).contains(&boards)
    }
}

/// One packet of a capture: of which board, in which direction, and when. The writer is given any fields.
#[derive(Clone, Debug, PartialEq, Eq)]
pub struct Captured {
    pub index: u16,
    pub direction: u8,
    /// Milliseconds.
    pub counter: u32,
    pub packet: Vec<u8>,
}

/// What the reader gives: everything before the place where it refuses.
#[derive(Debug, Default, PartialEq, Eq)]
pub struct Reading {
    /// None where mark or version is refused.
    pub version: Option<Version>,
    pub ids: Vec<[u8; ID_SIZE]>,
    pub records: Vec<Captured>,
    pub refusal: Option<Refusal>,
}

/// Reads a capture. Checks 50 to 53, in this order.
pub fn read(capture: &[u8]) -> Reading {
    let mut reading = Reading::default();
    let reader = Reader { rest: capture };
    reading.refusal = reading.fill(reader).err();
    reading
}

impl Reading {
    fn fill(&mut self, mut reader: Reader) -> Result<(), Refusal> {
        if reader.array() != Some(MARK) {
            return Err(Refusal::CaptureMark);
        }
        let version = read_version(&mut reader).ok_or(Refusal::CaptureVersion)?;
        self.version = Some(version);
        self.ids = read_ids(&mut reader, version).ok_or(Refusal::CaptureBoards)?;
        while !reader.rest.is_empty() {
            let record = read_record(&mut reader, version, self.ids.len());
            self.records.push(record.ok_or(Refusal::CaptureRecord)?);
        }
        Ok(())
    }
}

fn read_version(reader: &mut Reader) -> Option<Version> {
    let number = u16::from_le_bytes(reader.array()?);
    let mut versions = Version::ALL.into_iter();
    versions.find(|version| version.number() == number)
}

/// A board count or a board index.
fn read_index(reader: &mut Reader, version: Version) -> Option<u16> {
    let bytes = reader.bytes(version.index_size())?;
    let number = |byte: &u8| u16::from(*byte);
    Some(
        bytes
            .iter()
            .rev()
            .map(number)
            .fold(0, |high, low| 256 * high + low),
    )
}

/// The board count and as many IDs.
fn read_ids(reader: &mut Reader, version: Version) -> Option<Vec<[u8; ID_SIZE]>> {
    let count = usize::from(read_index(reader, version)?);
    if !version.has_room_for(count) {
        return None;
    }
    (0..count).map(|_| reader.array()).collect()
}

fn read_record(reader: &mut Reader, version: Version, boards: usize) -> Option<Captured> {
    let index = read_index(reader, version)?;
    let direction = reader.byte()?;
    let counter = u32::from_le_bytes(reader.array()?);
    let length = usize::from(u16::from_le_bytes(reader.array()?));
    if !is_in_range(boards, index, direction, length) {
        return None;
    }
    let packet = reader.bytes(length)?.to_vec();
    Some(Captured {
        index,
        direction,
        counter,
        packet,
    })
}

/// Whether a record of a capture of so many boards may have these fields; the counter may be any.
fn is_in_range(boards: usize, index: u16, direction: u8, length: usize) -> bool {
    usize::from(index) < boards && direction <= RESPONSE && length <= LONGEST
}

/// Writes a capture to the front of the buffer and gives its length. Checks 52, 53, 54.
/// The IDs are given one after another.
pub fn write(buffer: &mut [u8], ids: &[u8], records: &[Captured]) -> Result<usize, Refusal> {
    let boards = ids.len() / ID_SIZE;
    if !ids.len().is_multiple_of(ID_SIZE) || !Version::WRITTEN.has_room_for(boards) {
        return Err(Refusal::CaptureBoards);
    }
    let in_range = |record: &Captured| {
        is_in_range(boards, record.index, record.direction, record.packet.len())
    };
    if !records.iter().all(in_range) {
        return Err(Refusal::CaptureRecord);
    }
    put(buffer, &compose(Version::WRITTEN, ids, records))
}

/// What was rewritten of a capture.
#[derive(Debug, PartialEq, Eq)]
pub struct Rewritten {
    pub length: usize,
    /// 53 where the capture is refused with it: what stands before the fault is rewritten.
    pub refusal: Option<Refusal>,
}

/// Writes the IDs and records of a capture of either version to the front of the buffer, in the version that writers
/// write. Checks 50, 51, 52, 54.
pub fn rewrite(buffer: &mut [u8], capture: &[u8]) -> Result<Rewritten, Refusal> {
    let Reading {
        ids,
        records,
        refusal,
        ..
    } = read(capture);
    if let Some(refused) = refusal.filter(|refusal| *refusal != Refusal::CaptureRecord) {
        return Err(refused);
    }
    let length = put(buffer, &compose(Version::WRITTEN, &ids.concat(), &records))?;
    Ok(Rewritten { length, refusal })
}

/// Puts bytes at the front of the buffer and gives their number. Checks 54.
pub fn put(buffer: &mut [u8], bytes: &[u8]) -> Result<usize, Refusal> {
    let front = buffer.get_mut(..bytes.len());
    front.ok_or(Refusal::CaptureBuffer)?.copy_from_slice(bytes);
    Ok(bytes.len())
}

/// The bytes of a capture of this version; ranges are the caller's concern.
pub fn compose(version: Version, ids: &[u8], records: &[Captured]) -> Vec<u8> {
    let mut capture = MARK.to_vec();
    capture.extend_from_slice(&version.number().to_le_bytes());
    let width = version.index_size();
    let boards = (ids.len() / ID_SIZE) as u16;
    capture.extend_from_slice(&boards.to_le_bytes()[..width]);
    capture.extend_from_slice(ids);
    for record in records {
        capture.extend_from_slice(&record.index.to_le_bytes()[..width]);
        capture.push(record.direction);
        capture.extend_from_slice(&record.counter.to_le_bytes());
        capture.extend_from_slice(&(record.packet.len() as u16).to_le_bytes());
        capture.extend_from_slice(&record.packet);
    }
    capture
}

#[cfg(test)]
mod tests {
    use super::*;

    /// Two boards; a request of three bytes to the second at 0x01020304, an empty response of the first at 5.
    fn two_boards(version: Version) -> Vec<u8> {
        let (start, first, second): (&[u8], &[u8], &[u8]) = match version {
            Version::One => (&[1, 0, 2], &[1], &[0]),
            Version::Two => (&[2, 0, 2, 0], &[1, 0], &[0, 0]),
        };
        [
            b"VLG",
            start,
            &[0xAA; 16],
            &[0xBB; 16],
            first,
            &[0, 4, 3, 2, 1, 3, 0, 0xFD, 0xFD, 9],
            second,
            &[1, 5, 0, 0, 0, 0, 0],
        ]
        .concat()
    }

    fn captured(index: u16, direction: u8, counter: u32, packet: &[u8]) -> Captured {
        let packet = packet.to_vec();
        Captured {
            index,
            direction,
            counter,
            packet,
        }
    }

    fn two_records() -> [Captured; 2] {
        [
            captured(1, REQUEST, 0x0102_0304, &[0xFD, 0xFD, 9]),
            captured(0, RESPONSE, 5, &[]),
        ]
    }

    fn ids(count: usize) -> Vec<u8> {
        vec![0xAA; ID_SIZE * count]
    }

    fn number(reading: &Reading) -> Option<u8> {
        reading.refusal.map(Refusal::number)
    }

    #[test]
    fn both_versions_are_read_and_the_second_is_written() {
        for version in Version::ALL {
            let capture = two_boards(version);
            let reading = read(&capture);
            assert_eq!((reading.version, reading.refusal), (Some(version), None));
            assert_eq!(reading.ids, [[0xAA; 16], [0xBB; 16]]);
            assert_eq!(reading.records, two_records());
            let given = reading.ids.concat();
            assert_eq!(compose(version, &given, &reading.records), capture);
            let mut buffer = [0xA5; 63];
            assert_eq!(write(&mut buffer, &given, &reading.records), Ok(60));
            assert_eq!(buffer[..60], two_boards(Version::Two));
            assert_eq!(buffer[60..], [0xA5; 3]);
        }
    }

    #[test]
    fn a_cut_is_refused_by_its_place() {
        for (version, first, second, end) in
            [(Version::One, 38, 49, 57), (Version::Two, 39, 51, 60)]
        {
            let whole = two_boards(version);
            assert_eq!(whole.len(), end);
            for length in 0..end {
                let expected = match length {
                    0..=2 => Some(50),
                    3..=4 => Some(51),
                    _ if length < first => Some(52),
                    _ if length == first || length == second => None,
                    _ => Some(53),
                };
                let reading = read(&whole[..length]);
                assert_eq!(number(&reading), expected, "{length}");
                assert_eq!(reading.version, (length >= 5).then_some(version));
                assert_eq!(reading.ids.len(), if length >= first { 2 } else { 0 });
                let read = usize::from(length >= second);
                assert_eq!(reading.records, two_records()[..read]);
            }
        }
    }

    #[test]
    fn the_head_is_checked_in_its_order() {
        for version in Version::ALL {
            let mut capture = two_boards(version);
            for (place, byte, refusal) in [
                (5, 17, Refusal::CaptureBoards),
                (5, 0, Refusal::CaptureBoards),
                (4, 1, Refusal::CaptureVersion),
                (3, 0, Refusal::CaptureVersion),
                (2, b'g', Refusal::CaptureMark),
                (0, b'v', Refusal::CaptureMark),
            ] {
                capture[place] = byte;
                let expected = Reading {
                    version: (refusal == Refusal::CaptureBoards).then_some(version),
                    refusal: Some(refusal),
                    ..Reading::default()
                };
                assert_eq!(read(&capture), expected);
            }
        }
    }

    #[test]
    fn other_versions_are_refused() {
        let mut capture = two_boards(Version::Two);
        for version in (0..=u16::MAX).filter(|version| !(1..=2).contains(version)) {
            capture[3..5].copy_from_slice(&version.to_le_bytes());
            assert_eq!(number(&read(&capture)), Some(51), "{version}");
        }
    }

    #[test]
    fn a_version_is_not_read_as_the_other() {
        // Of the first the count is followed by AA, which makes 0xAA02 boards; of the second by 00, so that IDs and records begin a byte
        // too early: index BB.
        for (version, other, refusal, boards) in
            [(Version::One, 2, 52, 0), (Version::Two, 1, 53, 2)]
        {
            let mut capture = two_boards(version);
            capture[3] = other;
            let reading = read(&capture);
            assert_eq!(reading.version.map(Version::number), Some(other.into()));
            assert_eq!(number(&reading), Some(refusal));
            assert_eq!((reading.ids.len(), reading.records.len()), (boards, 0));
        }
    }

    #[test]
    fn each_version_has_its_own_limit() {
        for (version, most) in [(Version::One, 16), (Version::Two, 1_000)] {
            for boards in (0..=300).chain(990..=1_010).chain([65_535]) {
                // One byte counts no further.
                if version == Version::One && boards > 255 {
                    continue;
                }
                let reading = read(&compose(version, &ids(boards), &[]));
                let accepted = (1..=most).contains(&boards);
                let expected = if accepted { None } else { Some(52) };
                assert_eq!(number(&reading), expected, "{boards}");
                assert_eq!(reading.ids.len(), if accepted { boards } else { 0 });
            }
        }
    }

    #[test]
    fn fields_outside_their_range_are_refused_whatever_follows() {
        for (version, indices) in [
            (Version::One, &[&[1][..], &[255]][..]),
            (Version::Two, &[&[1, 0], &[255, 0], &[0, 1], &[255, 255]]),
        ] {
            let head = compose(version, &ids(1), &[]);
            let good = vec![0; version.index_size()];
            let bad_indices = indices.iter().map(|index| [index, &[0; 7][..]].concat());
            let bad_fields = [
                [2, 0, 0, 0, 0, 0, 0],
                [255, 0, 0, 0, 0, 0, 0],
                [0, 0, 0, 0, 0, 1, 1],
                [0, 0, 0, 0, 0, 255, 255],
            ];
            let bad_fields = bad_fields.map(|fields| [&good[..], &fields].concat());
            for record in bad_indices.chain(bad_fields) {
                for rest in [0, 1, 257, 70_000] {
                    let reading = read(&[&head[..], &record, &vec![0; rest]].concat());
                    assert_eq!(number(&reading), Some(53), "{record:?}");
                    assert!(reading.records.is_empty());
                }
            }
            let fields = [1, 255, 255, 255, 255, 0, 1];
            let capture = [&head[..], &good, &fields, &[7; 256]].concat();
            let expected = captured(0, RESPONSE, u32::MAX, &[7; 256]);
            assert_eq!(read(&capture).records, [expected]);
        }
    }

    #[test]
    fn writing_is_refused_in_the_order_listed() {
        let bad = [captured(0, 0, 0, &[]), captured(1, 0, 0, &[])];
        for given in [vec![], ids(1_001), vec![0; 15], vec![0; 17], vec![0; 255]] {
            assert_eq!(write(&mut [], &given, &bad), Err(Refusal::CaptureBoards));
        }
        assert_eq!(write(&mut [], &ids(1), &bad), Err(Refusal::CaptureRecord));
        for record in [
            captured(1_000, 0, 0, &[]),
            captured(65_535, 0, 0, &[]),
            captured(0, 2, 0, &[]),
            captured(0, 0, 0, &[0; 257]),
        ] {
            let records = [record];
            let answer = write(&mut [], &ids(1_000), &records);
            assert_eq!(answer, Err(Refusal::CaptureRecord));
        }
        assert_eq!(write(&mut [], &ids(2), &bad), Err(Refusal::CaptureBuffer));
    }

    #[test]
    fn a_short_buffer_stays_as_it_was() {
        for length in 0..60 {
            let mut buffer = vec![0xA5; length];
            let given = [[0xAA; 16], [0xBB; 16]].concat();
            let answer = write(&mut buffer, &given, &two_records());
            assert_eq!(answer, Err(Refusal::CaptureBuffer));
            let capture = two_boards(Version::One);
            let answer = rewrite(&mut buffer, &capture);
            assert_eq!(answer, Err(Refusal::CaptureBuffer));
            assert!(buffer.iter().all(|byte| *byte == 0xA5));
        }
    }

    #[test]
    fn the_most_boards_are_read_and_written() {
        let records = [captured(999, 0, 0, &[0; 256]), captured(256, 1, 0, &[])];
        let mut buffer = [0; 16_281];
        assert_eq!(write(&mut buffer, &ids(1_000), &records), Ok(16_281));
        assert_eq!(buffer[5..7], [0xE8, 3]);
        assert_eq!(buffer[16_007..16_010], [0xE7, 3, 0]);
        assert_eq!(read(&buffer).records, records);
        assert_eq!(read(&buffer).ids.len(), 1_000);
    }

    #[test]
    fn a_capture_is_rewritten_as_version_2() {
        for version in Version::ALL {
            let mut buffer = [0xA5; 63];
            let answer = rewrite(&mut buffer, &two_boards(version));
            let expected = Rewritten {
                length: 60,
                refusal: None,
            };
            assert_eq!(answer, Ok(expected));
            assert_eq!(buffer[..60], two_boards(Version::Two));
            assert_eq!(buffer[60..], [0xA5; 3]);
        }
        let records = [captured(15, 1, 9, &[0; 256]), captured(3, 0, 9, &[1])];
        let capture = compose(Version::One, &ids(16), &records);
        let mut buffer = [0; 538];
        assert!(rewrite(&mut buffer, &capture).is_ok());
        assert_eq!(read(&buffer).ids.concat(), ids(16));
        assert_eq!(read(&buffer).records, records);
    }

    #[test]
    fn what_stands_before_53_is_rewritten_and_54_comes_first() {
        for version in Version::ALL {
            // The head alone, and the first record with it.
            for (missing, length) in [(version.record_head() + 1, 39), (1, 51)] {
                let whole = two_boards(version);
                let cut = &whole[..whole.len() - missing];
                let mut buffer = [0xA5; 60];
                let expected = Rewritten {
                    length,
                    refusal: Some(Refusal::CaptureRecord),
                };
                assert_eq!(rewrite(&mut buffer[..length], cut), Ok(expected));
                assert_eq!(buffer[..length], two_boards(Version::Two)[..length]);
                let answer = rewrite(&mut buffer[..length - 1], cut);
                assert_eq!(answer, Err(Refusal::CaptureBuffer));
            }
        }
    }

    #[test]
    fn a_refused_head_is_not_rewritten() {
        for version in Version::ALL {
            let whole = two_boards(version);
            for (length, refusal) in [
                (2, Refusal::CaptureMark),
                (4, Refusal::CaptureVersion),
                (5, Refusal::CaptureBoards),
                (37, Refusal::CaptureBoards),
            ] {
                for room in [0, 60] {
                    let mut buffer = vec![0xA5; room];
                    assert_eq!(rewrite(&mut buffer, &whole[..length]), Err(refusal));
                    assert!(buffer.iter().all(|byte| *byte == 0xA5));
                }
            }
        }
    }
}
