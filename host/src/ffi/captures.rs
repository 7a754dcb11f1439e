//! The functions of include/udgornwy.h for captures, each behind one safe function.

use super::{accepted, length_of, written, Reply, ID_SIZE, LONGEST_PACKET};
use crate::refusal::Refusal;

/// Of a capture of version 2, and so of any.
const MOST_BOARDS: usize = 1000;
/// The numbers that a packet is judged with, 0 to 10, have so many counts for each board.
const NUMBERS: usize = 11;
pub const COUNTS: usize = MOST_BOARDS * NUMBERS;

/// Mark, version, board count and the IDs of all boards.
pub const LONGEST_HEAD: usize = 7 + MOST_BOARDS * ID_SIZE;
/// Index, direction, counter, length and the packet.
pub const LONGEST_RECORD: usize = 9 + LONGEST_PACKET;
/// A line for each count, and that of a refusal.
const LONGEST_SUMMARY: usize = COUNTS * 28 + 11;

/// Of the capture form. Both are read, `Two` is written.
#[derive(Clone, Copy, Debug, PartialEq, Eq)]
pub enum Version {
    One,
    Two,
}

impl Version {
    pub fn number(self) -> u16 {
        match self {
            Version::One => 1,
            Version::Two => 2,
        }
    }
}

/// A record is cut short, or a field of it is outside its range.
pub const BAD_RECORD: Refusal = Refusal(53);

/// The head of a capture: its version, how many boards it has, and where the IDs and the records stand.
#[derive(Clone, Copy, Debug, PartialEq, Eq)]
pub struct Head {
    pub version: Version,
    pub boards: u16,
    pub ids: usize,
    pub records: usize,
}

#[derive(Clone, Copy, Debug, PartialEq, Eq)]
pub struct Record<'a> {
    pub index: u16,
    pub direction: u8,
    pub counter: u32,
    pub packet: &'a [u8],
}

/// What stands first in what is left of a capture's records.
#[derive(Clone, Copy, Debug, PartialEq, Eq)]
pub enum Next<'a> {
    /// A record, and what follows it.
    Record(Record<'a>, &'a [u8]),
    End,
    /// The start of a record: refusal 53, where no more bytes come.
    Cut,
    /// Refusal 53: a field outside its range.
    Wrong,
}

/// What a capture was rewritten as.
#[derive(Clone, Copy, Debug, PartialEq, Eq)]
pub struct Rewritten {
    pub length: usize,
    /// 53: the record that it refuses is not there, nor is anything behind it.
    pub refusal: Option<Refusal>,
}

#[repr(C)]
struct OpenedCapture {
    refusal: u16,
    /// 1 or 2.
    version: u16,
    boards: u16,
    ids: usize,
    records: usize,
}

#[repr(C)]
struct CaptureRecord {
    /// 0 record, 1 end, 2 start of a record, 3 field outside its range.
    kind: u8,
    direction: u8,
    index: u16,
    counter: u32,
    /// How many bytes are left where the packet starts, and after it.
    packet: usize,
    rest: usize,
}

extern "C" {
    fn udgornwy_open_capture(capture: *const u8, capture_length: usize) -> OpenedCapture;
    fn udgornwy_next_record(
        rest: *const u8,
        rest_length: usize,
        version: u16,
        boards: u16,
    ) -> CaptureRecord;
    fn udgornwy_write_head(
        buffer: *mut u8,
        buffer_length: usize,
        ids: *const u8,
        ids_length: usize,
    ) -> Reply;
    fn udgornwy_write_record(
        buffer: *mut u8,
        buffer_length: usize,
        boards: u16,
        index: u16,
        direction: u8,
        counter: u32,
        packet: *const u8,
        packet_length: usize,
    ) -> Reply;
    fn udgornwy_write_capture(
        buffer: *mut u8,
        buffer_length: usize,
        ids: *const u8,
        ids_length: usize,
        indexes: *const u16,
        indexes_count: usize,
        directions: *const u8,
        directions_count: usize,
        counters: *const u32,
        counters_count: usize,
        lengths: *const u16,
        lengths_count: usize,
        packets: *const u8,
        packets_length: usize,
    ) -> Reply;
    fn udgornwy_rewrite_capture(
        buffer: *mut u8,
        buffer_length: usize,
        capture: *const u8,
        capture_length: usize,
    ) -> Reply;
    fn udgornwy_count_window(
        counts: *mut u64,
        counts_count: usize,
        window: *mut u8,
        window_length: usize,
        start: usize,
        end: usize,
        version: u16,
        boards: u16,
    ) -> Reply;
    fn udgornwy_show_counts(
        text: *mut u8,
        text_length: usize,
        counts: *const u64,
        counts_count: usize,
        refusal: u8,
    ) -> Reply;
}

/// The head of a capture, whose first `LONGEST_HEAD` bytes are enough.
pub fn open_capture(capture: &[u8]) -> Result<Head, Refusal> {
    // SAFETY: the slice is live.
    let opened = unsafe { udgornwy_open_capture(capture.as_ptr(), capture.len()) };
    accepted(opened.refusal).map(|()| Head {
        version: match opened.version {
            1 => Version::One,
            _ => Version::Two,
        },
        boards: opened.boards,
        ids: opened.ids,
        records: opened.records,
    })
}

/// The first record of what is left of a capture with this head.
pub fn next_record(rest: &[u8], head: Head) -> Next<'_> {
    let version = head.version.number();
    // SAFETY: the slice is live.
    let next = unsafe { udgornwy_next_record(rest.as_ptr(), rest.len(), version, head.boards) };
    match next.kind {
        0 => {
            let (before, after) = rest.split_at(rest.len() - next.rest);
            let record = Record {
                index: next.index,
                direction: next.direction,
                counter: next.counter,
                packet: &before[rest.len() - next.packet..],
            };
            Next::Record(record, after)
        }
        1 => Next::End,
        2 => Next::Cut,
        _ => Next::Wrong,
    }
}

/// Writes a capture's head, and says how long it is. The IDs have 16 bytes each.
pub fn write_head(buffer: &mut [u8], ids: &[u8]) -> Result<usize, Refusal> {
    // SAFETY: both slices are live and do not overlap.
    let reply =
        unsafe { udgornwy_write_head(buffer.as_mut_ptr(), buffer.len(), ids.as_ptr(), ids.len()) };
    length(&reply)
}

/// Writes a record of a capture of so many boards, and says how long it is.
pub fn write_record(buffer: &mut [u8], boards: u16, record: Record) -> Result<usize, Refusal> {
    // SAFETY: both slices are live and do not overlap.
    let reply = unsafe {
        udgornwy_write_record(
            buffer.as_mut_ptr(),
            buffer.len(),
            boards,
            record.index,
            record.direction,
            record.counter,
            record.packet.as_ptr(),
            record.packet.len(),
        )
    };
    length(&reply)
}

/// Writes a whole capture, and says how long it is. The IDs have 16 bytes each.
pub fn write_capture(buffer: &mut [u8], ids: &[u8], records: &[Record]) -> Result<usize, Refusal> {
    let indexes = of_each(records, |record| record.index);
    let directions = of_each(records, |record| record.direction);
    let counters = of_each(records, |record| record.counter);
    let lengths = of_each(records, |record| length_of(record.packet));
    let packets = of_each(records, |record| record.packet).concat();
    // SAFETY: all slices are live, and none overlaps the buffer.
    let reply = unsafe {
        udgornwy_write_capture(
            buffer.as_mut_ptr(),
            buffer.len(),
            ids.as_ptr(),
            ids.len(),
            indexes.as_ptr(),
            indexes.len(),
            directions.as_ptr(),
            directions.len(),
            counters.as_ptr(),
            counters.len(),
            lengths.as_ptr(),
            lengths.len(),
            packets.as_ptr(),
            packets.len(),
        )
    };
    length(&reply)
}

/// Rewrites a whole capture in version 2. Any refusal but 53 leaves the buffer as it was.
pub fn rewrite_capture(buffer: &mut [u8], capture: &[u8]) -> Result<Rewritten, Refusal> {
    // SAFETY: both slices are live and do not overlap.
    let reply = unsafe {
        udgornwy_rewrite_capture(
            buffer.as_mut_ptr(),
            buffer.len(),
            capture.as_ptr(),
            capture.len(),
        )
    };
    let refusal = match accepted(reply.refusal) {
        Err(refusal) if refusal != BAD_RECORD => return Err(refusal),
        rewritten => rewritten.err(),
    };
    Ok(Rewritten {
        length: reply.length,
        refusal,
    })
}

/// Counts the records of a capture with this head that stand in a window from `start` to `end`, moves the bytes that are left to its
/// start, and says how many they are: the start of a record. Refusal 53: a field outside its range; what stands before it is counted.
pub fn count_window(
    counts: &mut [u64],
    window: &mut [u8],
    start: usize,
    end: usize,
    head: Head,
) -> Result<usize, Refusal> {
    // SAFETY: both slices are live and do not overlap.
    let reply = unsafe {
        udgornwy_count_window(
            counts.as_mut_ptr(),
            counts.len(),
            window.as_mut_ptr(),
            window.len(),
            start,
            end,
            head.version.number(),
            head.boards,
        )
    };
    length(&reply)
}

/// The text of up to `COUNTS` counts, and of a refusal.
pub fn show_counts(counts: &[u64], refusal: Option<Refusal>) -> Result<Vec<u8>, Refusal> {
    // No refusal of a capture has a number above 255.
    let number = refusal.map_or(0, |refusal| u8::try_from(refusal.0).unwrap_or(u8::MAX));
    let mut text = vec![0; LONGEST_SUMMARY];
    // SAFETY: both slices are live and do not overlap.
    let reply = unsafe {
        udgornwy_show_counts(
            text.as_mut_ptr(),
            text.len(),
            counts.as_ptr(),
            counts.len(),
            number,
        )
    };
    written(&reply, &text).map(<[u8]>::to_vec)
}

fn of_each<'a, T>(records: &[Record<'a>], part: impl Fn(&Record<'a>) -> T) -> Vec<T> {
    records.iter().map(part).collect()
}

fn length(reply: &Reply) -> Result<usize, Refusal> {
    accepted(reply.refusal).map(|()| reply.length)
}

#[cfg(test)]
mod tests {
    use super::*;

    #[test]
    fn the_text_of_the_greatest_counts_fits() {
        let text = show_counts(&vec![u64::MAX; COUNTS], Some(BAD_RECORD));
        let text = String::from_utf8(text.expect("a text that fits")).expect("text");
        assert_eq!(text.lines().count(), COUNTS + 1);
        assert!(text.ends_with(&format!("999,10,{}\nrefused,53\n", u64::MAX)));
    }
}
