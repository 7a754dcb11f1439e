//! The calls of the list that are about captures.

use crate::{bytes, refused};
use std::io::{self, Read};
use udgornwy::ffi::captures::{self, Head, Next, Record, Rewritten, BAD_RECORD, COUNTS};
use udgornwy::ffi::ID_SIZE;
use udgornwy::hex::digits;
use udgornwy::new_file::Failure;
use udgornwy::refusal::Refusal;
use udgornwy::rewrite;
use udgornwy::summary;

/// What each byte of a buffer is before the call.
pub const FILLER: u8 = 0xA5;

pub fn read(capture: &[u8]) -> String {
    let head = match captures::open_capture(capture) {
        Ok(head) => head,
        Err(refusal) => {
            let version = match refusal {
                Refusal(52) => capture[3],
                _ => 0,
            };
            return format!("version {version} {}", refused(&refusal));
        }
    };
    let ids = capture[head.ids..head.records].chunks(ID_SIZE);
    let ids: String = ids.map(|id| format!(" id:{}", digits(id))).collect();
    let version = head.version.number();
    format!("version {version}{ids}{}", read_records(capture, head))
}

fn read_records(capture: &[u8], head: Head) -> String {
    let mut answer = String::new();
    let mut rest = &capture[head.records..];
    loop {
        match captures::next_record(rest, head) {
            Next::Record(record, after) => {
                answer += &format!(" rec:{}", show(record));
                rest = after;
            }
            Next::End => return answer,
            Next::Cut | Next::Wrong => return answer + " refused 53",
        }
    }
}

/// `I.D.C.HEX`
fn show(record: Record) -> String {
    let Record {
        index,
        direction,
        counter,
        packet,
    } = record;
    let packet = match packet {
        [] => String::from("-"),
        _ => digits(packet),
    };
    format!("{index}.{direction}.{counter}.{packet}")
}

/// The whole capture at once; where it is taken, its head and its records one by one give the same bytes.
pub fn write(room: &str, ids: &str, records: &[&str]) -> String {
    let room = room.parse().expect("a length");
    let ids: Vec<u8> = ids.split(',').flat_map(bytes).collect();
    let packets: Vec<Vec<u8>> = records.iter().map(|field| packet(field)).collect();
    let records = records.iter().zip(&packets);
    let records: Vec<Record> = records
        .map(|(field, packet)| record(field, packet))
        .collect();
    let mut buffer = vec![FILLER; room];
    let answer = captures::write_capture(&mut buffer, &ids, &records);
    let text = match answer {
        Ok(length) => {
            assert_eq!(write_parts(room, &ids, &records), buffer);
            format!("capture {}", digits(&buffer[..length]))
        }
        Err(refusal) => refused(&refusal),
    };
    text + dirty(&buffer[answer.unwrap_or(0)..])
}

/// Of the bytes that a call leaves as they were.
pub fn dirty(rest: &[u8]) -> &'static str {
    match rest.iter().all(|byte| *byte == FILLER) {
        true => "",
        false => " dirty",
    }
}

fn write_parts(room: usize, ids: &[u8], records: &[Record]) -> Vec<u8> {
    let boards = u16::try_from(ids.len() / ID_SIZE).expect("a board count");
    let mut buffer = vec![FILLER; room];
    let mut place = captures::write_head(&mut buffer, ids).expect("a head");
    for record in records {
        let written = captures::write_record(&mut buffer[place..], boards, *record);
        place += written.expect("a record");
    }
    buffer
}

fn packet(field: &str) -> Vec<u8> {
    let (_, packet) = field.rsplit_once('.').expect("a packet");
    bytes(packet)
}

fn record<'a>(field: &str, packet: &'a [u8]) -> Record<'a> {
    let parts: Vec<&str> = field.split('.').collect();
    let [index, direction, counter, _] = parts[..] else {
        panic!("no record: {field}");
    };
    Record {
        index: index.parse().expect("an index"),
        direction: direction.parse().expect("a direction"),
        counter: counter.parse().expect("a counter"),
        packet,
    }
}

/// The whole capture at once; in pieces, where the buffer has room for it, the bytes are the same.
pub fn rewrite(room: &str, capture: &[u8]) -> String {
    let mut buffer = vec![FILLER; room.parse().expect("a length")];
    let answer = captures::rewrite_capture(&mut buffer, capture);
    let length = answer.map_or(0, |rewritten| rewritten.length);
    let (written, rest) = buffer.split_at(length);
    if answer != Err(Refusal(54)) {
        assert_eq!(rewrite_pieces(capture), (answer, written.to_vec()));
    }
    let text = match answer {
        Ok(Rewritten { refusal: None, .. }) => format!("capture {}", digits(written)),
        Ok(Rewritten {
            refusal: Some(refusal),
            ..
        }) => format!("capture {} {}", digits(written), refused(&refusal)),
        Err(refusal) => refused(&refusal),
    };
    text + dirty(rest)
}

fn rewrite_pieces(capture: &[u8]) -> (Result<Rewritten, Refusal>, Vec<u8>) {
    let mut written = Vec::new();
    let answer = match rewrite::rewrite(Pieces::of(capture), &mut written, 0) {
        Ok(refusal) => Ok(Rewritten {
            length: written.len(),
            refusal,
        }),
        Err(Failure::Refused(refusal)) => Err(refusal),
        Err(failure) => panic!("{failure:?}"),
    };
    (answer, written)
}

/// Counted at once; in pieces, through the narrowest window and a wider one, the text is the same.
pub fn summarize(capture: &[u8]) -> String {
    let whole = count_whole(capture);
    for window in [0, 20_000] {
        let counted = summary::count(Pieces::of(capture), window).expect("no failed read");
        assert_eq!(counted.text().expect("a text that fits"), whole);
    }
    let text = String::from_utf8(whole).expect("text");
    match text.as_str() {
        "" => String::from("-"),
        _ => text.trim_end().replace('\n', "|"),
    }
}

fn count_whole(capture: &[u8]) -> Vec<u8> {
    let show =
        |counts: &[u64], refusal| captures::show_counts(counts, refusal).expect("a text that fits");
    let head = match captures::open_capture(capture) {
        Ok(head) => head,
        Err(refusal) => return show(&[], Some(refusal)),
    };
    let (mut counts, mut window) = (vec![0; COUNTS], capture.to_vec());
    let end = window.len();
    match captures::count_window(&mut counts, &mut window, head.records, end, head) {
        Ok(0) => show(&counts, None),
        Ok(left) => {
            assert_eq!(window[..left], capture[end - left..]);
            show(&counts, Some(BAD_RECORD))
        }
        Err(refusal) => show(&counts, Some(refusal)),
    }
}

/// A reader that gives one byte, then two, then three, up to more than a record has.
pub struct Pieces<'a> {
    rest: &'a [u8],
    size: usize,
}

impl Pieces<'_> {
    pub fn of(bytes: &[u8]) -> Pieces<'_> {
        Pieces {
            rest: bytes,
            size: 1,
        }
    }
}

impl Read for Pieces<'_> {
    fn read(&mut self, room: &mut [u8]) -> io::Result<usize> {
        let size = self.size.min(room.len()).min(self.rest.len());
        let (piece, rest) = self.rest.split_at(size);
        room[..size].copy_from_slice(piece);
        self.rest = rest;
        self.size = self.size % 311 + 1;
        Ok(size)
    }
}
