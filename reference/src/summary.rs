//! The summary of a capture: how often each board's packets met each refusal.

use std::collections::BTreeMap;

use crate::board;
use crate::capture::{self, Captured};
use crate::listing;
use crate::packet;
use crate::refusal::Refusal;

/// The lines of the summary, without their line ends.
pub fn lines(capture: &[u8]) -> Vec<String> {
    let reading = capture::read(capture);
    let counted = count(&reading.records).into_iter();
    let counted = counted.map(|((index, number), count)| format!("{index},{number},{count}"));
    let refused = reading
        .refusal
        .map(|refusal| format!("refused,{}", refusal.number()));
    counted.chain(refused).collect()
}

/// How often each pair of board index and refusal occurs, 0 for no refusal.
fn count(records: &[Captured]) -> BTreeMap<(u16, u8), usize> {
    let mut counts = BTreeMap::new();
    for record in records {
        *counts.entry((record.index, judge(record))).or_default() += 1;
    }
    counts
}

/// The refusal that a packet meets, 0 for none.
pub fn judge(record: &Captured) -> u8 {
    check(record).err().map_or(0, Refusal::number)
}

/// Checks a response as the listing does, and a request likewise: ID and password are taken as they are.
fn check(record: &Captured) -> Result<(), Refusal> {
    match record.direction {
        capture::RESPONSE => listing::reports(&record.packet).map(|_| ()),
        _ => {
            let frame = packet::read(&record.packet)?;
            board::read_request(&frame).map(|_| ())
        }
    }
}

#[cfg(test)]
mod tests {
    use super::*;
    use crate::capture::{REQUEST, RESPONSE, Version};

    fn captured(index: u16, direction: u8, packet: &[u8]) -> Captured {
        Captured {
            index,
            direction,
            counter: 0,
            packet: packet.to_vec(),
        }
    }

    fn judged(direction: u8, packet: &[u8]) -> u8 {
        judge(&captured(0, direction, packet))
    }

    fn framed(function: u8, data: &[u8]) -> Vec<u8> {
        packet::write(&packet::CODE_WORD, b"*", function, data)
    }

    #[test]
    fn each_direction_has_its_functions_and_its_blocks() {
        for (function, data, request, response) in [
            (1, &[1][..], 0, 9),
            (5, &[], 0, 9),
            (6, &[], 9, 0),
            (6, &[1], 9, 10),
            (1, &[0xFD, 1], 10, 9),
            (6, &[0xFD, 1], 9, 0),
            (2, &[1], 10, 9),
            (6, &[0xFC, 1], 9, 10),
            (1, &[0xFC, 2, 1], 10, 9),
            (0, &[0xFC], 9, 9),
            (7, &[0xFC], 9, 9),
        ] {
            let packet = framed(function, data);
            assert_eq!(judged(REQUEST, &packet), request, "{function} {data:?}");
            assert_eq!(judged(RESPONSE, &packet), response, "{function} {data:?}");
        }
    }

    #[test]
    fn frames_are_judged_alike_in_both_directions() {
        let mut wrong_sum = framed(1, &[]);
        wrong_sum[23] ^= 1;
        for direction in [REQUEST, RESPONSE] {
            assert_eq!(judged(direction, &[]), 2);
            assert_eq!(judged(direction, &[0xFD; 23]), 2);
            assert_eq!(judged(direction, &[0; 24]), 3);
            assert_eq!(judged(direction, &wrong_sum), 4);
        }
    }

    #[test]
    fn pairs_come_in_order_and_a_refusal_last() {
        let read = framed(1, &[1]);
        let records = [
            captured(10, REQUEST, &read),
            captured(2, RESPONSE, &read),
            captured(2, REQUEST, &framed(1, &[0xFD])),
            captured(2, REQUEST, &read),
            captured(2, RESPONSE, &framed(6, &[])),
            captured(2, REQUEST, &framed(6, &[])),
            captured(0, REQUEST, &[]),
        ];
        let lines_of = |version: Version, records: &[Captured], boards: usize| {
            let mut capture = capture::compose(version, &vec![0; 16 * boards], records);
            let accepted = lines(&capture);
            capture.push(0);
            (accepted, lines(&capture))
        };
        let mut expected = vec!["0,2,1", "2,0,2", "2,9,2", "2,10,1", "10,0,1"];
        for version in Version::ALL {
            let (accepted, refused) = lines_of(version, &records, 11);
            assert_eq!(accepted, expected);
            assert_eq!(refused, [&expected[..], &["refused,53"]].concat());
        }
        let more = [
            captured(999, REQUEST, &read),
            captured(256, REQUEST, &read),
            captured(100, RESPONSE, &read),
        ];
        expected.extend(["100,9,1", "256,0,1", "999,0,1"]);
        let records = [&more[..], &records].concat();
        let (accepted, refused) = lines_of(Version::Two, &records, 1_000);
        assert_eq!(accepted, expected);
        assert_eq!(refused, [&expected[..], &["refused,53"]].concat());
    }

    #[test]
    fn a_refused_head_is_told_alone_and_no_record_is_no_line() {
        for version in Version::ALL {
            let capture = capture::compose(version, &[0; 16], &[]);
            assert!(lines(&capture).is_empty());
            assert_eq!(lines(&capture[..capture.len() - 1]), ["refused,52"]);
            assert_eq!(lines(&capture[..4]), ["refused,51"]);
        }
        assert_eq!(lines(&[]), ["refused,50"]);
    }
}
