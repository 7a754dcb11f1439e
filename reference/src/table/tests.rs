//! Tables written out by hand from the papers.

use super::*;
use crate::block;
use crate::capture::{self, Captured, REQUEST, RESPONSE, Version};
use crate::listing;
use crate::packet;
use crate::random::Random;
use crate::refusal::Refusal;

/// The ID that became 4.12E+09 in a sheet, and one of bytes.
const A: [u8; 16] = *b"00000000000412E7";
const B: [u8; 16] = [
    0xFD, 0xAB, 0, 1, 2, 3, 4, 5, 6, 7, 8, 9, 0x0A, 0xC0, 0x0F, 0xFF,
];

/// The first line, and a line of board A.
const HEAD: &str = "\"board\",\"direction\",\"counter\",\"number\",\"value\"\r\n";
const GOOD: &str = "\"x30303030303030303030303431324537\",\"1\",\"5\",\"0x0001\",\"x00\"\r\n";

fn captured(index: u16, direction: u8, counter: u32, packet: &[u8]) -> Captured {
    Captured {
        index,
        direction,
        counter,
        packet: packet.to_vec(),
    }
}

/// A response of a third board, which is not in the capture.
fn response(data: &[u8]) -> Vec<u8> {
    packet::write(b"002D6E1B34565815", b"1111", packet::RESPONSE, data)
}

/// A capture of boards A and B.
fn capture_of(version: Version, records: &[Captured]) -> Vec<u8> {
    capture::compose(version, &[A, B].concat(), records)
}

fn exported(records: &[Captured]) -> Table {
    let tables = Version::ALL.map(|version| table(&capture_of(version, records)));
    let [one, two] = tables;
    assert_eq!(one, two);
    one
}

fn whole(text: String, refused: usize) -> Table {
    Table {
        text,
        refused,
        refusal: None,
    }
}

#[test]
fn the_guides_response_is_two_lines() {
    let packet = [
        0xFD, 0xFD, 0x02, 0x10, 0, 0, 0, 0, 0, 0, 0, 0, 0, 0, 0, 0, 0, 0, 0, 0, 0x04, 0x31, 0x31,
        0x31, 0x31, 0x06, 0x01, 0x00, 0x02, 0x03, 0xE6, 0x00,
    ];
    let text = concat!(
        "\"board\",\"direction\",\"counter\",\"number\",\"value\"\r\n",
        "\"x30303030303030303030303431324537\",\"1\",\"1003\",\"0x0001\",\"x00\"\r\n",
        "\"x30303030303030303030303431324537\",\"1\",\"1003\",\"0x0002\",\"x03\"\r\n",
    );
    let records = [captured(0, RESPONSE, 1003, &packet)];
    assert_eq!(exported(&records), whole(text.to_string(), 0));
}

#[test]
fn boards_are_those_of_the_capture_by_index() {
    let own = packet::write(&A, b"", packet::RESPONSE, &[0xAB, 0xCD]);
    let records = [
        captured(1, RESPONSE, 0, &own),
        captured(0, RESPONSE, 4_294_967_295, &response(&[0x01, 0xFF])),
    ];
    let lines = concat!(
        "\"xFDAB000102030405060708090AC00FFF\",\"1\",\"0\",\"0x00AB\",\"xCD\"\r\n",
        "\"x30303030303030303030303431324537\",\"1\",\"4294967295\",\"0x0001\",\"xFF\"\r\n",
    );
    assert_eq!(exported(&records), whole(format!("{HEAD}{lines}"), 0));
}

#[test]
fn an_id_is_x_and_32_digits() {
    let text = exported(&[captured(0, RESPONSE, 1, &response(&[1, 0]))]).text;
    let line = text.split("\r\n").nth(1).unwrap();
    let digits = line.strip_prefix("\"x").unwrap().split('"').next().unwrap();
    assert_eq!(digits, "30303030303030303030303431324537");
    assert_eq!(digits.len(), 32);
}

#[test]
fn pages_long_values_and_unknown_parameters_are_exported() {
    let data = [
        0xFF, 1, 0xFD, 1, 4, 5, 0xFF, 2, 0xFE, 2, 0x40, 0x51, 0x68, 0xFF, 0xFF, 0xFB, 0x0E,
    ];
    let records = [captured(0, RESPONSE, 70, &response(&data))];
    let lines = concat!(
        "\"x30303030303030303030303431324537\",\"1\",\"70\",\"0x0101\",\"x\"\r\n",
        "\"x30303030303030303030303431324537\",\"1\",\"70\",\"0x0104\",\"x05\"\r\n",
        "\"x30303030303030303030303431324537\",\"1\",\"70\",\"0x0240\",\"x5168\"\r\n",
        "\"x30303030303030303030303431324537\",\"1\",\"70\",\"0xFFFB\",\"x0E\"\r\n",
    );
    assert_eq!(exported(&records), whole(format!("{HEAD}{lines}"), 0));
}

#[test]
fn requests_are_left_out_and_not_counted() {
    let read = packet::write(&A, b"", 1, &[1]);
    let records = [
        captured(0, REQUEST, 1, &read),
        captured(0, REQUEST, 2, &response(&[1, 0])),
        captured(0, REQUEST, 3, &[]),
    ];
    assert_eq!(exported(&records), whole(HEAD.to_string(), 0));
}

#[test]
fn refused_responses_are_left_out_and_counted() {
    let framed = |function: u8, data: &[u8]| packet::write(&A, b"1111", function, data);
    let mut wrong_sum = response(&[1, 0]);
    let last = wrong_sum.len() - 1;
    wrong_sum[last] ^= 1;
    let refused = [
        vec![],
        response(&[1, 0])[..23].to_vec(),
        vec![0; 24],
        wrong_sum,
        framed(5, &[1]),
        framed(6, &[1]),
        framed(6, &[1, 0, 0xFC, 1]),
        framed(6, &[1, 0, 0xFE, 0, 1]),
    ];
    let mut records: Vec<Captured> = refused
        .iter()
        .map(|packet| captured(1, RESPONSE, 5, packet))
        .collect();
    assert_eq!(exported(&records), whole(HEAD.to_string(), 8));
    // An accepted one in their midst; one without a report is accepted too.
    records.insert(4, captured(0, RESPONSE, 5, &response(&[1, 0])));
    records.insert(2, captured(0, RESPONSE, 6, &response(&[])));
    assert_eq!(exported(&records), whole(format!("{HEAD}{GOOD}"), 8));
}

#[test]
fn a_refused_capture_is_told_beside_what_stands_before() {
    for version in Version::ALL {
        let good = captured(0, RESPONSE, 5, &response(&[1, 0]));
        let mut capture = capture_of(version, &[good, captured(1, RESPONSE, 6, &[])]);
        capture.push(0);
        let expected = Table {
            text: format!("{HEAD}{GOOD}"),
            refused: 1,
            refusal: Some(Refusal::CaptureRecord),
        };
        assert_eq!(table(&capture), expected);
        for (length, refusal) in [
            (2, Refusal::CaptureMark),
            (4, Refusal::CaptureVersion),
            (5, Refusal::CaptureBoards),
            (37, Refusal::CaptureBoards),
        ] {
            let expected = Table {
                text: HEAD.to_string(),
                refused: 0,
                refusal: Some(refusal),
            };
            assert_eq!(table(&capture[..length]), expected);
        }
    }
}

#[test]
fn the_whole_table_needs_room_and_a_short_buffer_stays() {
    let sound = capture_of(
        Version::Two,
        &[captured(0, RESPONSE, 5, &response(&[1, 0]))],
    );
    let cut = [&sound[..], &[0]].concat();
    for (capture, size, refusal) in [
        (&sound[..], 108, None),
        (&cut, 108, Some(Refusal::CaptureRecord)),
        (&sound[..39], 48, None),
        (b"VLH", 48, Some(Refusal::CaptureMark)),
    ] {
        for room in 0..size {
            let mut buffer = vec![0xA5; room];
            assert_eq!(export(&mut buffer, capture), Err(Refusal::CaptureBuffer));
            assert!(buffer.iter().all(|byte| *byte == 0xA5));
        }
        let mut buffer = vec![0xA5; size + 3];
        let expected = Exported {
            length: size,
            refused: 0,
            refusal,
        };
        assert_eq!(export(&mut buffer, capture), Ok(expected));
        assert_eq!(buffer[..48], *HEAD.as_bytes());
        assert_eq!(buffer[48..size], GOOD.as_bytes()[..size - 48]);
        assert_eq!(buffer[size..], [0xA5; 3]);
        assert!(export(&mut buffer[..size], capture).is_ok());
    }
}

/// The refusal's number and its line, and how many rows stand before it.
fn refused(text: &[u8]) -> Option<(u8, usize, usize)> {
    let imported = import(text);
    let (refusal, line) = imported.refusal?;
    Some((refusal.number(), line, imported.rows.len()))
}

/// The refusal of a line behind the header, which must stand at line 2, and at line 4 behind two good ones.
fn line_refused(line: &str) -> Option<u8> {
    let first = refused(format!("{HEAD}{line}").as_bytes());
    let third = refused(format!("{HEAD}{GOOD}{GOOD}{line}{GOOD}{line}").as_bytes());
    assert_eq!(
        first.map(|(_, line, rows)| (line, rows)),
        first.map(|_| (2, 0))
    );
    assert_eq!(
        third.map(|(_, line, rows)| (line, rows)),
        third.map(|_| (4, 2))
    );
    first.map(|(number, _, _)| number)
}

#[test]
fn rows_are_given_with_board_direction_and_counter() {
    let text = concat!(
        "\"board\",\"direction\",\"counter\",\"number\",\"value\"\r\n",
        "\"x30303030303030303030303431324537\",\"1\",\"0\",\"0x0240\",\"x5168\"\r\n",
        "\"xFDAB000102030405060708090AC00FFF\",\"1\",\"4294967295\",\"0xFFFF\",\"x\"\r\n",
    );
    let rows = vec![
        Row {
            board: A,
            direction: 1,
            counter: 0,
            report: Report::Value {
                number: 0x0240,
                value: vec![0x51, 0x68],
            },
        },
        Row {
            board: B,
            direction: 1,
            counter: 4_294_967_295,
            report: Report::Unknown { number: 0xFFFF },
        },
    ];
    let refusal = None;
    assert_eq!(import(text.as_bytes()), Imported { rows, refusal });
    assert_eq!(import(HEAD.as_bytes()), Imported::default());
}

#[test]
fn headers_are_refused_with_60_before_61() {
    let header = &HEAD[..46];
    for text in [
        String::new(),
        "\r\n".to_string(),
        format!("\r\n{HEAD}"),
        format!("{header}\n"),
        format!("{header}\n{GOOD}"),
        format!("{header}\r"),
        format!("{header}\r\r\n"),
        format!("\u{feff}{HEAD}"),
        format!(" {HEAD}"),
        format!("{header} \r\n"),
        format!("{header},\r\n"),
        HEAD.to_uppercase(),
        HEAD.replace('"', ""),
        HEAD.replace(',', ", "),
        HEAD.replace("value", "val\"\"ue"),
        "\"board\",\"direction\",\"counter\",\"number\"\r\n".to_string(),
        header[..45].to_string(),
        GOOD.to_string(),
    ] {
        assert_eq!(refused(text.as_bytes()), Some((60, 1, 0)), "{text:?}");
    }
    // The header alone, with no line end.
    assert_eq!(refused(header.as_bytes()), Some((61, 1, 0)));
}

#[test]
fn quoting_and_line_ends_are_refused_with_61() {
    let fields = &GOOD[..GOOD.len() - 2];
    for line in [
        "\r\n".to_string(),
        fields.to_string(),
        format!("{fields}\n"),
        format!("{fields}\r"),
        format!("{fields}\r\r\n"),
        format!("{fields} \r\n"),
        format!("{fields},\r\n"),
        format!(",{GOOD}"),
        format!(" {GOOD}"),
        GOOD.replace("\"5\"", "5"),
        GOOD.replace("\"5\"", "\"5"),
        GOOD.replace("\"5\"", "5\""),
        GOOD.replace("\"5\"", "\"5\" "),
        GOOD.replace("\"5\"", " \"5\""),
        GOOD.replace("\"5\"", "\"5\"0"),
        GOOD.replace("\"5\"", "\"5\"\"\"\""),
        GOOD.replace("\"5\"", "'5'"),
        GOOD.replace("\"5\"", ""),
        GOOD.replace("\"5\"", "\"\r\n5\""),
        GOOD.replace("\"x00\"", "\"x\"00\""),
        GOOD.replace("\"x00\"", "\"x00"),
        GOOD.replace("\",\"5", "\";\"5"),
        "\"\r\n".to_string(),
        "x\r\n".to_string(),
    ] {
        // A line that is not the last takes what follows to its own line end, and is refused all the same.
        assert_eq!(line_refused(&line), Some(61), "{line:?}");
    }
}

#[test]
fn quoting_comes_before_the_count_and_the_count_before_the_forms() {
    let fields = &GOOD[..GOOD.len() - 2];
    for (line, number) in [
        // Four fields, or one outside its form, and no line end or an unquoted field.
        ("\"x\",\"1\",\"5\",\"0x0001\"".to_string(), 61),
        (fields.replace("\"1\"", "\"0\""), 61),
        ("\"x\",\"0\",5,\"0x0001\"\r\n".to_string(), 61),
        (GOOD.replace("\"1\",\"5\"", "\"0\",5"), 61),
        // Four and six fields, one outside its form.
        ("\"x\",\"0\",\"01\",\"0x0001\"\r\n".to_string(), 62),
        (format!("{},\"\"\r\n", fields.replace("\"1\"", "\"0\"")), 62),
        (format!("{fields},\"x\"\r\n"), 62),
        ("\"\"\r\n".to_string(), 62),
        ("\"a,b\",\"c\",\"d\",\"e\"\r\n".to_string(), 62),
        (GOOD.replace("\",\"5\"", "\"\",\"\"5\""), 62),
        ("\"\",\"\",\"\",\"\",\"\"\r\n".to_string(), 63),
        (HEAD.to_string(), 63),
    ] {
        assert_eq!(line_refused(&line), Some(number), "{line:?}");
    }
}

/// Contents of each field that are outside its form.
const OUTSIDE: [(&str, &[&str]); 5] = [
    (
        "x30303030303030303030303431324537",
        &[
            "",
            "x",
            "30303030303030303030303431324537",
            "X30303030303030303030303431324537",
            "x3030303030303030303030343132453",
            "x303030303030303030303034313245",
            "x303030303030303030303034313245370",
            "x3030303030303030303030343132453700",
            "x3030303030303030303030343132453g",
            "xfdab00010203040506070809000c0fff",
            "0x30303030303030303030303431324537",
            " x30303030303030303030303431324537",
        ],
    ),
    ("1", &["", "0", "2", "01", "11", " 1", "1 ", "+1", "x1"]),
    (
        "5",
        &[
            "",
            "00",
            "01",
            "05",
            "4294967296",
            "04294967295",
            "42949672950",
            "18446744073709551616",
            "18446744073709551621",
            "99999999999999999999999999999999999999999",
            "-5",
            "+5",
            "5 ",
            " 5",
            "0x5",
            "5.0",
            "5e0",
            "A",
            "\u{665}",
            "5\r",
            "5\n",
            "5\"\"",
            "5\0",
        ],
    ),
    (
        "0x0001",
        &[
            "", "0x", "0x001", "0x00001", "0x000001", "0001", "x0001", "0X0001", "0x00ab",
            "0x000G", " 0x0001", "0x0001 ", "1", "0x0x01",
        ],
    ),
    (
        "x00",
        &[
            "", "0", "00", "X00", "x0", "x000", "x0a", "xa0", "x0G", "xG0", "x-", "-", "x 00",
            "x00 ", "xx", "0x00", "x\r", "x\n", "x\"\"",
        ],
    ),
];

#[test]
fn fields_outside_their_forms_are_refused_with_63() {
    for (field, contents) in OUTSIDE {
        for content in contents {
            let line = GOOD.replacen(&format!("\"{field}\""), &format!("\"{content}\""), 1);
            assert_eq!(line_refused(&line), Some(63), "{line:?}");
        }
    }
}

#[test]
fn fields_at_the_ends_of_their_forms_are_taken() {
    for (field, contents) in [
        (
            "x30303030303030303030303431324537",
            &["xFFFFFFFFFFFFFFFFFFFFFFFFFFFFFFFF"][..],
        ),
        ("5", &["0", "9", "10", "4294967295"]),
        ("0x0001", &["0x0000", "0x00FC", "0x00FF", "0xFFFF"]),
        ("x00", &["x", "x0123456789ABCDEF"]),
    ] {
        for content in contents {
            let line = GOOD.replacen(&format!("\"{field}\""), &format!("\"{content}\""), 1);
            assert_eq!(line_refused(&line), None, "{line:?}");
        }
    }
    for (bytes, number) in [(254, None), (255, None), (256, Some(63)), (1_000, Some(63))] {
        let line = GOOD.replace("\"x00\"", &format!("\"x{}\"", "5A".repeat(bytes)));
        assert_eq!(line_refused(&line), number, "{bytes}");
    }
}

#[test]
fn what_is_no_text_is_refused_like_other_bytes() {
    let line = GOOD.replace("\"5\"", "\"5*\"").into_bytes();
    for byte in (0x80..=0xFF).chain([0, 0x1A]) {
        let changed = line
            .iter()
            .map(|old| if *old == b'*' { byte } else { *old });
        let text: Vec<u8> = HEAD.bytes().chain(changed).collect();
        assert_eq!(refused(&text), Some((63, 2, 0)), "{byte}");
    }
    assert_eq!(refused(&[0xFF; 9]), Some((60, 1, 0)));
}

/// A report with any number that a response can have.
fn any_report(random: &mut Random) -> Report {
    let number = u16::from_be_bytes([random.byte(), random.byte() % 0xFC]);
    let length = random.pick(&[0, 1, 1, 2, 4, 16, 30]);
    match random.bytes(length) {
        value if value.is_empty() => Report::Unknown { number },
        value => Report::Value { number, value },
    }
}

#[test]
fn the_import_of_an_export_gives_the_reports_back() {
    let mut random = Random::new(12);
    for round in 0..300 {
        let boards = random.between(1, 16);
        let ids: Vec<Vec<u8>> = (0..boards).map(|_| random.bytes(16)).collect();
        let (mut records, mut expected) = (Vec::new(), Vec::new());
        for _ in 0..random.between(0, 6) {
            let index = random.between(0, boards - 1);
            let counter = random.next_number() as u32;
            let count = random.between(0, 5);
            let reports: Vec<Report> = (0..count).map(|_| any_report(&mut random)).collect();
            let packet = response(&block::write_response(&reports));
            assert_eq!(listing::reports(&packet), Ok(reports.clone()));
            let direction = random.pick(&[REQUEST, RESPONSE, RESPONSE]);
            records.push(captured(index as u16, direction, counter, &packet));
            if direction == RESPONSE {
                expected.extend(reports.into_iter().map(|report| Row {
                    board: ids[index].clone().try_into().unwrap(),
                    direction,
                    counter,
                    report,
                }));
            }
        }
        let version = Version::ALL[round % 2];
        let table = table(&capture::compose(version, &ids.concat(), &records));
        let imported = import(table.text.as_bytes());
        assert_eq!((imported.rows, imported.refusal), (expected, None));
    }
}
