//! The board: one packet or one measurement on one record.

use crate::block::{self, Command, Report, Request};
use crate::packet::{self, CODE_WORD, Frame, LONGEST, RESPONSE};
use crate::record::{CLIENT, Record};
use crate::refusal::Refusal;
use crate::rows::{self, Access, ID_ROW, UNIT_TYPE_ROW};
use crate::schedule;

/// Answers a packet: the length of the response at the front of the buffer, 0 for silence.
/// A refusal leaves record and buffer as they were.
pub fn packet(record: &mut Record, packet: &[u8], buffer: &mut [u8]) -> Result<usize, Refusal> {
    record.check()?;
    if buffer.len() < LONGEST {
        return Err(Refusal::SmallBuffer);
    }
    let frame = packet::read(packet)?;
    let search = check_sender(record, &frame)?;
    let request = read_block(&frame, search)?;
    let mut next = record.clone();
    let reports: Vec<Report> = request
        .commands
        .iter()
        .filter_map(|command| run(&mut next, command, search))
        .collect();
    let response = respond(&next, &frame, &reports)?;
    buffer[..response.len()].copy_from_slice(&response);
    *record = next;
    Ok(response.len())
}

/// Checks 7 and 8; tells whether the packet is a search.
fn check_sender(record: &Record, frame: &Frame) -> Result<bool, Refusal> {
    let code_word = frame.id == CODE_WORD;
    if !code_word && frame.id != record.id {
        return Err(Refusal::Id);
    }
    let search = code_word && record.mode == CLIENT;
    if !search && frame.password != record.password {
        return Err(Refusal::Password);
    }
    Ok(search)
}

/// Checks 9, 10 and 11, before any command runs.
fn read_block(frame: &Frame, search: bool) -> Result<Request, Refusal> {
    let request = read_request(frame)?;
    if search && request.functions.iter().any(|function| *function != 1) {
        return Err(Refusal::SearchFunction);
    }
    Ok(request)
}

/// Checks 9 and 10 of a request.
pub fn read_request(frame: &Frame) -> Result<Request, Refusal> {
    if !(1..=5).contains(&frame.function) {
        return Err(Refusal::Function);
    }
    block::read_request(frame.function, frame.data).ok_or(Refusal::Malformed)
}

/// Runs one command and gives its report, if it has one.
fn run(record: &mut Record, command: &Command, search: bool) -> Option<Report> {
    let number = command.number;
    if search && number != ID_ROW && number != UNIT_TYPE_ROW {
        return None;
    }
    let value = match number {
        schedule::NUMBER if record.has_schedule() => {
            record.schedule.run(command.function, &command.value)
        }
        _ => run_row(record, command),
    };
    if command.function == 2 {
        return None;
    }
    Some(match value {
        Some(value) => Report::Value { number, value },
        None => Report::Unknown { number },
    })
}

/// Runs a command on a row and gives the value it then holds; none if the type has no such row.
fn run_row(record: &mut Record, command: &Command) -> Option<Vec<u8>> {
    let number = command.number;
    let row = rows::find(record.unit_type, number)?;
    let held = record.values[&number].clone();
    let new = match command.function {
        2 | 3 if row.takes(command.function) => row.written(&held, &command.value),
        4 if row.takes(4) => row.raised(&held),
        5 if row.takes(5) => row.lowered(&held),
        _ => None,
    };
    let value = new.unwrap_or(held);
    record.values.insert(number, value.clone());
    Some(value)
}

/// The response, empty for silence; check 12.
fn respond(record: &Record, frame: &Frame, reports: &[Report]) -> Result<Vec<u8>, Refusal> {
    if reports.is_empty() {
        return Ok(Vec::new());
    }
    let data = block::write_response(reports);
    let response = packet::write(&record.id, frame.password, RESPONSE, &data);
    if response.len() > LONGEST {
        return Err(Refusal::LongResponse);
    }
    Ok(response)
}

/// Stores a measurement in its read-only row.
pub fn measure(record: &mut Record, number: u16, value: &[u8]) -> Result<(), Refusal> {
    record.check()?;
    let row = rows::find(record.unit_type, number)
        .filter(|row| row.access == Access::ReadOnly)
        .filter(|row| row.number != ID_ROW && row.number != UNIT_TYPE_ROW)
        .ok_or(Refusal::NotMeasured)?;
    if value.len() != row.room() {
        return Err(Refusal::MeasurementLength);
    }
    record.values.insert(number, value.to_vec());
    Ok(())
}

#[cfg(test)]
mod tests {
    use super::*;
    use crate::record::{ACCESS_POINT, setup};
    use crate::units::{self, MICRA};

    const ID: [u8; 16] = *b"002D6E1B34565815";
    const PASSWORD: &[u8] = b"1111";

    fn board(mode: u8) -> Record {
        board_of(MICRA, mode)
    }

    fn board_of(unit_type: u8, mode: u8) -> Record {
        setup(&ID, PASSWORD, mode, unit_type).0
    }

    /// The answer to one packet; the data block of the response is what is given back.
    fn ask(record: &mut Record, sent: &[u8]) -> Result<Vec<u8>, Refusal> {
        let mut buffer = [0xA5; 256];
        let before = record.clone();
        let answer = packet(record, sent, &mut buffer);
        let length = answer.unwrap_or(0);
        assert!(buffer[length..].iter().all(|byte| *byte == 0xA5));
        if answer.is_err() {
            assert_eq!(*record, before);
        }
        answer?;
        if length == 0 {
            return Ok(Vec::new());
        }
        let frame = packet::read(&buffer[..length]).unwrap();
        let asked = packet::read(sent).unwrap();
        assert_eq!((frame.id, frame.function), (&record.id[..], 6));
        assert_eq!(frame.password, asked.password);
        Ok(frame.data.to_vec())
    }

    fn own(record: &mut Record, function: u8, data: &[u8]) -> Result<Vec<u8>, Refusal> {
        let sent = packet::write(&record.id, &record.password, function, data);
        ask(record, &sent)
    }

    fn search(record: &mut Record, function: u8, data: &[u8]) -> Result<Vec<u8>, Refusal> {
        ask(record, &packet::write(&CODE_WORD, b"*", function, data))
    }

    #[test]
    fn lower_numbers_come_first() {
        let mut record = board(CLIENT);
        let malformed = [0xFD];
        let wrong_id = packet::write(&[1; 16], b"", 9, &malformed);
        let wrong_password = packet::write(&ID, b"111", 9, &malformed);
        let mut buffer = [0; 255];
        assert_eq!(
            packet(&mut record, &[], &mut buffer),
            Err(Refusal::SmallBuffer)
        );
        assert_eq!(ask(&mut record, &[]), Err(Refusal::Length));
        assert_eq!(ask(&mut record, &wrong_id), Err(Refusal::Id));
        assert_eq!(ask(&mut record, &wrong_password), Err(Refusal::Password));
        for function in [0, 6, 255] {
            let answer = own(&mut record, function, &malformed);
            assert_eq!(answer, Err(Refusal::Function));
        }
        assert_eq!(own(&mut record, 5, &malformed), Err(Refusal::Malformed));
        record.poke_row(0x0002, &[0]);
        assert_eq!(
            packet(&mut record, &[], &mut []),
            Err(Refusal::IllegalRecord)
        );
    }

    #[test]
    fn passwords_differ_in_length_or_bytes() {
        for mode in [CLIENT, ACCESS_POINT] {
            for password in [&b""[..], b"111", b"11111", b"1112", b"0111", b"111\0"] {
                let sent = packet::write(&ID, password, 1, &[1]);
                assert_eq!(ask(&mut board(mode), &sent), Err(Refusal::Password));
            }
        }
        let sent = packet::write(&CODE_WORD, b"111", 1, &[0x7C]);
        assert_eq!(ask(&mut board(ACCESS_POINT), &sent), Err(Refusal::Password));
    }

    #[test]
    fn the_code_word_opens_an_access_point_to_its_password() {
        let mut record = board(ACCESS_POINT);
        let sent = packet::write(&CODE_WORD, PASSWORD, 3, &[1, 1, 0x77, 0]);
        assert_eq!(ask(&mut record, &sent), Ok(vec![1, 1, 0xFD, 0x77]));
        assert_eq!(record.values[&1], [1]);
    }

    #[test]
    fn a_search_reports_identity_alone() {
        let mut record = board(CLIENT);
        let before = record.clone();
        let mut expected = vec![0xFE, 2, 0xB9, 2, 0, 0xFE, 16, 0x7C];
        expected.extend_from_slice(&ID);
        let data = [
            0xB9, 1, 0x77, 0xFF, 1, 0x7C, 0xFF, 0, 0xFC, 1, 0xFE, 1, 0x7C, 0xFC,
        ];
        assert_eq!(search(&mut record, 1, &data), Ok(expected));
        assert_eq!(search(&mut record, 1, &[1, 2, 0x77, 0xFF, 0]), Ok(vec![]));
        let rightful = packet::write(&CODE_WORD, PASSWORD, 1, &[1]);
        assert_eq!(ask(&mut record, &rightful), Ok(vec![]));
        assert_eq!(record, before);
    }

    #[test]
    fn a_search_with_another_function_is_refused_after_the_block_is_read() {
        let mut record = board(CLIENT);
        for function in 2..=5 {
            let answer = search(&mut record, function, &[]);
            assert_eq!(answer, Err(Refusal::SearchFunction));
            let answer = search(&mut record, 1, &[0xFC, function, 0xFC, 1, 0x7C]);
            assert_eq!(answer, Err(Refusal::SearchFunction));
            let answer = search(&mut record, 1, &[0x7C, 0xFC, function]);
            assert_eq!(answer, Err(Refusal::SearchFunction));
        }
        assert_eq!(search(&mut record, 3, &[0x7C]), Err(Refusal::Malformed));
        assert_eq!(search(&mut record, 1, &[0xFC, 0]), Err(Refusal::Malformed));
        assert_eq!(search(&mut record, 1, &[0xFC, 6]), Err(Refusal::Malformed));
        assert_eq!(search(&mut record, 6, &[]), Err(Refusal::Function));
    }

    #[test]
    fn the_response_ends_at_256_bytes() {
        let mut record = board(CLIENT);
        let answer = own(&mut record, 1, &[0x7C; 12]).unwrap();
        assert_eq!(answer.len(), 228);
        assert_eq!(own(&mut record, 1, &[0x7C; 13]), Err(Refusal::LongResponse));
        let mut data = vec![1, 1, 0xFC, 1];
        data.extend_from_slice(&[0x7C; 12]);
        assert_eq!(own(&mut record, 2, &data).unwrap().len(), 228);
        assert_eq!(record.values[&1], [1]);
        data[1] = 0;
        data.push(2);
        assert_eq!(own(&mut record, 2, &data), Err(Refusal::LongResponse));
        assert_eq!(record.values[&1], [1]);
        // Passed over in a search, so that its response fits.
        let searched = search(&mut record, 1, &[[1; 100], [0x77; 100]].concat());
        assert_eq!(searched, Ok(vec![]));
    }

    #[test]
    fn functions_that_a_row_lacks_report_the_value_held() {
        let mut record = board(CLIENT);
        let before = record.clone();
        assert_eq!(own(&mut record, 4, &[1, 0x06]), Ok(vec![1, 0, 6, 0]));
        assert_eq!(own(&mut record, 5, &[0x9A]), Ok(vec![0x9A, 1]));
        assert_eq!(own(&mut record, 3, &[6, 1]), Ok(vec![6, 0]));
        assert_eq!(own(&mut record, 2, &[6, 1, 0x77, 0]), Ok(vec![]));
        let sized = own(&mut record, 3, &[0xFE, 2, 0x1E, 1, 1]);
        assert_eq!(sized, Ok(vec![0xFE, 2, 0x1E, 0, 0]));
        for function in [1, 4, 5] {
            let unknown = own(&mut record, function, &[0xFE, 1, 0xA0, 1]);
            assert_eq!(unknown, Ok(vec![0xFD, 0xA0]));
        }
        assert_eq!(record, before);
    }

    #[test]
    fn raise_and_lower_ignore_a_value() {
        let mut record = board(CLIENT);
        let raised = own(
            &mut record,
            4,
            &[0xFE, 1, 2, 5, 2, 0xFC, 5, 0xFE, 2, 2, 9, 9],
        );
        assert_eq!(raised, Ok(vec![2, 2, 2, 3, 2, 2]));
    }

    #[test]
    fn the_response_page_follows_the_reported_numbers() {
        let mut record = board(CLIENT);
        let data = [
            0xFF, 9, 0xFC, 2, 1, 1, 0xFC, 1, 0xFF, 4, 0, 3, 0xFF, 4, 1, 0xFF, 0, 1,
        ];
        let expected = vec![0xFF, 4, 0, 0, 0xFD, 3, 1, 0, 0xFF, 0, 1, 0];
        assert_eq!(own(&mut record, 1, &data), Ok(expected));
    }

    #[test]
    fn texts_are_reported_at_their_length() {
        let mut record = board(CLIENT);
        let data = [0xFE, 2, 0x95, 0x41, 0x42, 0x95, 0x43, 0x95, 0x7F];
        let expected = vec![0xFE, 2, 0x95, 0x41, 0x42, 0x95, 0x43, 0x95, 0x43];
        assert_eq!(own(&mut record, 3, &data), Ok(expected));
    }

    #[test]
    fn the_schedule_is_read_and_written_by_01_02_and_03() {
        let mut record = board(CLIENT);
        let group = [0xFE, 6, 0x77, 9, 4, 5, 30, 59, 23];
        assert_eq!(own(&mut record, 2, &group), Ok(vec![]));
        let reads = [
            0xFE, 2, 0x77, 6, 4, 0xFE, 2, 0x77, 7, 4, 0xFE, 2, 0x77, 5, 4,
        ];
        let expected = [
            [0xFE, 6, 0x77, 6, 4, 5, 30, 59, 23],
            [0xFE, 6, 0x77, 7, 4, 5, 30, 59, 23],
            [0xFE, 6, 0x77, 5, 4, 0, 0, 0, 0],
        ];
        assert_eq!(own(&mut record, 1, &reads), Ok(expected.concat()));
        let before = record.clone();
        let bad = [0xFE, 6, 0x77, 9, 4, 5, 30, 60, 23];
        assert_eq!(own(&mut record, 3, &bad), Ok(expected[0].to_vec()));
        assert_eq!(own(&mut record, 2, &bad), Ok(vec![]));
        assert_eq!(record, before);
        let written = own(&mut record, 3, &[0xFE, 6, 0x77, 8, 1, 1, 15, 0, 0]);
        assert_eq!(written, Ok(vec![0xFE, 6, 0x77, 1, 1, 1, 15, 0, 0]));
        assert_eq!(record.values, before.values);
        assert_eq!(record.schedule.entry(5, 1), &[1, 15, 0, 0]);
    }

    #[test]
    fn faults_of_the_schedule_are_unknown_and_under_02_silent() {
        let mut record = board(ACCESS_POINT);
        let before = record.clone();
        for (functions, data) in [
            (&[1, 4, 5][..], &[0x77][..]),
            (&[1, 3, 4, 5], &[0xFE, 1, 0x77, 1]),
            (&[1, 3, 4, 5], &[0xFE, 2, 0x77, 8, 1]),
            (&[3, 4, 5], &[0xFE, 2, 0x77, 1, 1]),
            (&[1, 4, 5], &[0xFE, 6, 0x77, 1, 1, 5, 30, 0, 0]),
            (&[3], &[0xFE, 6, 0x77, 10, 1, 5, 30, 0, 0]),
            (&[3], &[0xFE, 6, 0x77, 1, 5, 5, 30, 0, 0]),
            (&[3], &[0xFE, 7, 0x77, 1, 1, 5, 30, 0, 0, 0]),
        ] {
            for function in functions {
                let answer = own(&mut record, *function, data);
                assert_eq!(answer, Ok(vec![0xFD, 0x77]), "{function} {data:?}");
            }
            if functions.contains(&3) {
                assert_eq!(own(&mut record, 2, data), Ok(vec![]));
            }
        }
        let other_page = [0xFF, 1, 0xFE, 6, 0x77, 1, 1, 5, 30, 0, 0];
        assert_eq!(
            own(&mut record, 3, &other_page),
            Ok(vec![0xFF, 1, 0xFD, 0x77])
        );
        assert_eq!(record, before);
    }

    #[test]
    fn a_search_passes_the_schedule_over() {
        let mut record = board(CLIENT);
        let data = [0xFE, 2, 0x77, 1, 1, 0xB9, 0xFE, 2, 0x77, 8, 1, 0x77];
        let answer = search(&mut record, 1, &data);
        assert_eq!(answer, Ok(vec![0xFE, 2, 0xB9, 2, 0]));
        assert_eq!(search(&mut record, 1, &data[..5]), Ok(vec![]));
    }

    #[test]
    fn an_entry_outside_its_fields_is_refused_first() {
        let mut record = board(CLIENT);
        record.schedule.poke(3, 2, &[0, 14, 0, 0]);
        let illegal = Err(Refusal::IllegalRecord);
        assert_eq!(own(&mut record, 1, &[1]), Err(Refusal::IllegalRecord));
        assert_eq!(
            packet(&mut record, &[], &mut []),
            Err(Refusal::IllegalRecord)
        );
        assert_eq!(measure(&mut record, schedule::NUMBER, &[]), illegal);
        record.schedule.poke(3, 2, &[0, 15, 0, 0]);
        assert_eq!(measure(&mut record, 0x0006, &[1]), Ok(()));
    }

    #[test]
    fn measurements() {
        let mut record = board(CLIENT);
        let mut expected = record.clone();
        expected.values.insert(0x001E, vec![0xCE, 0xFF]);
        assert_eq!(measure(&mut record, 0x001E, &[0xCE, 0xFF]), Ok(()));
        assert_eq!(record, expected);
        for number in [0x007C, 0x00B9, 0x0001, 0x0063, 0x0077, 0xFFFF] {
            assert_eq!(measure(&mut record, number, &[]), Err(Refusal::NotMeasured));
        }
        for length in [0, 1, 3] {
            let answer = measure(&mut record, 0x0111, &vec![0; length]);
            assert_eq!(answer, Err(Refusal::MeasurementLength));
        }
        assert_eq!(record, expected);
        record.mode = 3;
        assert_eq!(
            measure(&mut record, 0x007C, &[]),
            Err(Refusal::IllegalRecord)
        );
    }

    #[test]
    fn a_search_reports_the_type_of_the_board() {
        for unit_type in units::ALL {
            let mut record = board_of(unit_type, CLIENT);
            let answer = search(&mut record, 1, &[0xB9, 0x77, 0x16]);
            assert_eq!(answer, Ok(vec![0xFE, 2, 0xB9, unit_type, 0]));
        }
    }

    #[test]
    fn rows_that_a_type_lacks_are_unknown() {
        for (unit_type, known, unknown) in [
            (
                2,
                &[0x9F, 0x63, 0x3A][..],
                &[0x16, 0x2D, 0x44, 0xB7, 0xB8][..],
            ),
            (
                3,
                &[0x16, 0x2D, 0x63, 0x3A, 0xB8],
                &[0x9F, 0x93, 0xA1, 0x09, 0x77],
            ),
            (4, &[0x16, 0x2D, 0xB8, 0x44], &[0x63, 0x3A, 0x3F, 0x77]),
            (
                5,
                &[0x44, 0x19, 0xB7],
                &[0x16, 0x2D, 0xB8, 0x63, 0x3A, 0x77],
            ),
        ] {
            let mut record = board_of(unit_type, CLIENT);
            let before = record.clone();
            for low in unknown {
                for function in [1, 4, 5] {
                    assert_eq!(own(&mut record, function, &[*low]), Ok(vec![0xFD, *low]));
                }
                assert_eq!(own(&mut record, 3, &[*low, 1]), Ok(vec![0xFD, *low]));
                assert_eq!(own(&mut record, 2, &[*low, 1]), Ok(vec![]));
                let number = u16::from(*low);
                assert_eq!(
                    measure(&mut record, number, &[0]),
                    Err(Refusal::NotMeasured)
                );
            }
            for low in known {
                assert_ne!(own(&mut record, 1, &[*low]), Ok(vec![0xFD, *low]));
            }
            assert_eq!(record, before);
        }
    }

    #[test]
    fn measurements_have_the_size_of_the_type() {
        for (unit_type, size) in [(2, 4), (3, 3), (4, 3), (5, 3)] {
            let mut record = board_of(unit_type, ACCESS_POINT);
            let value = vec![0xFF; size];
            assert_eq!(measure(&mut record, 0x0064, &value), Ok(()));
            assert_eq!(record.values[&0x0064], value);
            assert_eq!(
                measure(&mut record, 0x0064, &vec![0; 7 - size]),
                Err(Refusal::MeasurementLength)
            );
        }
    }
}
