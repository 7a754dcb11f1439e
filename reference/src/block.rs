//! Data blocks: the commands of a request and the reports of a response. This layer knows no rows.

use crate::reader::Reader;

/// Special command: the next byte is the new function.
pub const CHANGE_FUNCTION: u8 = 0xFC;
/// Special command of a response: the next byte is an unknown parameter.
pub const UNKNOWN: u8 = 0xFD;
/// Special command: size, parameter, and a value of that size.
pub const CHANGE_SIZE: u8 = 0xFE;
/// Special command: the next byte is the new page.
pub const CHANGE_PAGE: u8 = 0xFF;
/// The last low byte of a parameter number; the bytes above it are special commands.
pub const LAST_LOW_BYTE: u8 = 0xFB;

/// One command of a request. The value is what the packet carries, also where the function ignores it.
#[derive(Clone, Debug, PartialEq, Eq)]
pub struct Command {
    pub function: u8,
    pub number: u16,
    pub value: Vec<u8>,
}

/// A well-formed request block.
#[derive(Debug, PartialEq, Eq)]
pub struct Request {
    pub commands: Vec<Command>,
    /// FUNC, and the function of each FC item.
    pub functions: Vec<u8>,
}

/// One report of a response.
#[derive(Clone, Debug, PartialEq, Eq)]
pub enum Report {
    Value { number: u16, value: Vec<u8> },
    Unknown { number: u16 },
}

impl Reader<'_> {
    /// What follows FE: size, low byte and value.
    fn sized(&mut self) -> Option<(u8, Vec<u8>)> {
        let size = self.byte()?;
        let low = self.low_byte()?;
        if size == 0 {
            return None;
        }
        Some((low, self.bytes(usize::from(size))?.to_vec()))
    }

    fn low_byte(&mut self) -> Option<u8> {
        self.byte().filter(|low| *low <= LAST_LOW_BYTE)
    }
}

/// Whether a value follows the parameter by default.
fn carries_value(function: u8) -> bool {
    function == 2 || function == 3
}

fn number(page: u8, low: u8) -> u16 {
    u16::from_be_bytes([page, low])
}

/// The request block of FUNC `function`, 1 to 5; none if it is malformed.
pub fn read_request(function: u8, data: &[u8]) -> Option<Request> {
    let mut reader = Reader { rest: data };
    let mut request = Request {
        commands: Vec::new(),
        functions: vec![function],
    };
    let mut function = function;
    let mut page = 0;
    while !reader.rest.is_empty() {
        let (low, value) = match reader.byte()? {
            CHANGE_PAGE => {
                page = reader.byte()?;
                continue;
            }
            CHANGE_FUNCTION => {
                function = reader.byte().filter(|new| (1..=5).contains(new))?;
                request.functions.push(function);
                continue;
            }
            UNKNOWN => return None,
            CHANGE_SIZE => reader.sized()?,
            low if carries_value(function) => (low, vec![reader.byte()?]),
            low => (low, Vec::new()),
        };
        request.commands.push(Command {
            function,
            number: number(page, low),
            value,
        });
    }
    Some(request)
}

/// The reports of a response block; none if it is malformed.
pub fn read_response(data: &[u8]) -> Option<Vec<Report>> {
    let mut reader = Reader { rest: data };
    let mut reports = Vec::new();
    let mut page = 0;
    while !reader.rest.is_empty() {
        let (low, value) = match reader.byte()? {
            CHANGE_PAGE => {
                page = reader.byte()?;
                continue;
            }
            CHANGE_FUNCTION => return None,
            UNKNOWN => {
                let number = number(page, reader.low_byte()?);
                reports.push(Report::Unknown { number });
                continue;
            }
            CHANGE_SIZE => reader.sized()?,
            low => (low, vec![reader.byte()?]),
        };
        reports.push(Report::Value {
            number: number(page, low),
            value,
        });
    }
    Some(reports)
}

/// Appends FF where the page changes.
fn write_page(data: &mut Vec<u8>, page: &mut u8, number: u16) {
    let [high, _] = number.to_be_bytes();
    if high != *page {
        data.extend_from_slice(&[CHANGE_PAGE, high]);
        *page = high;
    }
}

/// Appends FE where the length is not the default, then the low byte and the value.
fn write_value(data: &mut Vec<u8>, number: u16, value: &[u8], default_length: usize) {
    if value.len() != default_length {
        data.extend_from_slice(&[CHANGE_SIZE, value.len() as u8]);
    }
    data.push(number.to_be_bytes()[1]);
    data.extend_from_slice(value);
}

/// FUNC of a list of commands: that of the first, 1 for none.
pub fn first_function(commands: &[Command]) -> u8 {
    commands.first().map_or(1, |command| command.function)
}

/// The shortest request block of the commands, to be sent under `first_function`.
pub fn write_request(commands: &[Command]) -> Vec<u8> {
    let mut data = Vec::new();
    let mut function = first_function(commands);
    let mut page = 0;
    for command in commands {
        if command.function != function {
            function = command.function;
            data.extend_from_slice(&[CHANGE_FUNCTION, function]);
        }
        write_page(&mut data, &mut page, command.number);
        let default_length = usize::from(carries_value(function));
        write_value(&mut data, command.number, &command.value, default_length);
    }
    data
}

/// The shortest response block of the reports.
pub fn write_response(reports: &[Report]) -> Vec<u8> {
    let mut data = Vec::new();
    let mut page = 0;
    for report in reports {
        match report {
            Report::Value { number, value } => {
                write_page(&mut data, &mut page, *number);
                write_value(&mut data, *number, value, 1);
            }
            Report::Unknown { number } => {
                write_page(&mut data, &mut page, *number);
                data.extend_from_slice(&[UNKNOWN, number.to_be_bytes()[1]]);
            }
        }
    }
    data
}

#[cfg(test)]
mod tests {
    use super::*;

    fn command(function: u8, number: u16, value: &[u8]) -> Command {
        let value = value.to_vec();
        Command {
            function,
            number,
            value,
        }
    }

    fn commands(function: u8, data: &[u8]) -> Option<Vec<Command>> {
        read_request(function, data).map(|request| request.commands)
    }

    fn value(number: u16, value: &[u8]) -> Report {
        let value = value.to_vec();
        Report::Value { number, value }
    }

    #[test]
    fn the_guides_write_is_three_commands() {
        let data = [0x9B, 2, 0xFE, 4, 0x70, 4, 0x85, 0x37, 0x42, 7, 1];
        let expected = vec![
            command(3, 0x009B, &[2]),
            command(3, 0x0070, &[4, 0x85, 0x37, 0x42]),
            command(3, 0x0007, &[1]),
        ];
        assert_eq!(commands(3, &data), Some(expected.clone()));
        assert_eq!(write_request(&expected), data);
        let reports = [
            value(0x009B, &[2]),
            value(0x0070, &[4, 0x85, 0x37, 0x42]),
            value(0x0007, &[1]),
        ];
        assert_eq!(read_response(&data), Some(reports.to_vec()));
        assert_eq!(write_response(&reports), data);
    }

    #[test]
    fn the_guides_read_changes_the_page_twice() {
        let data = [0xFF, 1, 1, 4, 0xFF, 2, 0x40];
        let expected = vec![
            command(1, 0x0101, &[]),
            command(1, 0x0104, &[]),
            command(1, 0x0240, &[]),
        ];
        assert_eq!(commands(1, &data), Some(expected.clone()));
        assert_eq!(write_request(&expected), data);
    }

    #[test]
    fn the_guides_response_has_an_unknown_parameter() {
        let data = [0xFF, 1, 0xFD, 1, 4, 5, 0xFF, 2, 0xFE, 2, 0x40, 0x51, 0x68];
        let expected = vec![
            Report::Unknown { number: 0x0101 },
            value(0x0104, &[5]),
            value(0x0240, &[0x51, 0x68]),
        ];
        assert_eq!(read_response(&data), Some(expected.clone()));
        assert_eq!(write_response(&expected), data);
    }

    #[test]
    fn malformed_requests() {
        let malformed: [(u8, &[u8]); 22] = [
            (1, &[0xFD]),
            (1, &[0xFD, 1]),
            (3, &[1, 1, 0xFD, 1]),
            (1, &[0xFC]),
            (1, &[0xFC, 0]),
            (1, &[0xFC, 6]),
            (1, &[0xFC, 0xFF]),
            (1, &[0xFF]),
            (1, &[1, 0xFF]),
            (1, &[0xFE]),
            (1, &[0xFE, 1]),
            (1, &[0xFE, 1, 1]),
            (1, &[0xFE, 2, 1, 1]),
            (1, &[0xFE, 0, 1]),
            (3, &[0xFE, 0, 1, 1]),
            (3, &[0xFE, 1, 0xFC, 1]),
            (3, &[0xFE, 1, 0xFD, 1]),
            (3, &[0xFE, 1, 0xFE, 1]),
            (3, &[0xFE, 1, 0xFF, 1]),
            (2, &[1]),
            (3, &[1, 1, 0xFE, 2, 0x63, 0x46]),
            (1, &[1, 0xFC, 2, 1]),
        ];
        for (function, data) in malformed {
            assert_eq!(read_request(function, data), None, "{function} {data:02X?}");
        }
    }

    #[test]
    fn well_formed_requests_at_the_edges() {
        for function in 1..=5 {
            for data in [
                &[][..],
                &[0xFF, 0xFF],
                &[0xFC, 5],
                &[0xFF, 1, 0xFC, 1, 0xFF, 0],
            ] {
                assert_eq!(commands(function, data), Some(vec![]));
            }
            let sized = commands(function, &[0xFE, 2, 0xFB, 0xFC, 0xFD]);
            assert_eq!(sized, Some(vec![command(function, 0x00FB, &[0xFC, 0xFD])]));
        }
        assert_eq!(
            commands(2, &[0, 0xFF, 0xFB, 0xFD]),
            Some(vec![command(2, 0, &[0xFF]), command(2, 0xFB, &[0xFD])])
        );
    }

    #[test]
    fn page_outlives_a_function_change_and_size_does_not_outlive_its_parameter() {
        let data = [0xFF, 4, 0xFC, 3, 0, 7, 0xFE, 2, 1, 8, 9, 2, 1];
        let expected = vec![
            command(3, 0x0400, &[7]),
            command(3, 0x0401, &[8, 9]),
            command(3, 0x0402, &[1]),
        ];
        assert_eq!(commands(1, &data), Some(expected));
    }

    #[test]
    fn every_function_change_is_kept_for_the_search() {
        let request = read_request(1, &[0xFC, 2, 0xFC, 1, 0x7C, 0xFE, 2, 1, 0xFC, 3]).unwrap();
        assert_eq!(request.functions, [1, 2, 1]);
    }

    #[test]
    fn writers_change_the_function_before_the_page() {
        let list = [
            command(2, 0x0402, &[1]),
            command(4, 0x0002, &[]),
            command(4, 0x0003, &[9]),
            command(3, 0x0063, &[70, 0]),
        ];
        let data = [
            0xFF, 4, 2, 1, 0xFC, 4, 0xFF, 0, 2, 0xFE, 1, 3, 9, 0xFC, 3, 0xFE, 2, 0x63, 70, 0,
        ];
        assert_eq!(write_request(&list), data);
        assert_eq!(commands(2, &data), Some(list.to_vec()));
        assert_eq!((first_function(&list), first_function(&[])), (2, 1));
    }

    #[test]
    fn malformed_responses() {
        let malformed: [&[u8]; 14] = [
            &[1],
            &[0xFC],
            &[0xFC, 1],
            &[1, 0, 0xFC, 1],
            &[0xFD],
            &[0xFD, 0xFC],
            &[0xFD, 0xFF],
            &[0xFF],
            &[0xFE, 1, 1],
            &[0xFE, 0, 1],
            &[0xFE, 0, 1, 1],
            &[0xFE, 1, 0xFC, 1],
            &[0xFE, 2, 1, 1],
            &[0xFE, 1],
        ];
        for data in malformed {
            assert_eq!(read_response(data), None, "{data:02X?}");
        }
    }

    #[test]
    fn well_formed_responses_at_the_edges() {
        assert_eq!(read_response(&[]), Some(vec![]));
        assert_eq!(read_response(&[0xFF, 1, 0xFF, 2]), Some(vec![]));
        assert_eq!(
            read_response(&[0xFD, 0xFB, 0xFE, 1, 0, 0xFF, 1, 0xFC, 0xFF, 9]),
            Some(vec![
                Report::Unknown { number: 0x00FB },
                value(0, &[0xFF]),
                value(1, &[0xFC])
            ])
        );
    }
}
