//! The tool: writes request packets and reads responses. It knows no rows.

use crate::block::{self, Command, LAST_LOW_BYTE, Report};
use crate::packet::{self, CODE_WORD, ID_SIZE, LONGEST, RESPONSE};
use crate::refusal::Refusal;

/// The longest value that FE can announce.
const LONGEST_VALUE: usize = 255;

/// Writes a request to the front of the buffer and gives its length. Checks 1, 40, 21, 42, 43.
pub fn write(
    buffer: &mut [u8],
    id: &[u8],
    password: &[u8],
    commands: &[Command],
) -> Result<usize, Refusal> {
    if buffer.len() < LONGEST {
        return Err(Refusal::SmallBuffer);
    }
    check_identity(id, password)?;
    if !commands.iter().all(is_writable) {
        return Err(Refusal::Command);
    }
    let data = block::write_request(commands);
    let request = packet::write(id, password, block::first_function(commands), &data);
    if request.len() > LONGEST {
        return Err(Refusal::LongPacket);
    }
    buffer[..request.len()].copy_from_slice(&request);
    Ok(request.len())
}

/// Checks 40 and 21. The code word is an ID here.
fn check_identity(id: &[u8], password: &[u8]) -> Result<(), Refusal> {
    if id.len() != ID_SIZE {
        return Err(Refusal::ToolId);
    }
    if !packet::is_legal_password(password) {
        return Err(Refusal::IllegalPassword);
    }
    Ok(())
}

/// Whether none of the conditions of 42 holds.
fn is_writable(command: &Command) -> bool {
    let [_, low] = command.number.to_be_bytes();
    let value_is_missing = matches!(command.function, 2 | 3) && command.value.is_empty();
    (1..=5).contains(&command.function)
        && low <= LAST_LOW_BYTE
        && command.value.len() <= LONGEST_VALUE
        && !value_is_missing
}

/// Reads a response to what was asked of this ID with this password. Checks 40, 21, then 2 to 10.
pub fn read(id: &[u8], password: &[u8], response: &[u8]) -> Result<Vec<Report>, Refusal> {
    check_identity(id, password)?;
    let frame = packet::read(response)?;
    if id != CODE_WORD && frame.id != id {
        return Err(Refusal::Id);
    }
    if frame.password != password {
        return Err(Refusal::Password);
    }
    read_reports(frame.function, frame.data)
}

/// Checks 9 and 10 of a response.
pub fn read_reports(function: u8, data: &[u8]) -> Result<Vec<Report>, Refusal> {
    if function != RESPONSE {
        return Err(Refusal::Function);
    }
    block::read_response(data).ok_or(Refusal::Malformed)
}

#[cfg(test)]
mod tests {
    use super::*;

    const ID: [u8; 16] = [0; 16];

    fn command(function: u8, number: u16, length: usize) -> Command {
        let value = vec![1; length];
        Command {
            function,
            number,
            value,
        }
    }

    fn written(id: &[u8], password: &[u8], commands: &[Command]) -> Result<usize, Refusal> {
        write(&mut [0xA5; 256], id, password, commands)
    }

    #[test]
    fn the_guides_read_is_written_and_the_rest_of_the_buffer_stays() {
        let mut buffer = [0xA5; 300];
        let list = [command(1, 1, 0), command(1, 2, 0)];
        assert_eq!(write(&mut buffer, &ID, b"1111", &list), Ok(30));
        assert_eq!(
            buffer[20..30],
            [4, 0x31, 0x31, 0x31, 0x31, 1, 1, 2, 0xDE, 0]
        );
        assert!(buffer[30..].iter().all(|byte| *byte == 0xA5));
    }

    #[test]
    fn writing_is_refused_in_the_order_listed() {
        let bad = [command(0, 1, 0)];
        let mut small = [0xA5; 255];
        assert_eq!(
            write(&mut small, &[], b"*", &bad),
            Err(Refusal::SmallBuffer)
        );
        assert_eq!(write(&mut small, &ID, b"", &[]), Err(Refusal::SmallBuffer));
        assert_eq!(written(&ID[1..], b"*", &bad), Err(Refusal::ToolId));
        assert_eq!(written(&ID, b"*", &bad), Err(Refusal::IllegalPassword));
        assert_eq!(
            written(&ID, b"123456789", &bad),
            Err(Refusal::IllegalPassword)
        );
        let long_and_bad = [command(3, 1, 255), command(0, 1, 0)];
        assert_eq!(written(&ID, b"", &long_and_bad), Err(Refusal::Command));
        assert_eq!(
            written(&ID, b"", &long_and_bad[..1]),
            Err(Refusal::LongPacket)
        );
        assert_eq!(written(&CODE_WORD, b"", &[]), Ok(24));
    }

    #[test]
    fn commands_that_cannot_be_written() {
        for bad in [
            command(0, 1, 1),
            command(6, 1, 1),
            command(255, 1, 1),
            command(1, 0x00FC, 0),
            command(1, 0x01FF, 0),
            command(1, 1, 256),
            command(2, 1, 0),
            command(3, 1, 0),
        ] {
            assert_eq!(written(&ID, b"", &[bad]), Err(Refusal::Command));
        }
        for good in [command(1, 0xFFFB, 0), command(4, 0, 1), command(5, 0x77, 2)] {
            assert!(written(&ID, b"", &[good]).is_ok());
        }
    }

    #[test]
    fn packets_of_256_bytes_are_written() {
        let fits = [command(3, 1, 229)];
        assert_eq!(written(&ID, b"", &fits), Ok(256));
        assert_eq!(written(&ID, b"1", &fits), Err(Refusal::LongPacket));
        assert_eq!(
            written(&ID, b"", &[command(3, 1, 230)]),
            Err(Refusal::LongPacket)
        );
    }

    #[test]
    fn reading_is_refused_in_the_order_listed() {
        let good = packet::write(&ID, b"1111", 6, &[1, 0]);
        let bad_block = packet::write(&ID, b"1111", 6, &[1]);
        let request = packet::write(&ID, b"1111", 1, &[1]);
        assert_eq!(read(&[], b"*", &[]), Err(Refusal::ToolId));
        assert_eq!(read(&ID, b"*", &[]), Err(Refusal::IllegalPassword));
        assert_eq!(read(&ID, b"1111", &good[1..]), Err(Refusal::Start));
        assert_eq!(read(&[1; 16], b"", &request), Err(Refusal::Id));
        assert_eq!(read(&ID, b"111", &request), Err(Refusal::Password));
        assert_eq!(read(&CODE_WORD, b"1112", &request), Err(Refusal::Password));
        assert_eq!(read(&ID, b"1111", &request), Err(Refusal::Function));
        assert_eq!(read(&ID, b"1111", &bad_block), Err(Refusal::Malformed));
        let report = Report::Value {
            number: 1,
            value: vec![0],
        };
        assert_eq!(read(&ID, b"1111", &good), Ok(vec![report.clone()]));
        assert_eq!(read(&CODE_WORD, b"1111", &good), Ok(vec![report]));
    }
}
