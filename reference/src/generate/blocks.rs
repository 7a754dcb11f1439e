//! Data blocks of requests and responses, in shortest and in loose form, well formed or not.

use super::{schedule, values};
use crate::block::{self, CHANGE_FUNCTION, CHANGE_PAGE, CHANGE_SIZE, Command, Report, UNKNOWN};
use crate::random::Random;
use crate::schedule::NUMBER;

/// A command with a value that its function calls for, rarely one that it ignores.
pub fn command(random: &mut Random, function: u8) -> Command {
    let number = values::number(random);
    let carries = matches!(function, 2 | 3) || random.chance(8);
    let value = match number {
        _ if is_like_schedule(number) => schedule::value(random, function),
        _ if carries => values::value(random, number),
        _ => Vec::new(),
    };
    Command {
        function,
        number,
        value,
    }
}

/// Whether the low byte is that of 0077, on whatever page.
fn is_like_schedule(number: u16) -> bool {
    number % 0x0100 == NUMBER
}

/// Commands whose function changes now and then.
pub fn commands(random: &mut Random, count: usize) -> Vec<Command> {
    let mut function = random.between(1, 5) as u8;
    let mut list = Vec::new();
    for _ in 0..count {
        if random.chance(30) {
            function = random.between(1, 5) as u8;
        }
        list.push(command(random, function));
    }
    list
}

/// A well-formed request block for FUNC `function`, of at most `room` bytes.
pub fn request(random: &mut Random, function: u8, room: usize) -> Vec<u8> {
    if random.chance(20) {
        return shortest_request(random, function, room);
    }
    let mut data = Vec::new();
    let (mut function, mut page) = (function, 0);
    for _ in 0..random.between(0, 10) {
        let item = match random.between(0, 9) {
            0 => {
                page = random.pick(&[0, 0, 1, 1, 2, 4, 4, 0xFC, 0xFF]);
                vec![CHANGE_PAGE, page]
            }
            1 | 2 => {
                function = random.between(1, 5) as u8;
                vec![CHANGE_FUNCTION, function]
            }
            _ => {
                let command = command(random, function);
                loose_command(random, &mut page, &command)
            }
        };
        if data.len() + item.len() > room {
            break;
        }
        data.extend_from_slice(&item);
    }
    data
}

fn shortest_request(random: &mut Random, function: u8, room: usize) -> Vec<u8> {
    let count = random.between(0, 8);
    let mut list = commands(random, count);
    if let Some(first) = list.first_mut() {
        *first = command(random, function);
    }
    while block::write_request(&list).len() > room {
        list.pop();
    }
    block::write_request(&list)
}

/// A command that may carry more special commands than it needs.
fn loose_command(random: &mut Random, page: &mut u8, command: &Command) -> Vec<u8> {
    let mut item = Vec::new();
    let [high, low] = command.number.to_be_bytes();
    if high != *page || random.chance(5) {
        item.extend_from_slice(&[CHANGE_PAGE, high]);
        *page = high;
    }
    let default_length = usize::from(matches!(command.function, 2 | 3));
    let forced = !command.value.is_empty() && random.chance(10);
    if command.value.len() != default_length || forced {
        item.extend_from_slice(&[CHANGE_SIZE, command.value.len() as u8]);
    }
    item.push(low);
    item.extend_from_slice(&command.value);
    item
}

/// Makes a request block malformed in most cases: a bad item somewhere, or a cut.
pub fn spoil_request(random: &mut Random, data: &mut Vec<u8>) {
    let bad: [&[u8]; 17] = [
        &[0xFD],
        &[0xFD, 0x01],
        &[0xFC],
        &[0xFC, 0x00],
        &[0xFC, 0x06],
        &[0xFC, 0xFF],
        &[0xFF],
        &[0xFE],
        &[0xFE, 0x00],
        &[0xFE, 0x01],
        &[0xFE, 0x00, 0x01],
        &[0xFE, 0x02, 0x63, 0x46],
        &[0xFE, 0x01, 0xFC, 0x01],
        &[0xFE, 0x01, 0xFD, 0x01],
        &[0xFE, 0x01, 0xFE, 0x01],
        &[0xFE, 0x01, 0xFF, 0x01],
        &[0xFE, 0xFF, 0x01, 0x01],
    ];
    match random.between(0, 3) {
        0 => data.extend_from_slice(random.pick(&bad)),
        1 => {
            let place = random.between(0, data.len());
            let item = random.pick(&bad);
            data.splice(place..place, item.iter().copied());
        }
        2 => data.truncate(data.len().saturating_sub(1)),
        _ => {
            let length = random.between(0, data.len());
            data.truncate(length);
        }
    }
}

/// A response block: reports in shortest or loose form.
pub fn response(random: &mut Random, room: usize) -> Vec<u8> {
    let mut reports = Vec::new();
    for _ in 0..random.between(0, 9) {
        let number = values::number(random);
        reports.push(if random.chance(20) {
            Report::Unknown { number }
        } else {
            let mut value = values::value(random, number);
            if random.chance(4) {
                let length = random.between(1, room.max(1));
                value = random.bytes(length);
            }
            Report::Value { number, value }
        });
    }
    while block::write_response(&reports).len() > room {
        reports.pop();
    }
    let mut data = block::write_response(&reports);
    // Forms that readers take though no writer makes them.
    let loose: [&[u8]; 6] = [
        &[CHANGE_PAGE, 3, CHANGE_PAGE, 0],
        &[CHANGE_SIZE, 1, 2, 3],
        &[UNKNOWN, 0xFB],
        &[0xFB, 0xFF],
        &[0x00, 0xFC],
        &[CHANGE_PAGE, 0xFF],
    ];
    if random.chance(25) && data.len() + 4 <= room {
        data.extend_from_slice(random.pick(&loose));
    }
    data
}

/// Makes a response block malformed in most cases.
pub fn spoil_response(random: &mut Random, data: &mut Vec<u8>) {
    let bad: [&[u8]; 14] = [
        &[0x01],
        &[0xFC],
        &[0xFC, 0x01],
        &[0xFC, 0x06],
        &[0xFC, 0x01, 0x02, 0x03],
        &[0xFD],
        &[0xFD, 0xFC],
        &[0xFD, 0xFF],
        &[0xFF],
        &[0xFE, 0x01],
        &[0xFE, 0x00, 0x01],
        &[0xFE, 0x01, 0xFC, 0x01],
        &[0xFE, 0x01, 0xFF, 0x01],
        &[0xFE, 0x02, 0x63, 0x46],
    ];
    match random.between(0, 3) {
        0 => data.extend_from_slice(random.pick(&bad)),
        1 => {
            let place = random.between(0, data.len());
            let item = random.pick(&bad);
            data.splice(place..place, item.iter().copied());
        }
        2 => data.truncate(data.len().saturating_sub(1)),
        _ => {
            let length = random.between(0, data.len());
            data.truncate(length);
        }
    }
}

#[cfg(test)]
mod tests {
    use super::*;

    #[test]
    fn blocks_are_well_formed_until_they_are_spoiled() {
        let mut random = Random::new(4);
        let (mut spoiled_requests, mut spoiled_responses) = (0, 0);
        for _ in 0..3_000 {
            let function = random.between(1, 5) as u8;
            let room = random.between(0, 232);
            let mut data = request(&mut random, function, room);
            assert!(data.len() <= room && block::read_request(function, &data).is_some());
            spoil_request(&mut random, &mut data);
            spoiled_requests += usize::from(block::read_request(function, &data).is_none());
            let mut data = response(&mut random, room);
            assert!(data.len() <= room && block::read_response(&data).is_some());
            spoil_response(&mut random, &mut data);
            spoiled_responses += usize::from(block::read_response(&data).is_none());
        }
        assert!(spoiled_requests > 1_000 && spoiled_responses > 1_000);
    }
}
