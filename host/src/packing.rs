//! How many commands a packet takes: as many as its request and its response have room for. That one packet reports and leaves what its
//! commands would one by one is proved of the exported calls (`ExportedPacketsJoin`, docs/CLAIMS.md), for packets with no call between them.

use crate::answer;
use crate::ffi::{self, Command, DEFAULT_ID, WRITE};
use crate::refusal::Refusal;
use crate::rows::{self, Row};
use crate::unit_type::UnitType;

/// The commands to a board of the unit type joined in packets, in their order, or why one of them can be written in none: so nothing is sent
/// before that is known.
pub fn pack<'a>(
    unit_type: UnitType,
    commands: &'a [Command],
    password: &[u8],
) -> Result<Vec<&'a [Command]>, Refusal> {
    let mut packets = Vec::new();
    let mut rest = commands;
    while !rest.is_empty() {
        let sizes = 1..=rest.len();
        let fitting = sizes.take_while(|size| fits(unit_type, &rest[..*size], password));
        let (packet, others) = rest.split_at(fitting.last().unwrap_or(1));
        ffi::write(&DEFAULT_ID, password, packet)?;
        packets.push(packet);
        rest = others;
    }
    Ok(packets)
}

/// Whether some commands fit one packet, and their reports one response.
pub fn fits(unit_type: UnitType, commands: &[Command], password: &[u8]) -> bool {
    let longest = |command: &Command| longest_report(unit_type, command.number);
    let reports: Vec<Command> = answer::reported(commands).map(longest).collect();
    is_short(commands, password) && is_short(&reports, password)
}

/// The library's writer says how long a packet becomes.
fn is_short(commands: &[Command], password: &[u8]) -> bool {
    const TOO_LONG: Refusal = Refusal(43);
    ffi::write(&DEFAULT_ID, password, commands) != Err(TOO_LONG)
}

/// A write that takes the room of the longest report that a command can have: what is written is encoded as what is reported.
fn longest_report(unit_type: UnitType, number: u16) -> Command {
    Command::new(WRITE, number, &vec![0; longest_value(unit_type, number)])
}

/// The longest value of a row. A number that the table lacks may be a row of the guide, and those are not longer than the longest here.
fn longest_value(unit_type: UnitType, number: u16) -> usize {
    let longest = |row: &Row| *row.size.range().end();
    let any = || rows::of(unit_type).map(longest).max().unwrap_or(0);
    rows::find(unit_type, number).map_or_else(any, longest)
}

#[cfg(test)]
mod tests {
    use super::*;
    use crate::ffi::Answer;
    use crate::report::{self, Report};

    const ID: &[u8] = b"002D6E1B34565815";
    const MICRA: UnitType = UnitType::Micra;

    fn pack<'a>(commands: &'a [Command], password: &[u8]) -> Result<Vec<&'a [Command]>, Refusal> {
        super::pack(MICRA, commands, password)
    }

    fn fits(commands: &[Command], password: &[u8]) -> bool {
        super::fits(MICRA, commands, password)
    }

    fn command(function: u8, number: u16, length: usize) -> Command {
        Command::new(function, number, &vec![b'1'; length])
    }

    fn reads() -> Vec<Command> {
        reads_of(MICRA)
    }

    fn reads_of(unit_type: UnitType) -> Vec<Command> {
        let read = |row: &Row| match row.number {
            0x0077 => Command::new(1, 0x0077, &[1, 1]),
            number => command(1, number, 0),
        };
        rows::of(unit_type).map(read).collect()
    }

    fn board(password: &[u8]) -> ffi::Board {
        board_of(MICRA, password)
    }

    /// A board whose texts are the longest.
    fn board_of(unit_type: UnitType, password: &[u8]) -> ffi::Board {
        let Ok(mut board) = ffi::set_up(ID, password, 1, unit_type.number()) else {
            panic!("this board is set up");
        };
        let texts = [command(2, 0x95, 32), command(2, 0x96, 64)];
        let packet = ffi::write(ID, password, &texts).expect("a request");
        assert_eq!(ffi::packet(&mut board, &packet), Answer::Silence);
        board
    }

    fn is_answered(commands: &[Command], password: &[u8]) -> bool {
        is_answered_by(MICRA, commands, password)
    }

    fn is_answered_by(unit_type: UnitType, commands: &[Command], password: &[u8]) -> bool {
        ffi::write(ID, password, commands).is_ok_and(|packet| {
            let answer = ffi::packet(&mut board_of(unit_type, password), &packet);
            matches!(answer, Answer::Response(_))
        })
    }

    /// With the longest texts, what fits is answered, and one read more is not.
    #[test]
    fn what_fits_is_what_the_writer_and_the_board_take() {
        let mixed = [
            command(1, 0x01, 0),
            command(4, 0x02, 0),
            command(3, 0x0400, 1),
            command(3, 0x63, 2),
            command(2, 0x95, 5),
            command(1, 0x77, 1),
            command(5, 0x0111, 0),
        ];
        for password in [&b""[..], b"12345678"] {
            assert!(fits(&mixed, password) && is_answered(&mixed, password));
            for unit_type in UnitType::ALL {
                check_reads(unit_type, password);
            }
        }
    }

    fn check_reads(unit_type: UnitType, password: &[u8]) {
        let reads = reads_of(unit_type);
        let packets = super::pack(unit_type, &reads, password).expect("packets");
        assert!(packets.len() > 1);
        for pair in packets.windows(2) {
            let one_more = [pair[0], &pair[1][..1]].concat();
            assert!(is_answered_by(unit_type, pair[0], password));
            assert!(!is_answered_by(unit_type, &one_more, password));
        }
    }

    #[test]
    fn packets_are_full_and_in_order() {
        for password in [&b""[..], b"1111", b"12345678"] {
            let commands = [reads(), reads(), vec![command(1, 0x0101, 0); 9]].concat();
            let packets = pack(&commands, password).expect("packets");
            assert_eq!(packets.concat(), commands);
            assert!(packets.iter().all(|packet| fits(packet, password)));
            for pair in packets.windows(2) {
                let one_more = [pair[0], &pair[1][..1]].concat();
                assert!(!fits(&one_more, password));
            }
        }
    }

    #[test]
    fn a_command_that_no_packet_takes_is_told() {
        let one = || command(1, 0x01, 0);
        for (bad, number) in [
            (command(3, 0x95, 255), 43),
            (command(1, 0xFC, 0), 42),
            (command(6, 0x01, 0), 42),
        ] {
            let commands = [vec![one(); 300], vec![bad], vec![one()]].concat();
            assert_eq!(pack(&commands, b""), Err(Refusal(number)));
        }
        assert_eq!(pack(&[one()], b"a*"), Err(Refusal(21)));
        assert_eq!(pack(&[], b""), Ok(Vec::new()));
    }

    /// The reports of packets in turn.
    fn reports(board: &mut ffi::Board, password: &[u8], packets: &[&[Command]]) -> Vec<Report> {
        let mut reports = Vec::new();
        for commands in packets {
            let packet = ffi::write(ID, password, commands).expect("a request");
            match ffi::packet(board, &packet) {
                Answer::Silence => {}
                Answer::Response(response) => {
                    reports.extend(report::reports(&response).expect("reports"))
                }
                Answer::Refused(refusal) => panic!("{refusal}"),
            }
        }
        reports
    }

    #[test]
    fn joined_commands_report_and_leave_what_single_ones_do() {
        let changes = [
            command(2, 0x01, 1),
            command(1, 0x0101, 0),
            command(4, 0x63, 0),
            command(3, 0x0400, 1),
            command(4, 0x63, 0),
            Command::new(3, 0x77, &[8, 1, 3, 21, 30, 8]),
            command(5, 0x63, 0),
            Command::new(3, 0x02, &[3]),
        ];
        let commands = [reads(), changes.to_vec(), reads()].concat();
        for password in [&b""[..], b"1111", b"12345678"] {
            let (mut one, mut other) = (board(password), board(password));
            let single: Vec<&[Command]> = commands.chunks(1).collect();
            let joined = pack(&commands, password).expect("packets");
            assert!(joined.len() < 10 && single.len() == commands.len());
            assert_eq!(
                reports(&mut one, password, &joined),
                reports(&mut other, password, &single)
            );
            assert!(one == other && one != board(password));
        }
    }

    /// The sizes at which a request, or a response, has 256 bytes.
    #[test]
    fn the_last_byte_is_used() {
        for (command, most) in [(command(1, 0x01, 0), 116), (command(3, 0x01, 1), 116)] {
            let commands = vec![command.clone(); most];
            assert!(fits(&commands, b""));
            assert!(!fits(&[commands, vec![command]].concat(), b""));
        }
        let entry = command(1, 0x77, 2);
        for (password, most) in [(&b""[..], 25), (b"1111", 25), (b"12345678", 24)] {
            assert!(fits(&vec![entry.clone(); most], password));
            assert!(!fits(&vec![entry.clone(); most + 1], password));
        }
    }
}
