//! A board on a UDP socket: each datagram is given to the board, each response to its sender.

use std::io::{self, Write};
use std::net::{SocketAddr, UdpSocket};
use std::time::Duration;

use crate::datagram;
use crate::ffi::{self, Answer, Board};
use crate::unit_type::UnitType;

/// How long a wait for a packet lasts before a signal is looked for.
const WAIT: Duration = Duration::from_millis(100);

#[derive(Debug)]
pub struct Settings {
    pub id: Vec<u8>,
    pub password: Vec<u8>,
    pub mode: u8,
    pub unit_type: UnitType,
    pub listen: SocketAddr,
    /// Values measured before the first packet.
    pub measured: Vec<(u16, Vec<u8>)>,
    pub verbose: bool,
}

/// Runs a board until `stop` says so.
pub fn run(settings: &Settings, stop: impl Fn() -> bool) -> Result<(), String> {
    let mut board = make_board(settings)?;
    let listen = settings.listen;
    let failed = |error| format!("cannot listen on {listen}: {error}");
    let socket = UdpSocket::bind(listen).map_err(failed)?;
    socket.set_read_timeout(Some(WAIT)).map_err(failed)?;
    tell(&format!(
        "listening on {}",
        socket.local_addr().map_err(failed)?
    ));
    let mut buffer = vec![0; datagram::LONGEST];
    while !stop() {
        let received = datagram::receive(&socket, &mut buffer);
        let received = received.map_err(|error| format!("cannot receive: {error}"))?;
        if let Some((length, sender)) = received {
            let answer = ffi::packet(&mut board, &buffer[..length]);
            if settings.verbose {
                tell(&describe(sender, length, &answer));
            }
            send(&socket, sender, &answer);
        }
    }
    Ok(())
}

fn make_board(settings: &Settings) -> Result<Board, String> {
    let board = ffi::set_up(
        &settings.id,
        &settings.password,
        settings.mode,
        settings.unit_type.number(),
    );
    let mut board = board.map_err(|refusal| format!("the set-up is {refusal}"))?;
    for (number, value) in &settings.measured {
        board = ffi::measure(board, *number, value)
            .map_err(|refusal| format!("the measured value of 0x{number:04X} is {refusal}"))?;
    }
    Ok(board)
}

/// A response that cannot be sent is lost like one that the network loses.
fn send(socket: &UdpSocket, sender: SocketAddr, answer: &Answer) {
    if let Answer::Response(response) = answer {
        if let Err(error) = socket.send_to(response, sender) {
            tell(&format!("cannot answer {sender}: {error}"));
        }
    }
}

fn describe(sender: SocketAddr, length: usize, answer: &Answer) -> String {
    let answer = match answer {
        Answer::Refused(refusal) => refusal.to_string(),
        Answer::Silence => String::from("silence"),
        Answer::Response(response) => format!("response of {} bytes", response.len()),
    };
    format!("{sender}: {length} bytes: {answer}")
}

/// A line on standard error; a board goes on where nobody reads it.
fn tell(line: &str) {
    let _ = writeln!(io::stderr(), "{line}");
}
