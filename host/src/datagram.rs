//! Datagrams from a socket that waits for a limited time.

use std::io::{self, ErrorKind};
use std::net::{SocketAddr, UdpSocket};

/// No datagram is longer.
pub const LONGEST: usize = 65536;

/// The next datagram, if one comes in the socket's time: its length and its sender.
pub fn receive(socket: &UdpSocket, datagram: &mut [u8]) -> io::Result<Option<(usize, SocketAddr)>> {
    match socket.recv_from(datagram) {
        Ok(received) => Ok(Some(received)),
        Err(error) if is_passing(error.kind()) => Ok(None),
        Err(error) => Err(error),
    }
}

/// An earlier packet found nobody there, which is no matter to a board.
fn is_passing(kind: ErrorKind) -> bool {
    is_wait(kind)
        || matches!(
            kind,
            ErrorKind::ConnectionRefused | ErrorKind::ConnectionReset
        )
}

/// The time is up, or a signal came.
pub fn is_wait(kind: ErrorKind) -> bool {
    matches!(
        kind,
        ErrorKind::WouldBlock | ErrorKind::TimedOut | ErrorKind::Interrupted
    )
}
