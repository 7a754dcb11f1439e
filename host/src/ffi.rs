//! The functions of include/udgornwy.h, each behind one safe function.

pub mod captures;
pub mod tables;

use crate::refusal::Refusal;

pub const ID_SIZE: usize = 16;
pub const LONGEST_PACKET: usize = 256;
pub const LONGEST_LISTING: usize = 1753;
const LONGEST_PASSWORD: usize = 8;
/// The bytes of the rows, and how many entries the schedule has.
const STORE: usize = 227;
const ENTRIES: usize = 28;

/// The ID that stands for every board in a search, and for the board itself in access point mode.
pub const DEFAULT_ID: [u8; ID_SIZE] = *b"DEFAULT_DEVICEID";

/// A board's record. Only set-up makes one, and only the library looks into it.
#[repr(C)]
#[derive(Clone, PartialEq, Eq)]
pub struct Board {
    id: [u8; ID_SIZE],
    password: [u8; LONGEST_PASSWORD],
    size: u8,
    mode: u8,
    unit: u8,
    store: [u8; STORE],
    /// Days and then periods, four bytes each.
    schedule: [[u8; 4]; ENTRIES],
}

const _: () =
    assert!(std::mem::size_of::<Board>() == ID_SIZE + LONGEST_PASSWORD + 3 + STORE + 4 * ENTRIES);

/// The board to keep, and the number of the refusal, 0 where there is none.
#[repr(C)]
struct CallResult {
    board: Board,
    refusal: u16,
}

#[repr(C)]
struct Reply {
    refusal: u16,
    length: usize,
}

/// Where the parts of a packet stand.
#[repr(C)]
#[derive(Clone, Copy, Debug, PartialEq, Eq)]
pub struct Places {
    pub id: usize,
    /// Up to `function`.
    pub password: usize,
    pub function: usize,
    /// Up to `end`.
    pub block: usize,
    pub end: usize,
}

#[repr(C)]
struct Parts {
    refusal: u16,
    places: Places,
}

/// What a packet is answered with.
#[derive(Clone, Debug, PartialEq, Eq)]
pub enum Answer {
    Refused(Refusal),
    Silence,
    Response(Vec<u8>),
}

/// The functions of a command.
pub const READ: u8 = 1;
/// A write without a report.
pub const SILENT_WRITE: u8 = 2;
pub const WRITE: u8 = 3;
pub const RAISE: u8 = 4;
pub const LOWER: u8 = 5;

/// One command of a request.
#[derive(Clone, Debug, PartialEq, Eq)]
pub struct Command {
    pub function: u8,
    pub number: u16,
    pub value: Vec<u8>,
}

impl Command {
    pub fn new(function: u8, number: u16, value: &[u8]) -> Command {
        Command {
            function,
            number,
            value: value.to_vec(),
        }
    }

    pub fn is_step(&self) -> bool {
        matches!(self.function, RAISE | LOWER)
    }
}

extern "C" {
    fn udgornwy_set_up(
        id: *const u8,
        id_length: usize,
        password: *const u8,
        password_length: usize,
        mode: u8,
        unit: u8,
    ) -> CallResult;
    fn udgornwy_packet(
        board: *mut Board,
        packet: *const u8,
        packet_length: usize,
        response: *mut u8,
        response_length: usize,
    ) -> Reply;
    fn udgornwy_measure(
        board: Board,
        number: u16,
        value: *const u8,
        value_length: usize,
    ) -> CallResult;
    fn udgornwy_parse(packet: *const u8, packet_length: usize) -> Parts;
    fn udgornwy_write(
        buffer: *mut u8,
        buffer_length: usize,
        id: *const u8,
        id_length: usize,
        password: *const u8,
        password_length: usize,
        functions: *const u8,
        functions_count: usize,
        numbers: *const u16,
        numbers_count: usize,
        lengths: *const u16,
        lengths_count: usize,
        values: *const u8,
        values_length: usize,
    ) -> Reply;
    fn udgornwy_read(
        packet: *const u8,
        packet_length: usize,
        id: *const u8,
        id_length: usize,
        password: *const u8,
        password_length: usize,
    ) -> u16;
    fn udgornwy_list(
        text: *mut u8,
        text_length: usize,
        packet: *const u8,
        packet_length: usize,
    ) -> Reply;
}

/// Sets a board of a unit type up.
pub fn set_up(id: &[u8], password: &[u8], mode: u8, unit: u8) -> Result<Board, Refusal> {
    // SAFETY: both slices are live.
    let result = unsafe {
        udgornwy_set_up(
            id.as_ptr(),
            id.len(),
            password.as_ptr(),
            password.len(),
            mode,
            unit,
        )
    };
    accepted(result.refusal).map(|()| result.board)
}

/// Takes a packet of any length.
pub fn packet(board: &mut Board, packet: &[u8]) -> Answer {
    let mut response = [0; LONGEST_PACKET];
    // SAFETY: the record and the slices are live, and none overlaps another.
    let reply = unsafe {
        udgornwy_packet(
            board,
            packet.as_ptr(),
            packet.len(),
            response.as_mut_ptr(),
            response.len(),
        )
    };
    match written(&reply, &response) {
        Err(refusal) => Answer::Refused(refusal),
        Ok([]) => Answer::Silence,
        Ok(bytes) => Answer::Response(bytes.to_vec()),
    }
}

/// The board with a measured value.
pub fn measure(board: Board, number: u16, value: &[u8]) -> Result<Board, Refusal> {
    // SAFETY: the slice is live.
    let result = unsafe { udgornwy_measure(board, number, value.as_ptr(), value.len()) };
    accepted(result.refusal).map(|()| result.board)
}

/// Takes a packet of any length apart.
pub fn parse(packet: &[u8]) -> Result<Places, Refusal> {
    // SAFETY: the slice is live.
    let parts = unsafe { udgornwy_parse(packet.as_ptr(), packet.len()) };
    accepted(parts.refusal).map(|()| parts.places)
}

/// Writes the request of some commands.
pub fn write(id: &[u8], password: &[u8], commands: &[Command]) -> Result<Vec<u8>, Refusal> {
    let functions: Vec<u8> = commands.iter().map(|command| command.function).collect();
    let numbers: Vec<u16> = commands.iter().map(|command| command.number).collect();
    let lengths: Vec<u16> = commands
        .iter()
        .map(|command| length_of(&command.value))
        .collect();
    let values: Vec<u8> = commands
        .iter()
        .flat_map(|command| command.value.clone())
        .collect();
    let mut buffer = [0; LONGEST_PACKET];
    // SAFETY: all slices are live, and none overlaps the buffer.
    let reply = unsafe {
        udgornwy_write(
            buffer.as_mut_ptr(),
            buffer.len(),
            id.as_ptr(),
            id.len(),
            password.as_ptr(),
            password.len(),
            functions.as_ptr(),
            functions.len(),
            numbers.as_ptr(),
            numbers.len(),
            lengths.as_ptr(),
            lengths.len(),
            values.as_ptr(),
            values.len(),
        )
    };
    written(&reply, &buffer).map(<[u8]>::to_vec)
}

/// Judges a packet as the response to a request with this ID and password.
pub fn read(packet: &[u8], id: &[u8], password: &[u8]) -> Result<(), Refusal> {
    // SAFETY: all slices are live, and none is written to.
    accepted(unsafe {
        udgornwy_read(
            packet.as_ptr(),
            packet.len(),
            id.as_ptr(),
            id.len(),
            password.as_ptr(),
            password.len(),
        )
    })
}

/// The listing of a response.
pub fn list(packet: &[u8]) -> Result<Vec<u8>, Refusal> {
    let mut text = [0; LONGEST_LISTING];
    // SAFETY: both slices are live and do not overlap.
    let reply =
        unsafe { udgornwy_list(text.as_mut_ptr(), text.len(), packet.as_ptr(), packet.len()) };
    written(&reply, &text).map(<[u8]>::to_vec)
}

fn accepted(refusal: u16) -> Result<(), Refusal> {
    match refusal {
        0 => Ok(()),
        number => Err(Refusal(number)),
    }
}

/// The bytes that a call has written.
fn written<'a>(reply: &Reply, buffer: &'a [u8]) -> Result<&'a [u8], Refusal> {
    accepted(reply.refusal)?;
    Ok(&buffer[..reply.length.min(buffer.len())])
}

/// A length past 65,535 does not add up with the bytes of all, which the library refuses: with 41 for values, with 53 for packets.
fn length_of(bytes: &[u8]) -> u16 {
    u16::try_from(bytes.len()).unwrap_or(u16::MAX)
}
