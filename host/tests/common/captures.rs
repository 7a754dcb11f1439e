//! Captures put together here, by the form, and folders to keep them in. Captures bear passwords: only the owner can read what is kept here,
//! and it is removed.

use super::*;
use std::fs::{self, DirBuilder, File};
use std::io::Write;
use std::os::unix::fs::DirBuilderExt;
use std::process::ChildStdin;
pub use udgornwy::ffi::captures::Version;
use Version::{One, Two};

pub const VERSIONS: [Version; 2] = [One, Two];

/// A board count or an index.
fn number(version: Version, number: u16) -> Vec<u8> {
    match version {
        One => vec![u8::try_from(number).expect("a byte")],
        Two => number.to_le_bytes().to_vec(),
    }
}

/// The head of a capture with this board count, and the IDs of so many boards, each with one of its own.
pub fn head(version: Version, boards: u16) -> Vec<u8> {
    let ids = (0..boards).flat_map(|board| board.to_le_bytes().repeat(8));
    let mut head = match version {
        One => b"VLG\x01\x00".to_vec(),
        Two => b"VLG\x02\x00".to_vec(),
    };
    head.extend(number(version, boards));
    head.extend(ids);
    head
}

/// Index, direction, counter and packet.
pub type Record = (u16, u8, u32, Vec<u8>);

pub fn record(version: Version, (index, direction, counter, packet): &Record) -> Vec<u8> {
    let length = u16::try_from(packet.len()).expect("a length");
    let mut record = number(version, *index);
    record.push(*direction);
    record.extend(counter.to_le_bytes());
    record.extend(length.to_le_bytes());
    record.extend(packet);
    record
}

pub fn capture(version: Version, boards: u16, records: &[Record]) -> Vec<u8> {
    let mut capture = head(version, boards);
    for each in records {
        capture.extend(record(version, each));
    }
    capture
}

/// Heads that are refused, each with its number.
pub fn refused_heads() -> Vec<(Vec<u8>, u16)> {
    let versioned = |version: u16| {
        let rest = &head(Two, 1)[5..];
        [&b"VLG"[..], &version.to_le_bytes(), rest].concat()
    };
    let but_last = |mut head: Vec<u8>| {
        head.pop();
        head
    };
    vec![
        (vec![], 50),
        (b"VL".to_vec(), 50),
        (b"VLH\x02\x00".to_vec(), 50),
        (b"VLG\x02".to_vec(), 51),
        (versioned(0), 51),
        (versioned(3), 51),
        (versioned(257), 51),
        (b"VLG\x01\x00".to_vec(), 52),
        (b"VLG\x02\x00\x01".to_vec(), 52),
        (head(One, 0), 52),
        (head(One, 17), 52),
        (but_last(head(One, 16)), 52),
        (head(Two, 0), 52),
        (head(Two, 1001), 52),
        (but_last(head(Two, 1000)), 52),
    ]
}

/// What stands in `wrong_captures` before the fault.
pub fn right_capture(version: Version) -> Vec<u8> {
    capture(version, 1, &[(0, 1, 5, vec![0xFD])])
}

/// Captures that end in a record with a field outside its range.
pub fn wrong_captures(version: Version) -> Vec<Vec<u8>> {
    let wrong = [
        (1, 0, 0, vec![]),
        (0, 2, 0, vec![]),
        (0, 1, 0, vec![0; 257]),
    ];
    let captures = wrong.map(|wrong| [right_capture(version), record(version, &wrong)].concat());
    captures.to_vec()
}

/// A folder that is removed when it is done with.
pub struct Folder(pub PathBuf);

impl Folder {
    pub fn new(name: &str) -> Folder {
        let path = Path::new(env!("CARGO_TARGET_TMPDIR")).join(name);
        let _ = fs::remove_dir_all(&path);
        let made = DirBuilder::new().mode(0o700).create(&path);
        made.expect("a folder");
        Folder(path)
    }

    pub fn path(&self, name: &str) -> PathBuf {
        self.0.join(name)
    }

    pub fn put(&self, name: &str, bytes: &[u8]) {
        fs::write(self.path(name), bytes).expect("a file");
    }

    pub fn bytes(&self, name: &str) -> Vec<u8> {
        fs::read(self.path(name)).expect("the file")
    }

    pub fn open(&self, name: &str) -> File {
        File::open(self.path(name)).expect("the file")
    }

    /// Of all that is there, in their order.
    pub fn names(&self) -> Vec<String> {
        let entries = fs::read_dir(&self.0).expect("the folder");
        let names = entries.map(|entry| entry.expect("a file").file_name());
        let mut names: Vec<String> = names
            .map(|name| name.into_string().expect("text"))
            .collect();
        names.sort();
        names
    }

    /// Starts a program in the folder.
    pub fn start(
        &self,
        program: impl AsRef<Path>,
        arguments: &[&str],
        input: impl Into<Stdio>,
    ) -> Child {
        Command::new(program.as_ref())
            .current_dir(&self.0)
            .args(arguments)
            .stdin(input)
            .stdout(Stdio::piped())
            .stderr(Stdio::piped())
            .spawn()
            .expect("the program runs")
    }

    /// Starts the client in the folder, on a standard input that is written here.
    pub fn start_on_pipe(&self, arguments: &[&str]) -> (Child, ChildStdin) {
        let mut process = self.start(PROGRAM, arguments, Stdio::piped());
        let input = process.stdin.take().expect("a piped stream");
        (process, input)
    }

    /// Runs the client in the folder.
    pub fn run(&self, arguments: &[&str]) -> Output {
        end(self.start(PROGRAM, arguments, Stdio::null()))
    }
}

impl Drop for Folder {
    fn drop(&mut self) {
        let _ = fs::remove_dir_all(&self.0);
    }
}

/// A packet whose checksum fits the byte that is changed.
fn changed(place: usize, value: u8) -> Vec<u8> {
    let mut packet = request(ID.as_bytes(), PASSWORD, 1, &[0x01]);
    let end = packet.len() - 2;
    packet[place] = value;
    let sum: u16 = packet[2..end].iter().map(|byte| u16::from(*byte)).sum();
    packet[end..].copy_from_slice(&sum.to_le_bytes());
    packet
}

/// Directions and packets, with the number that each is judged with.
pub fn judged_packets() -> Vec<(u8, Vec<u8>, usize)> {
    let id = ID.as_bytes();
    let mut damaged = request(id, PASSWORD, 1, &[0x01]);
    damaged[26] ^= 1;
    vec![
        (0, request(id, PASSWORD, 1, &[0x01]), 0),
        (0, request(id, PASSWORD, 1, &[0x01; 228]), 0),
        (1, response(id, PASSWORD, &[0x01, 1]), 0),
        (0, vec![], 2),
        (1, vec![0xFD; 23], 2),
        (0, vec![0; 256], 3),
        (1, damaged, 4),
        (0, changed(2, 3), 5),
        (1, changed(20, 9), 6),
        (0, response(id, PASSWORD, &[0x01, 1]), 9),
        (1, request(id, PASSWORD, 1, &[0x01]), 9),
        (0, request(id, PASSWORD, 1, &[0xFD]), 10),
        (1, response(id, PASSWORD, &[0x01]), 10),
    ]
}

/// Writes in pieces from a byte to more than a window.
pub fn write_in_pieces(input: &mut ChildStdin, bytes: &[u8]) {
    let sizes = [1, 7, 263, 4099, 65_537, 131_101, 2, 64];
    let mut rest = bytes;
    for size in sizes.iter().cycle() {
        let (piece, after) = rest.split_at(rest.len().min(*size));
        input.write_all(piece).expect("a piece is read");
        rest = after;
        if rest.is_empty() {
            return;
        }
    }
}

/// The most memory that a process has had, in KiB.
#[cfg(target_os = "linux")]
pub fn peak(process: &Child) -> usize {
    let status = fs::read_to_string(format!("/proc/{}/status", process.id()));
    let status = status.expect("the process's status");
    let line = status.lines().find_map(|line| line.strip_prefix("VmHWM:"));
    let line = line.expect("the peak of its memory").trim();
    let number = line.strip_suffix(" kB").expect("a number of kB");
    number.parse().expect("a number")
}
