//! A board in a process of its own on the loopback address, clients by socket and by command line. Every wait is bounded.

#![allow(dead_code)]

pub mod captures;

use std::io::{BufRead, BufReader, Read};
use std::net::{SocketAddr, UdpSocket};
use std::path::{Path, PathBuf};
use std::process::{Child, Command, ExitStatus, Output, Stdio};
use std::sync::mpsc::{self, Receiver};
use std::thread::{self, sleep, JoinHandle};
use std::time::{Duration, Instant};

/// A response on the loopback address takes far less, also on a busy machine.
pub const PATIENCE: Duration = Duration::from_secs(20);

/// Where nobody listens: no port that a test is given.
pub const NOBODY: &str = "127.0.0.1:9";

pub const ID: &str = "002D6E1B34565815";
pub const ZERO_ID: &str = "00000000000000000000000000000000";
pub const PASSWORD: &str = "1111";

pub const PROGRAM: &str = env!("CARGO_BIN_EXE_udgornwy");

extern "C" {
    fn kill(process: i32, signal: i32) -> i32;
}

pub struct Board {
    process: Child,
    lines: Receiver<String>,
    pub address: SocketAddr,
}

impl Board {
    /// A verbose board on a free port.
    pub fn start(id: &str, mode: &str, more: &[&str]) -> Board {
        let mut process = Command::new(PROGRAM)
            .args(["board", "--id", id, "--password", PASSWORD, "--mode", mode])
            .args(["--listen", "127.0.0.1:0", "--verbose"])
            .args(more)
            .stderr(Stdio::piped())
            .spawn()
            .expect("the program runs");
        let lines = read_lines(process.stderr.take().expect("a piped stream"));
        let first = lines.recv_timeout(PATIENCE).expect("a line when listening");
        let address = first.strip_prefix("listening on ").expect("the address");
        Board {
            process,
            lines,
            address: address.parse().expect("an address with its port"),
        }
    }

    pub fn client() -> Board {
        Board::start(ID, "client", &[])
    }

    /// A board of a unit type.
    pub fn of_type(number: &str, more: &[&str]) -> Board {
        Board::start(ID, "client", &[&["--type", number], more].concat())
    }

    pub fn host(&self) -> String {
        self.address.to_string()
    }

    /// The next line on the board's standard error.
    pub fn line(&self) -> String {
        self.lines.recv_timeout(PATIENCE).expect("a line")
    }

    /// Runs a command of the client on this board, with its ID and password, and time enough.
    pub fn ask(&self, command: &str, more: &[&str]) -> Output {
        let more = [&["-t", "20"], more].concat();
        ask(&self.host(), (ID, PASSWORD), command, &more)
    }

    /// The listing that a command of the client writes.
    pub fn listed(&self, command: &str, more: &[&str]) -> String {
        listing(&self.ask(command, more))
    }

    pub fn signal(&mut self, number: i32) -> ExitStatus {
        signal(&mut self.process, number);
        wait(&mut self.process)
    }
}

impl Drop for Board {
    fn drop(&mut self) {
        let _ = self.process.kill();
        let _ = self.process.wait();
    }
}

pub fn read_lines(stream: impl Read + Send + 'static) -> Receiver<String> {
    let (sender, receiver) = mpsc::channel();
    thread::spawn(move || {
        for line in BufReader::new(stream).lines().map_while(Result::ok) {
            if sender.send(line).is_err() {
                break;
            }
        }
    });
    receiver
}

/// Sends a signal to a process that has not been waited for.
pub fn signal(process: &mut Child, number: i32) {
    let process = i32::try_from(process.id()).expect("a process number");
    // SAFETY: this process was started here, and nobody else waits for it.
    unsafe { kill(process, number) };
}

pub fn wait(process: &mut Child) -> ExitStatus {
    let deadline = Instant::now() + PATIENCE;
    while Instant::now() < deadline {
        if let Some(status) = process.try_wait().expect("a process to wait for") {
            return status;
        }
        sleep(Duration::from_millis(10));
    }
    let _ = process.kill();
    panic!("the process did not end");
}

pub fn start(arguments: &[&str]) -> Child {
    Command::new(PROGRAM)
        .args(arguments)
        .stdout(Stdio::piped())
        .stderr(Stdio::piped())
        .spawn()
        .expect("the program runs")
}

/// Runs the program to its end.
pub fn run(arguments: &[&str]) -> Output {
    end(start(arguments))
}

/// What a process writes to its end. It is read meanwhile: a pipe has room for little.
pub fn end(mut process: Child) -> Output {
    let stdout = read_whole(process.stdout.take().expect("a piped stream"));
    let stderr = read_whole(process.stderr.take().expect("a piped stream"));
    Output {
        status: wait(&mut process),
        stdout: stdout.join().expect("standard output"),
        stderr: stderr.join().expect("standard error"),
    }
}

fn read_whole(mut stream: impl Read + Send + 'static) -> JoinHandle<Vec<u8>> {
    thread::spawn(move || {
        let mut bytes = Vec::new();
        stream.read_to_end(&mut bytes).expect("what is written");
        bytes
    })
}

/// Runs a command of the client with this ID and password.
pub fn ask(host: &str, identity: (&str, &str), command: &str, more: &[&str]) -> Output {
    let (id, password) = identity;
    let asked = [command, "--host", host, "--id", id, "--password", password];
    run(&[&asked[..], more].concat())
}

/// The standard output of a program that ended well.
pub fn listing(output: &Output) -> String {
    assert!(output.status.success(), "{}", errors(output));
    String::from_utf8(output.stdout.clone()).expect("text")
}

pub fn errors(output: &Output) -> String {
    String::from_utf8(output.stderr.clone()).expect("text")
}

/// Standard output, however the program ended.
pub fn shown(output: &Output) -> String {
    String::from_utf8(output.stdout.clone()).expect("text")
}

/// A failed command has one line on standard error and nothing on standard output.
pub fn failed(output: &Output, status: i32, reason: &str) {
    let errors = errors(output);
    assert_eq!(output.status.code(), Some(status), "{errors}");
    assert_eq!(errors.lines().count(), 1, "{errors}");
    assert!(
        errors.starts_with("udgornwy: ") && errors.contains(reason),
        "{errors}"
    );
    assert!(output.stdout.is_empty());
}

/// A file of the repository.
pub fn stored(name: &str) -> PathBuf {
    let host = Path::new(env!("CARGO_MANIFEST_DIR"));
    host.join("..").join(name)
}

pub fn document(name: &str) -> String {
    std::fs::read_to_string(stored(name)).expect("a document")
}

/// The indented lines that follow a sentence in a document.
pub fn shown_after(name: &str, sentence: &str) -> String {
    let document = document(name);
    let (_, after) = document.split_once(sentence).expect("the sentence");
    let lines = after
        .lines()
        .skip_while(|line| !line.starts_with("    "))
        .map_while(|line| line.strip_prefix("    "));
    lines.map(|line| format!("{line}\n")).collect()
}

/// Where a test keeps a file; what an earlier run left there is gone.
pub fn scratch(name: &str) -> PathBuf {
    let path = Path::new(env!("CARGO_TARGET_TMPDIR")).join(name);
    let _ = std::fs::remove_file(&path);
    path
}

/// A socket on the loopback address that does not wait forever.
pub fn open_socket() -> UdpSocket {
    let socket = UdpSocket::bind("127.0.0.1:0").expect("a socket");
    let limited = socket.set_read_timeout(Some(PATIENCE));
    limited.expect("a time limit");
    socket
}

pub fn assert_nothing_came(socket: &UdpSocket) {
    let waits = socket.set_nonblocking(true);
    waits.expect("a socket that does not wait");
    let came = socket.recv_from(&mut [0; 256]);
    assert!(came.is_err(), "something was sent");
}

/// Runs a command of the client against a socket that answers the first request with these packets.
pub fn answered(packets: &[Vec<u8>], command: &str, more: &[&str]) -> Output {
    let (output, _) = served(
        1,
        |_, _| packets.to_vec(),
        |host| asked(host, command, more),
    );
    output
}

/// Runs a command of the client with the usual ID and password.
pub fn asked(host: &str, command: &str, more: &[&str]) -> Output {
    ask(host, (ID, PASSWORD), command, more)
}

/// Does something against a socket that answers so many requests, each by its index and its bytes; what came of it, and who asked.
pub fn served<T>(
    requests: usize,
    answer: impl Fn(usize, &[u8]) -> Vec<Vec<u8>> + Sync,
    act: impl FnOnce(&str) -> T,
) -> (T, Vec<SocketAddr>) {
    let socket = open_socket();
    let host = socket.local_addr().expect("an address").to_string();
    thread::scope(|scope| {
        let server = scope.spawn(|| {
            let answers = (0..requests).map(|index| {
                let mut buffer = [0; 256];
                let (length, client) = socket.recv_from(&mut buffer).expect("a request");
                for packet in answer(index, &buffer[..length]) {
                    // A client that has ended refuses what comes later.
                    let _ = socket.send_to(&packet, client);
                }
                client
            });
            answers.collect()
        });
        let done = act(&host);
        (done, server.join().expect("a server that ends"))
    })
}

/// Whether everything that a program wrote is printable.
pub fn is_printable(output: &Output) -> bool {
    let mut written = output.stdout.iter().chain(&output.stderr);
    written.all(|byte| *byte == b'\n' || (b' '..=b'~').contains(byte))
}

/// A board's client by socket.
pub struct Client {
    pub socket: UdpSocket,
    board: SocketAddr,
}

impl Client {
    pub fn of(board: SocketAddr) -> Client {
        let socket = open_socket();
        Client { socket, board }
    }

    pub fn send(&self, packet: &[u8]) {
        let sent = self.socket.send_to(packet, self.board);
        assert_eq!(sent.expect("a packet sent"), packet.len());
    }

    pub fn receive(&self) -> Vec<u8> {
        let mut buffer = [0; 1024];
        let (length, _) = self.socket.recv_from(&mut buffer).expect("a packet");
        buffer[..length].to_vec()
    }

    pub fn ask(&self, packet: &[u8]) -> Vec<u8> {
        self.send(packet);
        self.receive()
    }

    /// That a packet gets no answer: what is asked after it is answered first.
    pub fn gets_silence(&self, packet: &[u8]) {
        self.send(packet);
        let after = request(ID.as_bytes(), PASSWORD, 1, &[0xFF, 0x04, 0x02]);
        let answer = response(ID.as_bytes(), PASSWORD, &[0xFF, 0x04, 0x02, 0x00]);
        assert_eq!(self.ask(&after), answer, "after {packet:02X?}");
    }
}

/// A packet put together here, by the guide: head, ID, password, function, data, checksum.
pub fn request(id: &[u8], password: &str, function: u8, data: &[u8]) -> Vec<u8> {
    let mut packet = vec![0xFD, 0xFD, 0x02, 0x10];
    packet.extend_from_slice(id);
    packet.push(password.len() as u8);
    packet.extend_from_slice(password.as_bytes());
    packet.push(function);
    packet.extend_from_slice(data);
    let sum: u16 = packet[2..].iter().map(|byte| u16::from(*byte)).sum();
    packet.extend_from_slice(&sum.to_le_bytes());
    packet
}

pub fn response(id: &[u8], password: &str, data: &[u8]) -> Vec<u8> {
    request(id, password, 6, data)
}

/// The guide's request for 0001 and 0002 (E1), and its response (E2), with a zero ID and password 1111.
pub const E1: [u8; 30] = [
    0xFD, 0xFD, 0x02, 0x10, 0, 0, 0, 0, 0, 0, 0, 0, 0, 0, 0, 0, 0, 0, 0, 0, 0x04, 0x31, 0x31, 0x31,
    0x31, 0x01, 0x01, 0x02, 0xDE, 0x00,
];

pub const E2: [u8; 32] = [
    0xFD, 0xFD, 0x02, 0x10, 0, 0, 0, 0, 0, 0, 0, 0, 0, 0, 0, 0, 0, 0, 0, 0, 0x04, 0x31, 0x31, 0x31,
    0x31, 0x06, 0x01, 0x00, 0x02, 0x03, 0xE6, 0x00,
];

pub const E2_LISTING: &str = "number,value\n0x0001,00\n0x0002,03\n";
