//! A request on its way: sent, sent again where nothing comes, and what comes judged. Each has a socket of its own, so that an answer
//! that comes after its time is not there when the next is waited for.

use std::io::{self, ErrorKind};
use std::net::{SocketAddr, UdpSocket};
use std::time::{Duration, Instant, SystemTime};

use crate::answer;
use crate::datagram;
use crate::ffi::{self, Command, ID_SIZE};
use crate::report::{self, Report};
use crate::target::Target;
use crate::unit_type::UnitType;

/// Who is asked, and how long an answer is waited for.
pub struct Exchange<'a> {
    pub target: Target,
    pub unit_type: UnitType,
    pub id: &'a [u8],
    pub password: &'a [u8],
    /// For each time that the request is sent.
    pub limit: Duration,
    pub retries: u32,
}

#[derive(Debug, PartialEq, Eq)]
pub struct Response {
    pub sender: SocketAddr,
    pub time: SystemTime,
    pub bytes: Vec<u8>,
    pub reports: Vec<Report>,
}

impl Response {
    /// The ID of the board that answers.
    pub fn id(&self) -> &[u8] {
        ffi::parse(&self.bytes).map_or(&[], |places| &self.bytes[places.id..][..ID_SIZE])
    }
}

#[derive(Debug, PartialEq, Eq)]
pub enum Failure {
    /// Nothing came.
    Silence(String),
    /// What came was no answer.
    Ignored(String),
    /// Nobody was reached.
    Other(String),
}

/// How many boards are heard in one search.
const MOST_RESPONSES: usize = 1000;

/// What came so far.
#[derive(Default)]
struct Mail {
    responses: Vec<Response>,
    ignored: usize,
    /// Why the last one was ignored.
    reason: String,
}

impl Exchange<'_> {
    /// The answer to the commands, or all of them where several boards may answer. `watch` sees each packet that is sent or comes.
    pub fn run(
        &self,
        commands: &[Command],
        watch: impl Fn(&str, SocketAddr, &[u8]),
    ) -> Result<Vec<Response>, Failure> {
        let request = ffi::write(self.id, self.password, commands)
            .map_err(|refusal| Failure::Other(format!("the request is {refusal}")))?;
        let socket = self.open().map_err(|error| self.failure("reach", &error))?;
        let mut mail = Mail::default();
        for _ in 0..=self.retries {
            watch("sent", self.target.address, &request);
            self.send(&socket, &request)
                .map_err(|error| self.failure("send to", &error))?;
            self.collect(&socket, commands, &mut mail, &watch)
                .map_err(|error| self.failure("receive from", &error))?;
            if !mail.responses.is_empty() {
                return Ok(mail.responses);
            }
        }
        Err(self.no_response(&mail))
    }

    /// A socket that hears the board alone, or everyone.
    fn open(&self) -> io::Result<UdpSocket> {
        let any = if self.target.address.is_ipv4() {
            "0.0.0.0:0"
        } else {
            "[::]:0"
        };
        let socket = UdpSocket::bind(any)?;
        match self.target.every {
            true => socket.set_broadcast(true)?,
            false => socket.connect(self.target.address)?,
        }
        Ok(socket)
    }

    fn send(&self, socket: &UdpSocket, request: &[u8]) -> io::Result<usize> {
        match self.target.every {
            true => socket.send_to(request, self.target.address),
            false => socket.send(request),
        }
    }

    /// Takes what comes until the time is up or the one response is there.
    fn collect(
        &self,
        socket: &UdpSocket,
        commands: &[Command],
        mail: &mut Mail,
        watch: impl Fn(&str, SocketAddr, &[u8]),
    ) -> io::Result<()> {
        let deadline = Instant::now() + self.limit;
        let mut buffer = vec![0; datagram::LONGEST];
        while self.target.every || mail.responses.is_empty() {
            let Some((length, sender)) = receive_until(socket, &mut buffer, deadline)? else {
                break;
            };
            let bytes = &buffer[..length];
            watch("received", sender, bytes);
            match self.judge(commands, bytes) {
                Ok(reports) => mail.take(sender, bytes, reports),
                Err(reason) => mail.ignore(reason),
            }
        }
        Ok(())
    }

    /// The reports of a packet that answers the commands.
    fn judge(&self, commands: &[Command], bytes: &[u8]) -> Result<Vec<Report>, String> {
        ffi::read(bytes, self.id, self.password).map_err(|refusal| refusal.to_string())?;
        let reports = report::reports(bytes)?;
        answer::check(self.unit_type, commands, &reports)?;
        Ok(reports)
    }

    fn failure(&self, what: &str, error: &io::Error) -> Failure {
        let address = self.target.address;
        Failure::Other(match error.kind() {
            ErrorKind::ConnectionRefused => format!("nobody listens on {address}"),
            _ => format!("cannot {what} {address}: {error}"),
        })
    }

    fn no_response(&self, mail: &Mail) -> Failure {
        let address = self.target.address;
        let seconds = self.limit.as_secs_f64();
        let requests = self.retries + 1;
        let text =
            format!("no response from {address} within {seconds} s, requests sent: {requests}");
        match mail.ignored {
            0 => Failure::Silence(text),
            count => Failure::Ignored(format!(
                "{text}, packets ignored: {count}, the last one {}",
                mail.reason
            )),
        }
    }
}

impl Mail {
    /// Keeps a response; a board that answers twice counts once.
    fn take(&mut self, sender: SocketAddr, bytes: &[u8], reports: Vec<Report>) {
        let mut senders = self.responses.iter().map(|response| response.sender);
        if self.responses.len() < MOST_RESPONSES && !senders.any(|heard| heard == sender) {
            self.responses.push(Response {
                sender,
                time: SystemTime::now(),
                bytes: bytes.to_vec(),
                reports,
            });
        }
    }

    fn ignore(&mut self, reason: String) {
        self.ignored += 1;
        self.reason = reason;
    }
}

/// The next datagram that comes before the deadline, however many come.
fn receive_until(
    socket: &UdpSocket,
    buffer: &mut [u8],
    deadline: Instant,
) -> io::Result<Option<(usize, SocketAddr)>> {
    loop {
        let left = deadline.saturating_duration_since(Instant::now());
        if left.is_zero() {
            return Ok(None);
        }
        socket.set_read_timeout(Some(left))?;
        match socket.recv_from(buffer) {
            Ok(received) => return Ok(Some(received)),
            Err(error) if datagram::is_wait(error.kind()) => {}
            Err(error) => return Err(error),
        }
    }
}
