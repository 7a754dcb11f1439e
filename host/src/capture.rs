//! A capture that is read through a window, and never held whole.

use std::fmt;
use std::fs::File;
use std::io::{self, ErrorKind, Read};
use std::ops::ControlFlow;
use std::os::fd::AsFd;
use std::path::PathBuf;

use crate::ffi::captures::{self, Head, BAD_RECORD, LONGEST_HEAD, LONGEST_RECORD};
use crate::refusal::Refusal;

pub const WINDOW: usize = 65536;

/// A window that has room for every head has room for every record.
const _: () = assert!(LONGEST_RECORD <= LONGEST_HEAD);

/// Where a capture or a table stands.
#[derive(Debug, PartialEq, Eq)]
pub enum Source {
    StandardInput,
    File(PathBuf),
}

impl Source {
    pub fn open(&self) -> io::Result<File> {
        match self {
            // Not as `Stdin`, which takes an input that cannot be read for an empty one.
            Source::StandardInput => io::stdin().as_fd().try_clone_to_owned().map(File::from),
            Source::File(path) => File::open(path),
        }
    }
}

impl fmt::Display for Source {
    fn fmt(&self, formatter: &mut fmt::Formatter<'_>) -> fmt::Result {
        match self {
            Source::StandardInput => write!(formatter, "standard input"),
            Source::File(path) => write!(formatter, "{}", path.display()),
        }
    }
}

/// The error of a refused capture.
pub fn accepted(refusal: Option<Refusal>) -> Result<(), String> {
    match refusal {
        None => Ok(()),
        Some(refusal) => Err(format!("the capture is {refusal}")),
    }
}

/// A capture whose head has been read.
pub struct Capture<R> {
    pub head: Head,
    /// 16 bytes for each board.
    pub ids: Vec<u8>,
    window: Window<R>,
}

impl<R: Read> Capture<R> {
    /// Opens a capture through a window of this size, or of the longest head's where that is more.
    pub fn open(reader: R, window: usize) -> io::Result<Result<Capture<R>, Refusal>> {
        let mut window = Window {
            reader,
            has_ended: false,
            bytes: vec![0; window.max(LONGEST_HEAD)],
            start: 0,
            end: 0,
        };
        window.fill(LONGEST_HEAD)?;
        let opened = captures::open_capture(&window.bytes[..window.end]);
        Ok(opened.map(|head| {
            window.start = head.records;
            Capture {
                head,
                ids: window.bytes[head.ids..head.records].to_vec(),
                window,
            }
        }))
    }

    /// Has the records taken that stand in the window from a start to an end, and reads on behind what is left of them. `take` moves what
    /// it leaves, the start of a record, to the window's start and says how long it is. Breaks where the capture ends, with its refusal.
    pub fn take(
        &mut self,
        take: impl FnOnce(&mut [u8], usize, usize) -> Result<usize, Refusal>,
    ) -> io::Result<ControlFlow<Option<Refusal>>> {
        let window = &mut self.window;
        let left = match take(&mut window.bytes, window.start, window.end) {
            Ok(left) => left,
            Err(refusal) => return Ok(ControlFlow::Break(Some(refusal))),
        };
        (window.start, window.end) = (0, left);
        Ok(match window.read()? {
            0 => ControlFlow::Break((left > 0).then_some(BAD_RECORD)),
            _ => ControlFlow::Continue(()),
        })
    }
}

struct Window<R> {
    reader: R,
    has_ended: bool,
    bytes: Vec<u8>,
    /// What was read and is not taken yet stands from here up to `end`.
    start: usize,
    end: usize,
}

impl<R: Read> Window<R> {
    /// Reads until so many bytes stand in the window or no more come.
    fn fill(&mut self, wanted: usize) -> io::Result<()> {
        while self.end < wanted && !self.has_ended {
            self.read()?;
        }
        Ok(())
    }

    /// Reads once, and says how many bytes came. What has ended is not read again: a terminal would wait for more.
    fn read(&mut self) -> io::Result<usize> {
        if self.has_ended {
            return Ok(0);
        }
        let read = loop {
            match self.reader.read(&mut self.bytes[self.end..]) {
                Err(error) if error.kind() == ErrorKind::Interrupted => {}
                read => break read?,
            }
        };
        self.has_ended = read == 0;
        self.end += read;
        Ok(read)
    }
}

#[cfg(test)]
pub mod tests {
    use super::*;
    use std::collections::VecDeque;

    /// The head of a capture of one board.
    pub const HEAD: &[u8] = b"VLG\x02\x00\x01\x000123456789ABCDEF";

    /// Answers one read after another, and none after the last.
    pub struct Answers<'a>(VecDeque<io::Result<&'a [u8]>>);

    impl<'a> Answers<'a> {
        pub fn new(answers: impl Into<VecDeque<io::Result<&'a [u8]>>>) -> Answers<'a> {
            Answers(answers.into())
        }
    }

    impl Read for Answers<'_> {
        fn read(&mut self, room: &mut [u8]) -> io::Result<usize> {
            let answer = self.0.pop_front().expect("no read after the end")?;
            room[..answer.len()].copy_from_slice(answer);
            Ok(answer.len())
        }
    }

    pub fn interrupted<'a>() -> io::Result<&'a [u8]> {
        Err(ErrorKind::Interrupted.into())
    }

    pub fn failed<'a>() -> io::Result<&'a [u8]> {
        Err(ErrorKind::ConnectionReset.into())
    }

    /// What stands behind the head, taken in pieces of so many bytes.
    fn taken<'a>(
        size: usize,
        answers: impl Into<VecDeque<io::Result<&'a [u8]>>>,
    ) -> io::Result<(Vec<u8>, Option<Refusal>)> {
        let mut bytes = Vec::new();
        let mut capture = match Capture::open(Answers::new(answers), 0)? {
            Ok(capture) => capture,
            Err(refusal) => return Ok((bytes, Some(refusal))),
        };
        loop {
            let turn = capture.take(|window, start, end| {
                let left = (end - start) % size;
                bytes.extend_from_slice(&window[start..end - left]);
                window.copy_within(end - left..end, 0);
                Ok(left)
            });
            if let ControlFlow::Break(refusal) = turn? {
                return Ok((bytes, refusal));
            }
        }
    }

    #[test]
    fn an_interrupted_read_is_repeated_and_an_end_is_final() {
        for (records, bytes, refusal) in [
            (&b"abcdef"[..], &b"abcdef"[..], None),
            (b"abcdefg", b"abcdef", Some(BAD_RECORD)),
            (b"ab", b"", Some(BAD_RECORD)),
        ] {
            let answers = [
                interrupted(),
                Ok(&HEAD[..7]),
                interrupted(),
                Ok(&HEAD[7..]),
                Ok(records),
                interrupted(),
                Ok(b""),
            ];
            let taken = taken(3, answers).expect("no failed read");
            assert_eq!(taken, (bytes.to_vec(), refusal));
        }
        let empty = taken(3, [Ok(&b""[..])]).expect("no failed read");
        assert_eq!(empty, (Vec::new(), Some(Refusal(50))));
    }

    /// The head and what comes with it fill the window; then what is left of each read stands before the next.
    #[test]
    fn what_is_left_stands_before_what_is_read() {
        let first: Vec<u8> = (0..LONGEST_HEAD - HEAD.len())
            .map(|place| place as u8)
            .collect();
        let second: Vec<u8> = (0..LONGEST_HEAD - 264).map(|place| !place as u8).collect();
        let taken = taken(265, [Ok(HEAD), Ok(&first), Ok(&second), Ok(b"ab"), Ok(b"")]);
        let (bytes, refusal) = taken.expect("no failed read");
        let whole = [&first[..], &second, b"ab"].concat();
        assert_eq!(bytes, whole[..whole.len() / 265 * 265]);
        assert_eq!(refusal, Some(BAD_RECORD));
    }

    #[test]
    fn the_longest_head_is_read_to_its_end() {
        let mut head = b"VLG\x02\x00\xE8\x03".to_vec();
        head.resize(LONGEST_HEAD, 0);
        let (start, last) = head.split_at(head.len() - 1);
        let whole = taken(3, [Ok(start), Ok(last), Ok(b"")]);
        assert_eq!(whole.expect("no failed read"), (Vec::new(), None));
        let cut = taken(3, [Ok(start), Ok(b"")]);
        let refused = (Vec::new(), Some(Refusal(52)));
        assert_eq!(cut.expect("no failed read"), refused);
    }

    #[test]
    fn a_failed_read_is_an_error() {
        let rest = vec![0; LONGEST_HEAD - HEAD.len()];
        assert!(taken(3, [failed()]).is_err());
        assert!(taken(3, [Ok(&HEAD[..7]), failed()]).is_err());
        assert!(taken(3, [Ok(HEAD), Ok(&rest), failed()]).is_err());
    }
}
