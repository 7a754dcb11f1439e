//! Rewrites a capture in version 2, as a file of its own.

use std::io::{Read, Write};
use std::ops::ControlFlow;
use std::path::Path;

use crate::capture::{self, Capture, Source, WINDOW};
use crate::ffi::captures::{self, Head, Next, Record, BAD_RECORD, LONGEST_HEAD, LONGEST_RECORD};
use crate::new_file::{self, Failure};
use crate::refusal::Refusal;

/// Rewrites a capture as a new file. One that 53 refuses is rewritten up to there, and its refusal is the error; after any other error
/// there is no file.
pub fn run(source: &Source, place: &Path) -> Result<(), String> {
    match new_file::open(source, place).and_then(|input| keep(input, place)) {
        Ok(refusal) => capture::accepted(refusal),
        Err(failure) => Err(failure.words(source, place)),
    }
}

/// Rewrites a capture as a file that is there only when it is whole.
pub fn keep(input: impl Read, place: &Path) -> Result<Option<Refusal>, Failure> {
    new_file::keep(place, |file| rewrite(input, file, WINDOW))
}

/// Rewrites a capture through a window of this size, or of the longest head's where that is more. One that 53 refuses is rewritten up to
/// there.
pub fn rewrite(
    input: impl Read,
    mut output: impl Write,
    window: usize,
) -> Result<Option<Refusal>, Failure> {
    let opened = Capture::open(input, window).map_err(Failure::Input)?;
    let mut capture = opened.map_err(Failure::Refused)?;
    let head = capture.head;
    let mut rewritten = vec![0; LONGEST_HEAD];
    let written = captures::write_head(&mut rewritten, &capture.ids);
    rewritten.truncate(written.map_err(Failure::Refused)?);
    loop {
        let taken = capture
            .take(|window, start, end| rewrite_window(&mut rewritten, window, start, end, head));
        let taken = taken.map_err(Failure::Input)?;
        output.write_all(&rewritten).map_err(Failure::Output)?;
        rewritten.clear();
        if let ControlFlow::Break(refusal) = taken {
            return Ok(refusal);
        }
    }
}

/// Rewrites the records that stand in a window from `start` to `end`, moves the bytes that are left to its start, and says how many they
/// are: the start of a record.
fn rewrite_window(
    rewritten: &mut Vec<u8>,
    window: &mut [u8],
    start: usize,
    end: usize,
    head: Head,
) -> Result<usize, Refusal> {
    let mut rest = &window[start..end];
    loop {
        match captures::next_record(rest, head) {
            Next::Record(record, after) => {
                put(rewritten, head.boards, record)?;
                rest = after;
            }
            Next::Wrong => return Err(BAD_RECORD),
            Next::End | Next::Cut => break,
        }
    }
    let left = rest.len();
    window.copy_within(end - left..end, 0);
    Ok(left)
}

fn put(rewritten: &mut Vec<u8>, boards: u16, record: Record) -> Result<(), Refusal> {
    let mut bytes = [0; LONGEST_RECORD];
    let length = captures::write_record(&mut bytes, boards, record)?;
    rewritten.extend_from_slice(&bytes[..length]);
    Ok(())
}

#[cfg(test)]
mod tests {
    use super::*;
    use crate::capture::tests::{failed, interrupted, Answers, HEAD};
    use std::io;

    /// An empty request, and what it is in version 1.
    const RECORD: &[u8] = &[0; 9];
    const OLD_RECORD: &[u8] = &[0; 8];

    #[test]
    fn an_interrupted_read_is_repeated() {
        let answers = [
            interrupted(),
            Ok(b"VLG\x01\x00\x01"),
            interrupted(),
            Ok(b"0123456789ABCDEF"),
            Ok(&OLD_RECORD[..5]),
            interrupted(),
            Ok(&OLD_RECORD[5..]),
            Ok(b""),
        ];
        let mut written = Vec::new();
        let rewritten = rewrite(Answers::new(answers), &mut written, 0);
        assert!(matches!(rewritten, Ok(None)));
        assert_eq!(written, [HEAD, RECORD].concat());
    }

    #[test]
    fn a_failed_read_is_no_end() {
        let rest = vec![0; LONGEST_HEAD - HEAD.len()];
        for answers in [
            vec![failed()],
            vec![Ok(HEAD), failed()],
            vec![Ok(HEAD), Ok(&rest), failed()],
        ] {
            let rewritten = rewrite(Answers::new(answers), io::sink(), 0);
            assert!(matches!(rewritten, Err(Failure::Input(_))));
        }
    }

    /// Has room for so many bytes.
    struct Full(usize);

    impl Write for Full {
        fn write(&mut self, bytes: &[u8]) -> io::Result<usize> {
            match self.0.min(bytes.len()) {
                0 => Err(io::ErrorKind::StorageFull.into()),
                length => {
                    self.0 -= length;
                    Ok(length)
                }
            }
        }

        fn flush(&mut self) -> io::Result<()> {
            Ok(())
        }
    }

    #[test]
    fn a_failed_write_is_told_apart_from_a_failed_read() {
        let capture = [HEAD, RECORD].concat();
        for room in [0, 1, HEAD.len(), capture.len() - 1] {
            let rewritten = rewrite(&capture[..], Full(room), 0);
            assert!(matches!(rewritten, Err(Failure::Output(_))), "{room}");
        }
        assert!(rewrite(&capture[..], Full(capture.len()), 0).is_ok());
    }
}
