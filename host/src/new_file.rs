//! A new file that is made of a capture, and is there only when it is whole.

use std::fs::{self, File, Metadata};
use std::io::{self, Read};
use std::os::unix::fs::MetadataExt;
use std::path::Path;

use crate::capture::Source;
use crate::draft::Draft;
use crate::refusal::Refusal;
use crate::signals;

/// Why there is no new file.
#[derive(Debug)]
pub enum Failure {
    Input(io::Error),
    Output(io::Error),
    /// The capture's head is refused.
    Refused(Refusal),
}

impl Failure {
    pub fn words(&self, source: &Source, place: &Path) -> String {
        match self {
            Failure::Input(error) => format!("cannot read {source}: {error}"),
            Failure::Output(error) => format!("cannot write {}: {error}", place.display()),
            Failure::Refused(refusal) => format!("the capture is {refusal}"),
        }
    }
}

/// Opens a capture of which a file at this place is to be made.
pub fn open(source: &Source, place: &Path) -> Result<impl Read, Failure> {
    let reader = source.open().map_err(Failure::Input)?;
    check_apart(&reader, place)?;
    // From here on a signal would leave a part of a file behind.
    signals::catch();
    let stop = signals::came;
    Ok(Stoppable { reader, stop })
}

/// A capture is not written over itself, by whatever name.
fn check_apart(input: &File, place: &Path) -> Result<(), Failure> {
    let identity = |metadata: Metadata| (metadata.dev(), metadata.ino());
    let read = input.metadata().map(identity).map_err(Failure::Input)?;
    match fs::metadata(place).map(identity) {
        Ok(there) if there == read => Err(Failure::Output(io::Error::other(
            "it is the capture that is read",
        ))),
        _ => Ok(()),
    }
}

/// Keeps a file with what `write` puts into it, unless that fails.
pub fn keep<T>(
    place: &Path,
    write: impl FnOnce(&mut File) -> Result<T, Failure>,
) -> Result<T, Failure> {
    let mut draft = Draft::create(place).map_err(Failure::Output)?;
    let written = write(&mut draft.file)?;
    draft.keep().map_err(Failure::Output)?;
    Ok(written)
}

/// A reader that fails once `stop` says so.
struct Stoppable<R, S> {
    reader: R,
    stop: S,
}

impl<R: Read, S: Fn() -> bool> Read for Stoppable<R, S> {
    fn read(&mut self, room: &mut [u8]) -> io::Result<usize> {
        let read = self.reader.read(room);
        match (self.stop)() {
            true => Err(io::Error::other("stopped by a signal")),
            false => read,
        }
    }
}

#[cfg(test)]
mod tests {
    use super::*;
    use crate::capture::tests::{interrupted, Answers, HEAD};
    use crate::{export, rewrite};

    #[test]
    fn a_signal_ends_the_reading() {
        let input = |stop: bool| {
            let reader = Answers::new([interrupted(), Ok(HEAD), Ok(b"")]);
            let stop = move || stop;
            Stoppable { reader, stop }
        };
        let rewritten = |stop| rewrite::rewrite(input(stop), io::sink(), 0);
        assert!(matches!(rewritten(true), Err(Failure::Input(_))));
        assert!(matches!(rewritten(false), Ok(None)));
        let exported = |stop| export::export(input(stop), io::sink(), 0);
        assert!(matches!(exported(true), Err(Failure::Input(_))));
        assert!(exported(false).is_ok());
    }
}
