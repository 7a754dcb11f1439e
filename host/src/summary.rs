//! Shows the summary of a capture.

use std::io::{self, Read};
use std::ops::ControlFlow;

use crate::capture::{self, Capture, Source, WINDOW};
use crate::ffi::captures::{self, COUNTS};
use crate::output;
use crate::refusal::Refusal;

/// Shows the summary of a capture; a refused one has a summary too, and its refusal is the error.
pub fn run(source: &Source) -> Result<(), String> {
    let counted = source.open().and_then(|file| count(file, WINDOW));
    let counted = counted.map_err(|error| format!("cannot read {source}: {error}"))?;
    let text = counted.text();
    let text = text.map_err(|refusal| format!("the summary is {refusal}"))?;
    output::put(&text)?;
    capture::accepted(counted.refusal)
}

/// The counts of a capture's packets; none where its head is refused.
pub struct Counted {
    counts: Vec<u64>,
    pub refusal: Option<Refusal>,
}

impl Counted {
    pub fn text(&self) -> Result<Vec<u8>, Refusal> {
        captures::show_counts(&self.counts, self.refusal)
    }
}

/// Counts the packets of a capture through a window of this size, or of the longest head's where that is more.
pub fn count(input: impl Read, window: usize) -> io::Result<Counted> {
    let mut capture = match Capture::open(input, window)? {
        Ok(capture) => capture,
        Err(refusal) => {
            return Ok(Counted {
                counts: Vec::new(),
                refusal: Some(refusal),
            })
        }
    };
    let head = capture.head;
    let mut counts = vec![0; COUNTS];
    loop {
        let taken = capture.take(|window, start, end| {
            captures::count_window(&mut counts, window, start, end, head)
        });
        if let ControlFlow::Break(refusal) = taken? {
            return Ok(Counted { counts, refusal });
        }
    }
}
