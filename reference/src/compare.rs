//! Compares another replay program with this implementation, call by call.

use std::io::Write;
use std::path::Path;
use std::time::{Duration, Instant};

use crate::edges;
use crate::generate::Subject;
use crate::program;
use crate::random::Random;
use crate::replay::{self, Session};
use crate::shrink::shrink;
use crate::tally::Tally;

/// The calls of one generated list.
const LIST_LENGTH: usize = 20_000;
/// How long the search for the shortest list may take.
const SHRINK_LIMIT: Duration = Duration::from_secs(120);

/// How the two programs differ on a list.
struct Difference {
    /// The line of the list whose answer differs first.
    place: usize,
    reference: String,
    replay: String,
    /// The other program failed, so that there is no output to compare.
    failed: bool,
}

/// A comparison with one program.
pub struct Comparison<'a, Output> {
    pub program: &'a Path,
    /// What the generated calls are about.
    pub subject: Subject,
    pub output: Output,
}

impl<Output: Write> Comparison<'_, Output> {
    /// Compares the fixed list and `count` generated calls; the error says what went wrong.
    pub fn run(&mut self, seed: u64, count: usize) -> Result<(), String> {
        // A program that does not run at all fails here, without a call list.
        program::run(self.program, b"")?;
        let fixed = edges::list().into_iter().chain(edges::table_list());
        let fixed: Vec<String> = fixed.map(|entry| entry.line).collect();
        self.compare_list("the fixed list", &fixed, &mut Tally::default())?;
        let tally = self.compare_generated(seed, count)?;
        self.print(&format!(
            "equal on the fixed list and on {count} generated calls of seed {seed}; these met:"
        ))?;
        for line in tally.lines() {
            self.print(&line)?;
        }
        match tally.missing() {
            missing if missing.is_empty() => Ok(()),
            missing => Err(format!("never met: {}", missing.join(", "))),
        }
    }

    /// Lists of fresh seeds, one after another.
    fn compare_generated(&mut self, seed: u64, count: usize) -> Result<Tally, String> {
        let mut seeds = Random::new(seed);
        let mut tally = Tally::new(self.subject);
        let mut rest = count;
        while rest > 0 {
            let length = rest.min(LIST_LENGTH);
            let list_seed = seeds.next_number();
            let lines = self.subject.list(list_seed, length);
            let word = self.subject.word().map(|word| format!(" {word}"));
            let last = word.unwrap_or_default();
            let name = format!("the list of `reference generate {list_seed} {length}{last}`");
            self.compare_list(&name, &lines, &mut tally)?;
            rest -= length;
        }
        Ok(tally)
    }

    /// Compares one list; at a difference it prints the shortest list that shows it.
    fn compare_list(
        &mut self,
        name: &str,
        lines: &[String],
        tally: &mut Tally,
    ) -> Result<(), String> {
        let Err(difference) = difference(self.program, lines, tally) else {
            return Ok(());
        };
        self.print(&format!(
            "difference on {name}, line {}",
            difference.place + 1
        ))?;
        let shortest = shortest(self.program, lines, difference.place);
        self.print("shortest call list found that shows it:")?;
        for line in &shortest {
            self.print(line)?;
        }
        let shown = self::difference(self.program, &shortest, &mut Tally::default());
        let difference = shown.err().unwrap_or(difference);
        self.print(&format!("reference: {}", difference.reference))?;
        self.print(&format!("replay:    {}", difference.replay))?;
        if let Some((expected, given)) = first_word(&difference.reference, &difference.replay) {
            self.print(&format!("first word that differs: {expected} and {given}"))?;
        }
        match difference.failed {
            true => Err(format!("{}; on {name}", difference.replay)),
            false => Err(format!("the programs differ on {name}")),
        }
    }

    fn print(&mut self, line: &str) -> Result<(), String> {
        writeln!(self.output, "{line}").map_err(|error| error.to_string())
    }
}

/// The shortest list found in the time allowed that still shows a difference.
fn shortest(program: &Path, lines: &[String], place: usize) -> Vec<String> {
    let deadline = Instant::now() + SHRINK_LIMIT;
    // A difference on what the papers do not state would be none.
    let shows = |rest: &[String]| {
        Instant::now() < deadline
            && replay::is_stated(rest)
            && difference(program, rest, &mut Tally::default()).is_err()
    };
    let up_to = &lines[..lines.len().min(place + 1)];
    let start = if shows(up_to) { up_to } else { lines };
    shrink(start, shows)
}

/// Runs both programs; the error is the first difference.
fn difference(program: &Path, lines: &[String], tally: &mut Tally) -> Result<(), Difference> {
    let mut input = lines.join("\n").into_bytes();
    input.push(b'\n');
    let output = program::run(program, &input).map_err(|error| Difference {
        place: lines.len(),
        reference: "(an answer to each line)".to_string(),
        replay: error,
        failed: true,
    })?;
    let mut answers = output.split_inclusive(|byte| *byte == b'\n');
    let mut session = Session::new();
    for (place, line) in lines.iter().enumerate() {
        let Some(expected) = session.line(line.as_bytes()) else {
            continue;
        };
        let answer = answers.next().unwrap_or_default();
        if answer.strip_suffix(b"\n") != Some(expected.as_bytes()) {
            return Err(Difference {
                place,
                reference: expected,
                replay: show(answer),
                failed: false,
            });
        }
        tally.add(line, &expected, &session.record);
    }
    match answers.next() {
        None => Ok(()),
        Some(more) => Err(Difference {
            place: lines.len(),
            reference: "(no more lines)".to_string(),
            replay: show(more),
            failed: false,
        }),
    }
}

/// The first words that differ, where both answers have several.
fn first_word<'a>(expected: &'a str, given: &'a str) -> Option<(&'a str, &'a str)> {
    let several = expected.contains(' ') && given.contains(' ');
    let mut pairs = expected.split(' ').zip(given.split(' '));
    pairs.find(|(left, right)| several && left != right)
}

/// An answer as text, with a mark where it is none or has no line end.
fn show(answer: &[u8]) -> String {
    let text = String::from_utf8_lossy(answer);
    match text.strip_suffix('\n') {
        Some(line) => line.to_string(),
        None if text.is_empty() => "(no line)".to_string(),
        None => format!("{text} (no line end)"),
    }
}
