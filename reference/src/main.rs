//! Command line of the reference implementation.

use std::io::{self, BufWriter, Write};
use std::path::{Path, PathBuf};
use std::process::ExitCode;

use reference::compare::Comparison;
use reference::generate::Subject;
use reference::{edges, replay};

const USAGE: &str = "usage: reference replay
       reference generate SEED COUNT [captures | tables]
       reference edges
       reference compare SEED COUNT PROGRAM [captures | tables]
SEED is a decimal number up to 18446744073709551615, COUNT one from 1 to 1000000000.";

const GREATEST_COUNT: usize = 1_000_000_000;

fn main() -> ExitCode {
    let arguments: Vec<String> = std::env::args().skip(1).collect();
    let arguments: Vec<&str> = arguments.iter().map(String::as_str).collect();
    match run(&arguments) {
        Ok(()) => ExitCode::SUCCESS,
        Err(error) => {
            eprintln!("reference: {error}");
            ExitCode::FAILURE
        }
    }
}

fn run(arguments: &[&str]) -> Result<(), String> {
    let output = || BufWriter::new(io::stdout().lock());
    match arguments {
        ["replay"] => {
            replay::replay(io::stdin().lock(), output()).map_err(|error| error.to_string())
        }
        ["generate", seed, count, subject @ ..] => {
            let subject = parse_subject(subject)?;
            let (seed, count) = (parse_seed(seed)?, parse_count(count)?);
            print(subject.list(seed, count))
        }
        ["edges"] => {
            let entries = edges::list().into_iter().chain(edges::table_list());
            print(entries.map(|entry| entry.line))
        }
        ["compare", seed, count, program, subject @ ..] => {
            let subject = parse_subject(subject)?;
            let (seed, count) = (parse_seed(seed)?, parse_count(count)?);
            let program = find_program(program)?;
            let mut comparison = Comparison {
                program: &program,
                subject,
                output: io::stdout(),
            };
            comparison.run(seed, count)
        }
        _ => Err(USAGE.to_string()),
    }
}

/// What the generated calls are about; the board if it is not said.
fn parse_subject(arguments: &[&str]) -> Result<Subject, String> {
    let mut subjects = Subject::ALL.into_iter();
    let found = subjects.find(|subject| Vec::from_iter(subject.word()) == arguments);
    found.ok_or_else(|| USAGE.to_string())
}

/// A decimal number of digits alone.
fn parse_seed(text: &str) -> Result<u64, String> {
    let digits = text.bytes().all(|byte| byte.is_ascii_digit());
    let number = text.parse().ok().filter(|_| digits);
    number.ok_or_else(|| format!("`{text}` is no such number\n{USAGE}"))
}

fn parse_count(text: &str) -> Result<usize, String> {
    match parse_seed(text)? as usize {
        count @ 1..=GREATEST_COUNT => Ok(count),
        _ => Err(format!("`{text}` is no such number\n{USAGE}")),
    }
}

/// The full path, so that a bare name is not looked up elsewhere.
fn find_program(program: &str) -> Result<PathBuf, String> {
    let path = Path::new(program);
    match path.canonicalize() {
        Ok(found) if found.is_file() => Ok(found),
        _ => Err(format!(
            "there is no replay program at {program} (`./build replay` builds it)"
        )),
    }
}

fn print(lines: impl IntoIterator<Item = String>) -> Result<(), String> {
    let mut output = BufWriter::new(io::stdout().lock());
    lines
        .into_iter()
        .try_for_each(|line| writeln!(output, "{line}"))
        .and_then(|()| output.flush())
        .map_err(|error| error.to_string())
}
