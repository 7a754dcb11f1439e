//! The program: what its arguments ask for is done, and what goes wrong is a line on standard error.

use std::ffi::OsString;
use std::process::ExitCode;

use crate::arguments::{self, Task};
use crate::{client, export, import, output, rewrite, server, signals, summary};

const FAILED: u8 = 1;
const BAD_ARGUMENTS: u8 = 2;

pub fn run(arguments: impl Iterator<Item = OsString>) -> ExitCode {
    let task = texts(arguments).and_then(|arguments| arguments::parse(&arguments));
    let task = match task {
        Ok(task) => task,
        Err(error) => return fail(BAD_ARGUMENTS, &format!("{error} (udgornwy --help)")),
    };
    let done = match task {
        Task::Print(text) => output::put(text.as_bytes()),
        Task::Summary(source) => summary::run(&source),
        Task::Rewrite(source, place) => rewrite::run(&source, &place),
        Task::Export(source, place) => export::run(&source, &place),
        Task::Import(source) => import::run(&source),
        Task::Request(request) => match client::run(&request) {
            true => Ok(()),
            // It has said why.
            false => return ExitCode::from(FAILED),
        },
        Task::Board(settings) => {
            signals::catch();
            server::run(&settings, signals::came)
        }
    };
    match done {
        Ok(()) => ExitCode::SUCCESS,
        Err(error) => fail(FAILED, &error),
    }
}

fn texts(arguments: impl Iterator<Item = OsString>) -> Result<Vec<String>, String> {
    arguments
        .map(|argument| argument.into_string())
        .collect::<Result<_, _>>()
        .map_err(|argument| format!("{argument:?} is no text"))
}

fn fail(status: u8, error: &str) -> ExitCode {
    output::warn(error);
    ExitCode::from(status)
}
