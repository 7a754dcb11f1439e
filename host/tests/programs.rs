//! The Rattle programs, where they are built: they tell a read or a write that fails, and then end with a failure.

mod common;

use common::{errors, stored};
use std::fs::{File, OpenOptions};
use std::path::PathBuf;
use std::process::{Command, Output};

/// The programs that are built, by their names.
fn programs() -> impl Iterator<Item = (&'static str, PathBuf)> {
    let names = ["listing", "summary", "export"].into_iter();
    let programs = names.map(|name| (name, stored(&format!("target/bin/{name}"))));
    programs.filter(|(_, program)| program.is_file())
}

fn open(name: &str) -> File {
    File::open(stored(name)).expect("a file of the repository")
}

/// A line on standard error, nothing on standard output, and status 1.
fn failed(name: &str, command: &mut Command) {
    let output: Output = command.output().expect("the program runs");
    let errors = errors(&output);
    assert_eq!(output.status.code(), Some(1), "{name}: {errors}");
    assert_eq!(errors.lines().count(), 1, "{name}: {errors}");
    assert!(output.stdout.is_empty(), "{name}");
}

/// A folder can be opened, and not read.
#[test]
fn a_read_that_fails_is_told() {
    for (name, program) in programs() {
        failed(name, Command::new(program).stdin(open("crates")));
    }
}

#[cfg(target_os = "linux")]
#[test]
fn a_write_that_fails_is_told() {
    for (name, program) in programs() {
        let full = OpenOptions::new().write(true).open("/dev/full");
        let input = open(&format!("crates/{name}/stdin"));
        let mut command = Command::new(program);
        failed(name, command.stdin(input).stdout(full.expect("the device")));
    }
}
