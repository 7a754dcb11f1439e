//! The comparison, held against this implementation itself and against programs that differ from it.

use std::fs;
use std::os::unix::fs::PermissionsExt;
use std::path::PathBuf;
use std::process::{Command, Output, Stdio};
use std::sync::{Mutex, PoisonError};

const REFERENCE: &str = env!("CARGO_BIN_EXE_reference");

/// No process is started while a program is written: it would hold the file open, and the system runs no file that is being written.
static STARTING: Mutex<()> = Mutex::new(());

/// A replay program made of a shell command; `$REFERENCE` stands for this implementation.
fn program(name: &str, command: &str) -> PathBuf {
    let path = PathBuf::from(env!("CARGO_TARGET_TMPDIR")).join(name);
    let text = format!("#!/bin/sh\nREFERENCE='{REFERENCE}'\n{command}\n");
    let _writing = STARTING.lock().unwrap_or_else(PoisonError::into_inner);
    fs::write(&path, text).unwrap();
    fs::set_permissions(&path, fs::Permissions::from_mode(0o755)).unwrap();
    path
}

fn compare(seed: &str, count: &str, program: &str) -> Output {
    compare_with(&[seed, count, program])
}

fn compare_with(arguments: &[&str]) -> Output {
    let starting = STARTING.lock().unwrap_or_else(PoisonError::into_inner);
    let process = Command::new(REFERENCE)
        .arg("compare")
        .args(arguments)
        .stdin(Stdio::null())
        .stdout(Stdio::piped())
        .stderr(Stdio::piped())
        .spawn()
        .unwrap();
    drop(starting);
    process.wait_with_output().unwrap()
}

/// Compares with a shell command that must differ; gives the shortest list and the two answers.
fn shortest(name: &str, command: &str) -> (Vec<String>, String, String) {
    let program = program(name, command);
    let output = compare("1", "3000", program.to_str().unwrap());
    assert!(!output.status.success());
    let text = String::from_utf8(output.stdout).unwrap();
    let shown = text.split_once("shows it:\n").expect("a shortest list").1;
    let (lines, answers) = shown.split_once("reference: ").expect("two answers");
    let lines = lines.lines().map(String::from).collect();
    let answers: Vec<&str> = answers.lines().collect();
    let replay = answers[1].strip_prefix("replay:    ").unwrap();
    (lines, answers[0].to_string(), replay.to_string())
}

fn failure(seed: &str, count: &str, program: &str) -> String {
    let output = compare(seed, count, program);
    assert!(!output.status.success());
    String::from_utf8(output.stderr).unwrap()
}

#[test]
fn an_equal_program_passes_with_its_counts() {
    let program = program("equal", "exec \"$REFERENCE\" replay");
    let output = compare("5", "12000", program.to_str().unwrap());
    let text = String::from_utf8(output.stdout).unwrap();
    assert!(output.status.success(), "{text}");
    assert!(text.starts_with("equal on the fixed list and on 12000 generated calls of seed 5"));
    assert!(text.contains("  packet refused 12\n") && text.contains("  packet silence\n"));
}

#[test]
fn captures_are_compared_and_counted_apart() {
    let program = program("captures", "exec \"$REFERENCE\" replay");
    let program = program.to_str().unwrap();
    let output = compare_with(&["5", "12000", program, "captures"]);
    let text = String::from_utf8(output.stdout).unwrap();
    assert!(output.status.success(), "{text}");
    assert!(text.contains("  capwrite refused 53: also 54\n"));
    assert!(!text.contains("packet silence"));
    for more in [&["capture"][..], &[""], &["captures", "captures"]] {
        let arguments = [&["5", "1", program], more].concat();
        let output = compare_with(&arguments);
        assert!(!output.status.success());
        let error = String::from_utf8(output.stderr).unwrap();
        assert!(error.starts_with("reference: usage"), "{error}");
    }
}

#[test]
fn tables_are_compared_and_counted_apart() {
    let program = program("tables", "exec \"$REFERENCE\" replay");
    let output = compare_with(&["5", "12000", program.to_str().unwrap(), "tables"]);
    let text = String::from_utf8(output.stdout).unwrap();
    assert!(output.status.success(), "{text}");
    assert!(text.contains("  import refused 61: no line end, also 63\n"));
    assert!(!text.contains("packet silence") && !text.contains("capwrite"));
}

#[test]
fn a_wrong_answer_names_its_list() {
    // Answers that generated lists have often, and the fixed list never has.
    for (subject, command) in [
        ("captures", "\"$REFERENCE\" replay | sed 's/^2,/1,/'"),
        (
            "tables",
            "\"$REFERENCE\" replay | sed 's/ line 5$/ line 6/'",
        ),
    ] {
        let program = program(&format!("wrong-{subject}"), command);
        let output = compare_with(&["1", "3000", program.to_str().unwrap(), subject]);
        assert!(!output.status.success());
        let error = String::from_utf8(output.stderr).unwrap();
        assert!(error.ends_with(&format!(" {subject}`\n")), "{error}");
    }
}

#[test]
fn too_few_calls_fail() {
    let program = program("few", "exec \"$REFERENCE\" replay");
    let error = failure("1", "5", program.to_str().unwrap());
    assert!(error.contains("never met: "), "{error}");
}

#[test]
fn a_wrong_answer_is_shrunk_to_one_call() {
    let command = "\"$REFERENCE\" replay | sed 's/^refused 7$/refused 8/'";
    let (lines, reference, replay) = shortest("answer", command);
    assert_eq!(lines.len(), 1, "{lines:?}");
    assert!(lines[0].starts_with("packet ") || lines[0].starts_with("read "));
    assert_eq!(
        (reference.as_str(), replay.as_str()),
        ("refused 7", "refused 8")
    );
}

#[test]
fn a_wrong_state_is_shrunk_to_its_calls() {
    let command = "sed 's/^measure 0111 ..../measure 0111 0000/' | \"$REFERENCE\" replay";
    let (lines, reference, replay) = shortest("state", command);
    assert_eq!(lines.len(), 2, "{lines:?}");
    assert!(lines[0].starts_with("measure 0111 "));
    assert_ne!(reference, replay);
}

#[test]
fn missing_and_surplus_output_differ() {
    let (lines, _, replay) = shortest("missing", "\"$REFERENCE\" replay | head -n 3");
    assert_eq!(lines.len(), 4, "{lines:?}");
    assert_eq!(replay, "(no line)");
    let (lines, _, replay) = shortest("surplus", "\"$REFERENCE\" replay; echo more");
    assert!(lines.is_empty(), "{lines:?}");
    assert_eq!(replay, "more");
    let (_, _, replay) = shortest("unended", "\"$REFERENCE\" replay | head -c 20");
    assert!(replay.ends_with(" (no line end)"), "{replay}");
}

#[test]
fn a_crash_is_named_and_shrunk() {
    let program = program("exit", "cat > /dev/null; echo lost >&2; exit 3");
    let error = failure("1", "1", program.to_str().unwrap());
    assert!(error.contains("failed, exit status: 3: lost"), "{error}");
    let command = "calls=$(cat)
        echo \"$calls\" | grep -q '^measure 0111' && kill -9 $$
        echo \"$calls\" | \"$REFERENCE\" replay";
    let (lines, _, replay) = shortest("signal", command);
    assert_eq!(lines.len(), 1, "{lines:?}");
    assert!(replay.contains("signal: 9"), "{replay}");
}

#[test]
fn nonsense_is_a_clear_error() {
    let program = program("unused", "exit 0");
    let program = program.to_str().unwrap();
    for (seed, count) in [
        ("x", "1"),
        ("-1", "1"),
        ("+1", "1"),
        ("", "1"),
        ("1", "0"),
        ("1", "-5"),
        ("1", "1e3"),
        ("18446744073709551616", "1"),
        ("1", "1000000001"),
    ] {
        let error = failure(seed, count, program);
        assert!(
            error.starts_with("reference: ") && error.contains("usage"),
            "{error}"
        );
    }
    let error = failure("1", "1", "no/such/program");
    assert!(
        error.contains("no replay program at no/such/program"),
        "{error}"
    );
    let directory = env!("CARGO_TARGET_TMPDIR");
    assert!(failure("1", "1", directory).contains("no replay program"));
    let plain = PathBuf::from(directory).join("plain");
    fs::write(&plain, "no program").unwrap();
    let error = failure("1", "1", plain.to_str().unwrap());
    assert!(error.contains("cannot be run"), "{error}");
}
