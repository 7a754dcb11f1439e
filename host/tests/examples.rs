//! The examples in C: compiled without a warning, linked with the proved library, run.

use std::path::{Path, PathBuf};
use std::process::Command;

fn repository() -> &'static Path {
    let host = Path::new(env!("CARGO_MANIFEST_DIR"));
    host.parent().expect("host stands in the repository")
}

fn compile(name: &str) -> PathBuf {
    let program = Path::new(env!("CARGO_TARGET_TMPDIR")).join(name);
    let source = repository().join("examples").join(format!("{name}.c"));
    let output = Command::new("cc")
        .args([
            "-std=c11",
            "-Wall",
            "-Wextra",
            "-Wpedantic",
            "-Werror",
            "-I",
        ])
        .arg(repository().join("include"))
        .arg(source)
        .arg(concat!(env!("UDGORNWY_ARCHIVES"), "/libfirmware.a"))
        .arg("-o")
        .arg(&program)
        .output()
        .expect("a C compiler named cc");
    let errors = String::from_utf8_lossy(&output.stderr);
    assert!(output.status.success(), "{errors}");
    program
}

fn writes_what_is_stored(name: &str) {
    let output = Command::new(compile(name)).output();
    let output = output.expect("the example runs");
    assert!(output.status.success());
    let stored = repository().join("examples").join(format!("{name}.stdout"));
    let stored = std::fs::read_to_string(stored).expect("the example's output");
    assert_eq!(String::from_utf8_lossy(&output.stdout), stored);
}

#[test]
fn the_main_loop_answers_its_packets() {
    writes_what_is_stored("main_loop");
}

#[test]
fn the_tool_writes_and_lists_the_guides_packets() {
    writes_what_is_stored("request");
}
