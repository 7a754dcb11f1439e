//! The stored calls of `crates/replay`, to which the gate holds both programs.

use std::fs;
use std::path::Path;

use reference::replay;

#[test]
fn every_stored_call_is_stated() {
    let path = Path::new(env!("CARGO_MANIFEST_DIR")).join("../crates/replay/stdin");
    let calls = fs::read_to_string(path).expect("the stored calls");
    let lines: Vec<&str> = calls.lines().collect();
    assert!(replay::is_stated(&lines));
}
