//! The summary of a capture, from a file and from standard input.

mod common;

use common::captures::Version::{One, Two};
use common::captures::*;
use common::*;
use std::fs::OpenOptions;
use std::io::Write;
use std::process::Output;
use udgornwy::ffi::captures::LONGEST_HEAD;

fn protocol(sentence: &str) -> String {
    shown_after("docs/PROTOCOL.md", sentence)
}

/// The capture that the protocol shows.
fn example() -> Vec<u8> {
    let digits = protocol("has one board, with a zero ID");
    let bytes = digits.split_whitespace();
    let bytes = bytes.map(|digits| u8::from_str_radix(digits, 16).expect("a byte"));
    bytes.collect()
}

/// The summary of a capture in a file; standard input gives the same, and so does the Rattle program, where it is built.
fn summarize(name: &str, capture: &[u8]) -> Output {
    let folder = Folder::new(&format!("summary-{name}"));
    folder.put("capture", capture);
    let output = folder.run(&["summary", "capture"]);
    let same = folder.start(PROGRAM, &["summary", "-"], folder.open("capture"));
    assert_eq!(end(same), output);
    let proved = stored("target/bin/summary");
    if proved.is_file() {
        let proved = end(folder.start(proved, &[], folder.open("capture")));
        assert_eq!(shown(&proved), shown(&output));
    }
    output
}

/// A refused capture has its text, and one line that says why.
fn refused(output: &Output, text: &str, reason: &str) {
    assert_eq!(output.status.code(), Some(1));
    assert_eq!(shown(output), text);
    let told = format!("udgornwy: the capture is {reason}");
    assert!(errors(output).starts_with(&told), "{}", errors(output));
    assert_eq!(errors(output).lines().count(), 1);
}

#[test]
fn the_protocols_example_has_its_summary() {
    let capture = example();
    let output = summarize("example", &capture);
    assert_eq!(
        listing(&output),
        protocol("The summary of the capture above:")
    );
    assert_eq!(errors(&output), "");
    let cut = summarize("example-cut", &capture[..capture.len() - 1]);
    let text = protocol("And without its last byte:");
    refused(&cut, &text, "refused 53 (a record is cut short");
    let page = document("docs/CLIENT.md").replace("\n    ", "\n");
    assert!(page.contains(&(shown(&cut) + &errors(&cut))));
}

#[test]
fn a_refused_head_has_a_line_alone() {
    for (head, number) in refused_heads() {
        let text = format!("refused,{number}\n");
        let reason = format!("refused {number} (");
        refused(&summarize("refused-head", &head), &text, &reason);
    }
}

#[test]
fn a_capture_of_no_records_has_no_line() {
    for head in [
        head(One, 1),
        head(One, 16),
        head(Two, 1),
        head(Two, 17),
        head(Two, 1000),
    ] {
        let output = summarize("no-records", &head);
        assert_eq!((listing(&output), errors(&output)), Default::default());
    }
}

#[test]
fn what_cannot_be_read_has_no_summary() {
    let folder = Folder::new("summary-unreadable");
    folder.put("capture", &example());
    for name in ["no/such/file", "."] {
        let reason = format!("cannot read {name}: ");
        failed(&folder.run(&["summary", name]), 1, &reason);
    }
    let unreadable = OpenOptions::new().append(true).open(folder.path("capture"));
    for input in [unreadable.expect("the file"), folder.open(".")] {
        let output = end(folder.start(PROGRAM, &["summary", "-"], input));
        failed(&output, 1, "cannot read standard input: ");
    }
}

#[test]
fn bad_arguments_are_refused() {
    for (arguments, reason) in [
        (&["summary"][..], "there is no file"),
        (&["summary", "a", "b"], "`b` is not wanted here"),
        (&["summary", "--raw", "a"], "there is no option `--raw`"),
    ] {
        failed(&run(arguments), 2, reason);
    }
}

const RECORDS: usize = 60_000;

/// The records of so many boards, some MB of them, and the text of these records so many times.
fn many_records(version: Version, boards: u16, times: usize) -> (Vec<u8>, String) {
    let packets = judged_packets();
    let mut counts = vec![[0; 11]; usize::from(boards)];
    let mut records = Vec::new();
    for place in 0..RECORDS {
        let (direction, packet, number) = &packets[place % packets.len()];
        let index = place % usize::from(boards);
        counts[index][*number] += times;
        let counter = u32::try_from(place * 107_374).unwrap_or(u32::MAX);
        let each = (index as u16, *direction, counter, packet.clone());
        records.extend(record(version, &each));
    }
    let lines = (0..).zip(counts).flat_map(|(index, counts): (usize, _)| {
        let occurring = (0..).zip(counts).filter(|(_, count)| *count > 0);
        occurring.map(move |(number, count): (usize, _)| format!("{index},{number},{count}\n"))
    });
    let text = lines.collect();
    assert!(records.len() > 3_000_000);
    (records, text)
}

#[test]
fn a_large_capture_has_the_same_summary_in_a_file_and_in_pieces() {
    for (name, version, boards) in [("one", One, 16), ("two", Two, 1000)] {
        let (records, text) = many_records(version, boards, 1);
        let capture = [head(version, boards), records].concat();
        let output = summarize(&format!("large-{name}"), &capture);
        assert_eq!(listing(&output), text);
        let folder = Folder::new(&format!("summary-pieces-{name}"));
        let (process, mut input) = folder.start_on_pipe(&["summary", "-"]);
        write_in_pieces(&mut input, &capture);
        input.write_all(&[0]).expect("the start of a record");
        drop(input);
        let text = format!("{text}refused,53\n");
        refused(&end(process), &text, "refused 53 (");
    }
}

#[cfg(target_os = "linux")]
#[test]
fn a_capture_is_never_held_whole() {
    let (records, text) = many_records(Two, 1000, 8);
    let folder = Folder::new("summary-memory");
    let (process, mut input) = folder.start_on_pipe(&["summary", "-"]);
    input.write_all(&head(Two, 1000)).expect("a head is read");
    for _ in 0..8 {
        input.write_all(&records).expect("records are read");
    }
    let most = peak(&process);
    drop(input);
    assert_eq!(listing(&end(process)), text);
    assert!(most * 1024 < records.len() * 4, "{most} KiB");
}

/// It does not wait for what follows, once a longest head would stand there.
#[test]
fn a_field_outside_its_range_ends_the_summary() {
    let folder = Folder::new("summary-wrong");
    for wrong in VERSIONS.map(wrong_captures).concat() {
        let (process, mut input) = folder.start_on_pipe(&["summary", "-"]);
        let written = input.write_all(&[wrong, vec![0; LONGEST_HEAD]].concat());
        written.expect("a pipe has room for it");
        refused(&end(process), "0,2,1\nrefused,53\n", "refused 53 (");
        drop(input);
    }
}
