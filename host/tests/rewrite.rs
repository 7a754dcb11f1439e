//! A capture rewritten in version 2: what the new file holds, and when there is none.

mod common;

use common::captures::Version::{One, Two};
use common::captures::*;
use common::*;
use std::fs::{self, Permissions};
use std::io::{self, Read, Write};
use std::os::unix::fs::{symlink, PermissionsExt};
use std::process::{Child, Output};
use std::thread::sleep;
use std::time::{Duration, Instant};
use udgornwy::capture::WINDOW;
use udgornwy::ffi::captures::{self, Next, Rewritten, BAD_RECORD, LONGEST_HEAD};
use udgornwy::new_file::Failure;
use udgornwy::rewrite;

const REWRITE: [&str; 3] = ["rewrite", "old", "new"];
const REWRITE_PIPE: [&str; 3] = ["rewrite", "-", "new"];

/// A folder with a capture in the file `old`.
fn folder_with(name: &str, capture: &[u8]) -> Folder {
    let folder = Folder::new(&format!("rewrite-{name}"));
    folder.put("old", capture);
    folder
}

/// Nothing is written to standard output or standard error.
fn succeeded(output: &Output) {
    assert_eq!((listing(output), errors(output)), Default::default());
}

/// Packets of all lengths, damaged ones, empty ones and some that are right.
fn many_records(boards: u16, count: usize) -> Vec<Record> {
    let judged = judged_packets();
    let records = (0..count).map(|place| {
        let (direction, packet, _) = &judged[place % judged.len()];
        let packet = match place % 3 {
            0 => packet.clone(),
            _ => (0..place % 257).map(|at| (at * place) as u8).collect(),
        };
        let index = place * 7 % usize::from(boards);
        let counter = (place as u32).wrapping_mul(0x9E37_79B9);
        (index as u16, *direction, counter, packet)
    });
    records.collect()
}

/// The IDs and the records that the calls read in a capture of version 2.
fn read_back(capture: &[u8]) -> (Vec<u8>, Vec<Record>) {
    let head = captures::open_capture(capture).expect("a head");
    assert_eq!(head.version, Two);
    let (mut records, mut rest) = (Vec::new(), &capture[head.records..]);
    while let Next::Record(record, after) = captures::next_record(rest, head) {
        let packet = record.packet.to_vec();
        records.push((record.index, record.direction, record.counter, packet));
        rest = after;
    }
    assert_eq!(rest, b"");
    (capture[head.ids..head.records].to_vec(), records)
}

/// The exported call's answer, and what it writes.
fn rewritten_whole(capture: &[u8]) -> (Rewritten, Vec<u8>) {
    let mut buffer = vec![0; capture.len() + capture.len() / 8];
    let rewritten = captures::rewrite_capture(&mut buffer, capture).expect("a capture");
    buffer.truncate(rewritten.length);
    (rewritten, buffer)
}

#[test]
fn version_1_keeps_its_ids_and_its_records() {
    let records = many_records(16, 100_000);
    let old = capture(One, 16, &records);
    let folder = folder_with("one", &old);
    succeeded(&folder.run(&REWRITE));
    let new = folder.bytes("new");
    let (ids, read) = read_back(&new);
    assert_eq!(ids, head(One, 16)[6..]);
    assert!(read == records, "other records");
    assert!(new == capture(Two, 16, &records), "other bytes");
    assert!(new == rewritten_whole(&old).1, "other than the call's");
    assert!(folder.bytes("old") == old, "the old file is changed");
    assert_eq!(folder.names(), ["new", "old"]);
    assert_eq!(
        listing(&folder.run(&["summary", "new"])),
        listing(&folder.run(&["summary", "old"]))
    );
}

#[test]
fn version_2_stays_the_same() {
    let old = capture(Two, 1000, &many_records(1000, 20_000));
    let folder = folder_with("two", &old);
    succeeded(&folder.run(&REWRITE));
    assert!(folder.bytes("new") == old, "other bytes");
}

#[test]
fn a_capture_of_no_records_is_a_head() {
    for (version, boards) in [(One, 1), (One, 16), (Two, 1), (Two, 1000)] {
        let folder = folder_with("no-records", &head(version, boards));
        succeeded(&folder.run(&REWRITE));
        assert_eq!(folder.bytes("new"), head(Two, boards));
    }
}

/// A capture with equal records, moved on by so many bytes, over more than a window.
fn moved_on(version: Version, length: usize, shift: usize) -> Vec<u8> {
    let lengths = [shift / 2, shift - shift / 2];
    let equal = vec![length; WINDOW / (length + 8) + 2];
    let packets = lengths.into_iter().chain(equal);
    let records = packets.map(|length| (2, 1, 0xFEDC_BA98, vec![0xFD; length]));
    capture(version, 3, &records.collect::<Vec<Record>>())
}

/// The window's edge comes to stand at every place of a record.
#[test]
fn records_lie_over_the_edges_of_the_window() {
    for (version, length) in VERSIONS.iter().flat_map(|version| {
        let lengths = [0, 1, 2, 100, 255, 256];
        lengths.map(|length| (*version, length))
    }) {
        for shift in 0..length + 9 {
            let capture = moved_on(version, length, shift);
            assert!(capture.len() > WINDOW);
            let (answer, whole) = rewritten_whole(&capture);
            let mut written = Vec::new();
            let refusal = rewrite::rewrite(&capture[..], &mut written, WINDOW);
            assert_eq!((refusal.expect("a capture"), answer.refusal), (None, None));
            assert!(written == whole, "{version:?} {length} {shift}");
        }
    }
}

#[test]
fn standard_input_is_read_to_its_end() {
    let records = many_records(16, 10_000);
    let folder = Folder::new("rewrite-pipe");
    let (process, mut input) = folder.start_on_pipe(&REWRITE_PIPE);
    write_in_pieces(&mut input, &capture(One, 16, &records));
    drop(input);
    succeeded(&end(process));
    assert!(folder.bytes("new") == capture(Two, 16, &records));
}

#[cfg(target_os = "linux")]
#[test]
fn a_capture_is_never_held_whole() {
    let records = capture(One, 16, &many_records(16, 40_000)).split_off(262);
    let folder = Folder::new("rewrite-memory");
    let (process, mut input) = folder.start_on_pipe(&REWRITE_PIPE);
    input.write_all(&head(One, 16)).expect("a head is read");
    for _ in 0..8 {
        input.write_all(&records).expect("records are read");
    }
    let most = peak(&process);
    drop(input);
    succeeded(&end(process));
    let size = fs::metadata(folder.path("new")).expect("the file").len();
    assert_eq!(size, 263 + 8 * (records.len() + 40_000) as u64);
    assert!(most * 1024 < records.len() * 4, "{most} KiB");
}

/// What stands before the fault is rewritten, and the refusal is told.
fn rewritten_in_part(output: &Output) {
    failed(
        output,
        1,
        "the capture is refused 53 (a record is cut short",
    );
}

#[test]
fn a_record_that_is_cut_short_ends_the_capture() {
    for version in VERSIONS {
        let records = many_records(2, 700);
        let before = capture(version, 2, &records);
        assert!(before.len() > WINDOW);
        let last = record(version, &(1, 1, 9, vec![0xFD; 3]));
        for length in 1..last.len() {
            let old = [&before[..], &last[..length]].concat();
            let folder = folder_with("cut", &old);
            rewritten_in_part(&folder.run(&REWRITE));
            assert!(folder.bytes("new") == capture(Two, 2, &records));
            assert_eq!(rewritten_whole(&old).0.refusal, Some(BAD_RECORD));
            assert_eq!(folder.names(), ["new", "old"]);
        }
    }
}

/// It does not wait for what follows.
#[test]
fn a_field_outside_its_range_ends_the_capture() {
    for old in VERSIONS.map(wrong_captures).concat() {
        let old = [old, vec![0; LONGEST_HEAD]].concat();
        let folder = Folder::new("rewrite-wrong");
        let (process, mut input) = folder.start_on_pipe(&REWRITE_PIPE);
        input.write_all(&old).expect("a pipe has room for it");
        rewritten_in_part(&end(process));
        drop(input);
        assert_eq!(folder.bytes("new"), right_capture(Two));
        assert_eq!(rewritten_whole(&old).1, right_capture(Two));
        assert_eq!(folder.names(), ["new"]);
    }
}

/// That the command is refused for a reason, and that the folder is as it was.
fn leaves_all(folder: &Folder, arguments: &[&str], reason: &str) {
    let before = folder.names();
    failed(&folder.run(arguments), 1, reason);
    assert_eq!(folder.names(), before, "{arguments:?}");
}

#[test]
fn a_refused_head_has_no_new_file() {
    for (head, number) in refused_heads() {
        let folder = folder_with("refused-head", &head);
        let reason = format!("the capture is refused {number} (");
        leaves_all(&folder, &REWRITE, &reason);
    }
}

#[test]
fn a_capture_is_not_written_over_itself() {
    let old = head(One, 1);
    let folder = folder_with("itself", &old);
    fs::hard_link(folder.path("old"), folder.path("hard")).expect("a link");
    symlink("old", folder.path("symbolic")).expect("a link");
    symlink(".", folder.path("folder")).expect("a link");
    for (from, to) in [
        ("old", "old"),
        ("old", "./old"),
        ("old", "hard"),
        ("old", "symbolic"),
        ("old", "folder/hard"),
        ("hard", "old"),
        ("symbolic", "old"),
        ("symbolic", "symbolic"),
    ] {
        let reason = format!("cannot write {to}: it is the capture that is read");
        leaves_all(&folder, &["rewrite", from, to], &reason);
        assert_eq!(folder.bytes("old"), old);
    }
    let process = folder.start(PROGRAM, &["rewrite", "-", "hard"], folder.open("old"));
    failed(&end(process), 1, "hard: it is the capture that is read");
    assert_eq!(folder.bytes("old"), old);
}

#[test]
fn what_is_there_already_stays() {
    let folder = folder_with("there", &head(One, 1));
    folder.put("file", b"kept");
    fs::create_dir(folder.path("folder")).expect("a folder");
    symlink("file", folder.path("symbolic")).expect("a link");
    symlink("nothing", folder.path("dangling")).expect("a link");
    for to in ["file", "folder", "symbolic", "dangling", "."] {
        let reason = format!("cannot write {to}: it is there already");
        leaves_all(&folder, &["rewrite", "old", to], &reason);
    }
    assert_eq!(folder.bytes("file"), b"kept");
    let link = fs::read_link(folder.path("dangling"));
    assert_eq!(link.expect("a link").to_str(), Some("nothing"));
}

#[test]
fn a_place_that_cannot_be_written_has_no_new_file() {
    let folder = folder_with("no-place", &head(One, 1));
    let long = "n".repeat(256);
    for to in ["no/such/folder/new", "old/new", "new/", "", &long] {
        let reason = format!("cannot write {to}: ");
        leaves_all(&folder, &["rewrite", "old", to], &reason);
    }
}

#[test]
fn what_cannot_be_read_has_no_new_file() {
    let folder = folder_with("unreadable", &head(One, 1));
    for from in ["no/such/file", "."] {
        let reason = format!("cannot read {from}: ");
        leaves_all(&folder, &["rewrite", from, "new"], &reason);
    }
    let process = folder.start(PROGRAM, &REWRITE_PIPE, folder.open("."));
    failed(&end(process), 1, "cannot read standard input: ");
    assert_eq!(folder.names(), ["old"]);
}

/// A read that fails once all before it is read.
struct Failing;

impl Read for Failing {
    fn read(&mut self, _room: &mut [u8]) -> io::Result<usize> {
        Err(io::ErrorKind::ConnectionReset.into())
    }
}

#[test]
fn a_read_that_fails_later_leaves_no_file() {
    let old = capture(One, 16, &many_records(16, 2000));
    assert!(old.len() > 3 * WINDOW);
    let folder = Folder::new("rewrite-failing");
    for length in [0, 7, 262, WINDOW, old.len()] {
        let input = old[..length].chain(Failing);
        let kept = rewrite::keep(input, &folder.path("new"));
        assert!(matches!(kept, Err(Failure::Input(_))), "{length}");
        assert!(folder.names().is_empty());
    }
}

/// A file may have some KiB here: what is behind them cannot be written, as on a full disk.
#[test]
fn a_write_that_fails_leaves_no_file() {
    let folder = folder_with("full", &capture(One, 16, &many_records(16, 2000)));
    let limited = "trap '' XFSZ; ulimit -f 64; exec \"$0\" rewrite old new";
    let process = folder.start("/bin/sh", &["-c", limited, PROGRAM], folder.open("old"));
    failed(&end(process), 1, "cannot write new: ");
    assert_eq!(folder.names(), ["old"]);
    succeeded(&folder.run(&REWRITE));
}

/// Waits for the file that is not whole yet.
fn wait_for_file(folder: &Folder) {
    let deadline = Instant::now() + PATIENCE;
    while folder.names().is_empty() {
        assert!(Instant::now() < deadline, "no file");
        sleep(Duration::from_millis(10));
    }
}

#[test]
fn a_file_is_there_once_it_is_whole() {
    let folder = Folder::new("rewrite-whole");
    let (process, mut input) = folder.start_on_pipe(&REWRITE_PIPE);
    input.write_all(&head(One, 1)).expect("a head is read");
    wait_for_file(&folder);
    assert!(!folder.path("new").exists());
    drop(input);
    succeeded(&end(process));
    assert_eq!(folder.names(), ["new"]);
}

#[test]
fn what_comes_there_meanwhile_stays() {
    let folder = Folder::new("rewrite-meanwhile");
    let (process, mut input) = folder.start_on_pipe(&REWRITE_PIPE);
    input.write_all(&head(One, 1)).expect("a head is read");
    wait_for_file(&folder);
    folder.put("new", b"kept");
    drop(input);
    failed(&end(process), 1, "cannot write new: it is there already");
    assert_eq!(folder.names(), ["new"]);
    assert_eq!(folder.bytes("new"), b"kept");
}

/// It is sent again, since the first may come just before a read that waits.
fn stop(process: &mut Child, number: i32) {
    let deadline = Instant::now() + PATIENCE;
    while process.try_wait().expect("a process to wait for").is_none() {
        assert!(Instant::now() < deadline, "the process did not end");
        signal(process, number);
        sleep(Duration::from_millis(10));
    }
}

#[test]
fn a_signal_leaves_no_file() {
    for number in [2, 15] {
        let folder = Folder::new("rewrite-signal");
        let (mut process, mut input) = folder.start_on_pipe(&REWRITE_PIPE);
        let old = capture(One, 16, &many_records(16, 1000));
        input.write_all(&old).expect("records are read");
        wait_for_file(&folder);
        stop(&mut process, number);
        drop(input);
        failed(&end(process), 1, "standard input: stopped by a signal");
        assert!(folder.names().is_empty());
    }
}

/// As one that was killed leaves it.
#[test]
fn a_file_of_another_run_stays() {
    let folder = Folder::new("rewrite-another");
    let another = format!(".udgornwy-{}", std::process::id());
    folder.put(&another, b"kept");
    let kept = rewrite::keep(&head(One, 1)[..], &folder.path("new"));
    assert!(matches!(kept, Ok(None)));
    assert_eq!(folder.names(), [&another, "new"]);
    assert_eq!(folder.bytes(&another), b"kept");
}

/// It bears passwords, whoever may read the old file.
#[test]
fn the_owner_alone_may_read_the_new_file() {
    for mode in [0o400, 0o644] {
        let folder = folder_with("permissions", &head(One, 1));
        let set = fs::set_permissions(folder.path("old"), Permissions::from_mode(mode));
        set.expect("permissions");
        succeeded(&folder.run(&REWRITE));
        let metadata = fs::metadata(folder.path("new")).expect("the file");
        assert_eq!(metadata.permissions().mode() & 0o777, 0o600, "{mode:o}");
    }
}

/// With the capture of E1, E2 and a record that is cut short.
#[test]
fn the_clients_page_shows_what_is_seen() {
    let records = [
        (0, 0, 1000, E1.to_vec()),
        (0, 1, 1003, E2.to_vec()),
        (0, 0, 2000, vec![0xFD]),
    ];
    let mut old = capture(One, 1, &records);
    old.pop();
    let folder = Folder::new("rewrite-page");
    folder.put("monday.vlg", &old);
    let page = shown_after("docs/CLIENT.md", "## Rewriting a capture");
    let commands = page
        .lines()
        .filter_map(|line| line.strip_prefix("$ udgornwy "));
    let seen = commands.map(|command| {
        let output = folder.run(&command.split(' ').collect::<Vec<&str>>());
        format!(
            "$ udgornwy {command}\n{}{}",
            shown(&output),
            errors(&output)
        )
    });
    assert_eq!(seen.collect::<String>(), page);
    assert_eq!(folder.names(), ["monday-2.vlg", "monday.vlg"]);
}

#[test]
fn bad_arguments_are_refused() {
    for (arguments, reason) in [
        (&["rewrite"][..], "there is no file"),
        (&["rewrite", "a"], "there is no new file"),
        (&["rewrite", "a", "-"], "rewritten to a file, not to `-`"),
        (&["rewrite", "a", "b", "c"], "`c` is not wanted here"),
        (
            &["rewrite", "--raw", "a", "b"],
            "there is no option `--raw`",
        ),
    ] {
        failed(&run(arguments), 2, reason);
    }
}
