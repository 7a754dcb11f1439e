//! The table of a capture: what the file holds, when there is none, and what is read of one.

mod common;

use common::captures::Version::{One, Two};
use common::captures::*;
use common::*;
use std::fmt::Write as _;
use std::fs;
use std::io::{self, Read, Write};
use std::os::unix::fs::{symlink, PermissionsExt};
use std::process::Output;
use udgornwy::capture::WINDOW;
use udgornwy::export::{self, Exported};
use udgornwy::ffi::captures::{BAD_RECORD, LONGEST_HEAD};
use udgornwy::ffi::tables::{self, Fault, Next};
use udgornwy::import::import;
use udgornwy::new_file::Failure;
use udgornwy::refusal::Refusal;

const EXPORT: [&str; 3] = ["export", "capture", "table"];
const EXPORT_PIPE: [&str; 3] = ["export", "-", "table"];

const HEADER: &str = "\"board\",\"direction\",\"counter\",\"number\",\"value\"\r\n";

/// A folder with a file.
fn folder_with(name: &str, file: &str, bytes: &[u8]) -> Folder {
    let folder = Folder::new(&format!("tables-{name}"));
    folder.put(file, bytes);
    folder
}

/// A report: the index of its board, the counter, the parameter, and its value, if it is known.
type Report = (u16, u32, u16, Option<Vec<u8>>);

fn digits(bytes: &[u8]) -> String {
    bytes.iter().fold(String::new(), |mut text, byte| {
        let _ = write!(text, "{byte:02X}");
        text
    })
}

/// The ID that `captures::head` gives to a board.
fn id(index: u16) -> Vec<u8> {
    index.to_le_bytes().repeat(8)
}

fn line((index, counter, number, value): &Report) -> String {
    let (id, value) = (
        digits(&id(*index)),
        digits(value.as_deref().unwrap_or_default()),
    );
    format!("\"x{id}\",\"1\",\"{counter}\",\"0x{number:04X}\",\"x{value}\"\r\n")
}

fn table(reports: &[Report]) -> String {
    let lines: String = reports.iter().map(line).collect();
    format!("{HEADER}{lines}")
}

/// The data block of reports, each with its page, and with its length where it is known.
fn block(reports: &[Report]) -> Vec<u8> {
    let items = reports.iter().flat_map(|(_, _, number, value)| {
        let [page, low] = number.to_be_bytes();
        match value {
            None => vec![0xFF, page, 0xFD, low],
            Some(value) => [&[0xFF, page, 0xFE, value.len() as u8, low], &value[..]].concat(),
        }
    });
    items.collect()
}

/// What a response of some boards reports: values of one byte and of many, unknown parameters, and nothing.
fn reports_of(place: usize, boards: u16) -> Vec<Report> {
    let index = (place * 7 % usize::from(boards)) as u16;
    let counter = (place as u32).wrapping_mul(0x9E37_79B9);
    let value = |length: usize| Some((0..length).map(|at| (at * place + 1) as u8).collect());
    let report = |number: u16, value| (index, counter, number, value);
    match place % 4 {
        0 => vec![
            report(0x0002, value(1)),
            report(0xFFFB, None),
            report(0x0100, value(3)),
        ],
        1 => vec![report(0x0077, value(place % 224 + 1))],
        2 => (0..30)
            .map(|low| report(low, value(1 + usize::from(low % 2))))
            .collect(),
        _ => vec![],
    }
}

/// Responses with their reports, and between them requests, refused responses and empty packets.
fn mixed(boards: u16, count: usize) -> (Vec<Record>, Vec<Report>, u64) {
    let judged = judged_packets();
    let (mut records, mut reports, mut refused) = (Vec::new(), Vec::new(), 0);
    for place in 0..count {
        let given = reports_of(place, boards);
        let (index, counter) = given.first().map_or((0, 0), |report| (report.0, report.1));
        let packet = response(ID.as_bytes(), "", &block(&given));
        records.push((index, 1, counter, packet));
        reports.extend(given);
        let (direction, packet, number) = &judged[place % judged.len()];
        if *direction == 1 && *number == 0 {
            continue;
        }
        refused += u64::from(*direction);
        records.push((0, *direction, 5, packet.clone()));
    }
    (records, reports, refused)
}

/// What was exported, and the count of the refused responses on standard error.
fn succeeded(output: &Output, refused: u64) {
    assert_eq!(listing(output), "");
    assert_eq!(errors(output), format!("refused,{refused}\n"));
}

/// The exported call's answer, and what it writes.
fn exported_whole(capture: &[u8]) -> (Exported, String) {
    let mut buffer = vec![0; HEADER.len() + 40 * capture.len()];
    let exported = tables::export_table(&mut buffer, capture).expect("room for the table");
    buffer.truncate(exported.length);
    let table = String::from_utf8(buffer).expect("text");
    let (refused, refusal) = (exported.refused, exported.refusal);
    (Exported { refused, refusal }, table)
}

/// Through a window of this size.
fn exported_by(window: usize, capture: &[u8]) -> (Exported, String) {
    let mut table = Vec::new();
    let exported = export::export(capture, &mut table, window).expect("a head");
    (exported, String::from_utf8(table).expect("text"))
}

/// The reports that the calls read in a table.
fn read_back(table: &str) -> Vec<Report> {
    let bytes = |digits: &[u8]| {
        let mut bytes = vec![0; digits.len() / 2];
        let read = tables::read_hex(&mut bytes, digits);
        assert_eq!(read, Ok(bytes.len()));
        bytes
    };
    let mut reports = Vec::new();
    let mut next = tables::next_row(tables::open_table(table.as_bytes()).expect("the header"));
    while let Next::Row(row, rest) = next {
        let board = bytes(row.board);
        let index = u16::from_le_bytes([board[0], board[1]]);
        assert_eq!(board, id(index));
        let value = Some(bytes(row.value)).filter(|value| !value.is_empty());
        reports.push((index, row.counter, row.number, value));
        next = tables::next_row(rest);
    }
    assert_eq!(next, Next::End);
    reports
}

#[test]
fn a_table_has_the_reports_of_the_accepted_responses() {
    for version in VERSIONS {
        let (records, reports, refused) = mixed(16, 3000);
        assert!(refused > 1000 && reports.len() > 20_000);
        let capture = capture(version, 16, &records);
        let folder = folder_with("reports", "capture", &capture);
        succeeded(&folder.run(&EXPORT), refused);
        let text = String::from_utf8(folder.bytes("table")).expect("text");
        assert!(text == table(&reports), "another table");
        assert!(text == exported_whole(&capture).1, "other than the call's");
        assert!(folder.bytes("capture") == capture, "the capture is changed");
        assert_eq!(folder.names(), ["capture", "table"]);
        assert!(read_back(&text) == reports, "other reports");
        let read = folder.run(&["import", "table"]);
        // Every fourth response reports nothing.
        let said = format!("{} reports of 12 boards\n", reports.len());
        assert_eq!((listing(&read), errors(&read)), (said, String::new()));
    }
}

/// Taken apart here, and by quotes alone: five fields, of which none has a quote, a comma or an end of line in it.
#[test]
fn every_field_is_in_quotes() {
    let (records, reports, _) = mixed(1000, 400);
    let text = exported_whole(&capture(Two, 1000, &records)).1;
    let lines = text.strip_suffix("\r\n").expect("an end").split("\r\n");
    let mut count = 0;
    for line in lines {
        let inside = line
            .strip_prefix('"')
            .and_then(|line| line.strip_suffix('"'));
        let fields: Vec<&str> = inside.expect("quotes").split("\",\"").collect();
        assert_eq!(fields.len(), 5, "{line}");
        let mut bytes = fields.iter().flat_map(|field| field.bytes());
        assert!(bytes.all(|byte| byte.is_ascii_alphanumeric()), "{line}");
        count += 1;
    }
    assert_eq!(count, reports.len() + 1);
}

/// A spreadsheet takes 00000000000412E7 for 4.12E+09. The board is the capture's, not the packet's.
#[test]
fn an_id_stays_what_it_is() {
    let head = [&b"VLG\x02\x00\x01\x00"[..], &[0; 13], &[0x04, 0x12, 0xE7]];
    let packet = response(ID.as_bytes(), "", &[0x02, 0x03]);
    let capture = [head.concat(), record(Two, &(0, 1, u32::MAX, packet))].concat();
    let row = "\"x000000000000000000000000000412E7\",\"1\",\"4294967295\",\"0x0002\",\"x03\"\r\n";
    assert_eq!(exported_whole(&capture).1, format!("{HEADER}{row}"));
}

#[test]
fn a_capture_of_no_reports_is_a_header() {
    for (version, boards) in [(One, 1), (One, 16), (Two, 1), (Two, 1000)] {
        let requests = [
            (0, 0, 7, E1.to_vec()),
            (0, 1, 8, response(ID.as_bytes(), "", &[])),
        ];
        for records in [&[][..], &requests] {
            let folder = folder_with("no-reports", "capture", &capture(version, boards, records));
            succeeded(&folder.run(&EXPORT), 0);
            assert_eq!(folder.bytes("table"), HEADER.as_bytes());
            let read = folder.run(&["import", "table"]);
            assert_eq!(listing(&read), "0 reports of 0 boards\n");
        }
    }
}

/// The window's edge comes to stand at every place of a record.
#[test]
fn records_lie_over_the_edges_of_the_window() {
    for version in VERSIONS {
        let report = (2, 0xFEDC_BA98, 0x0063, Some(vec![0x46, 0x00]));
        let packet = response(
            ID.as_bytes(),
            PASSWORD,
            &block(std::slice::from_ref(&report)),
        );
        let size = packet.len() + 9;
        let count = 2 * LONGEST_HEAD / size;
        for shift in 0..size {
            let mut records = vec![(0, 0, 0, vec![0; shift])];
            records.resize(count + 1, (2, 1, 0xFEDC_BA98, packet.clone()));
            records.push((0, 1, 1, vec![0xFD]));
            let capture = capture(version, 3, &records);
            let (exported, text) = exported_by(0, &capture);
            assert_eq!(exported, exported_whole(&capture).0);
            let (refused, refusal) = (1, None);
            assert_eq!(exported, Exported { refused, refusal });
            assert!(
                text == table(&vec![report.clone(); count]),
                "{version:?} {shift}"
            );
        }
    }
}

/// The count of the refused goes on from window to window, and the widest row fits its text.
#[test]
fn rows_are_longest_for_short_reports() {
    let report = (999, u32::MAX, 0x0001, Some(vec![0xFF]));
    let packet = response(&[0; 16], "", &[0x01, 0xFF].repeat(116));
    assert_eq!(packet.len(), 256);
    let mut records = vec![(999, 1, u32::MAX, packet); 600];
    records.resize(900, (0, 1, 0, vec![]));
    let capture = capture(Two, 1000, &records);
    for window in [0, WINDOW] {
        let (exported, text) = exported_by(window, &capture);
        assert_eq!((exported.refused, exported.refusal), (300, None));
        assert!(text == table(&vec![report.clone(); 600 * 116]));
    }
}

/// What the Rattle program prints of the file `capture`, where it is built: the table, and the lines behind it.
fn proved_prints(folder: &Folder, text: &str) {
    let proved = stored("target/bin/export");
    if proved.is_file() {
        let printed = listing(&end(folder.start(proved, &[], folder.open("capture"))));
        assert!(printed == text, "another text than the program's");
    }
}

#[test]
fn standard_input_is_read_to_its_end() {
    let (records, reports, refused) = mixed(1000, 2000);
    let capture = capture(Two, 1000, &records);
    let folder = folder_with("pipe", "capture", &capture);
    let (process, mut input) = folder.start_on_pipe(&EXPORT_PIPE);
    write_in_pieces(&mut input, &capture);
    drop(input);
    succeeded(&end(process), refused);
    let text = String::from_utf8(folder.bytes("table")).expect("text");
    assert!(text == table(&reports), "another table");
    proved_prints(&folder, &format!("{text}refused,{refused}\n"));
    let read = end(folder.start(PROGRAM, &["import", "-"], folder.open("table")));
    let said = format!("{} reports of ", reports.len());
    assert!(listing(&read).starts_with(&said), "{}", shown(&read));
}

/// A table of more than 100 MB, of which no more than a window is held, and which is read whole.
#[cfg(target_os = "linux")]
#[test]
fn a_long_table_is_written_and_read() {
    let packet = response(&[0; 16], "", &[0x01, 0xFF].repeat(116));
    let records: Vec<Record> = vec![(0, 1, 1_000_000_000, packet); 1000];
    let records = capture(Two, 1, &records).split_off(23);
    let folder = Folder::new("tables-long");
    let (process, mut input) = folder.start_on_pipe(&EXPORT_PIPE);
    input.write_all(&head(Two, 1)).expect("a head is read");
    for _ in 0..14 {
        input.write_all(&records).expect("records are read");
    }
    let most = peak(&process);
    drop(input);
    succeeded(&end(process), 0);
    let rows = 14 * 1000 * 116;
    let size = fs::metadata(folder.path("table")).expect("the file").len();
    assert_eq!(size, (HEADER.len() + rows * 69) as u64);
    assert!(size > 100_000_000 && most < 16 * 1024, "{size}, {most} KiB");
    let read = folder.run(&["import", "table"]);
    assert_eq!(listing(&read), format!("{rows} reports of 1 board\n"));
}

/// The lines behind the table, and why the capture is refused.
fn told(output: &Output, refused: u64, number: u16) {
    let errors = errors(output);
    assert_eq!(output.status.code(), Some(1), "{errors}");
    let lines =
        format!("refused,{refused}\ncapture,{number}\nudgornwy: the capture is refused {number} (");
    assert!(errors.starts_with(&lines), "{errors}");
    assert_eq!((errors.lines().count(), shown(output).as_str()), (3, ""));
}

#[test]
fn a_record_that_is_cut_short_ends_the_table() {
    for version in VERSIONS {
        let (records, reports, refused) = mixed(2, 600);
        let before = capture(version, 2, &records);
        assert!(before.len() > WINDOW);
        let last = record(version, &(1, 1, 9, E2.to_vec()));
        for length in [1, 8, 9, last.len() - 1] {
            let cut = [&before[..], &last[..length]].concat();
            let folder = folder_with("cut", "capture", &cut);
            told(&folder.run(&EXPORT), refused, 53);
            assert!(folder.bytes("table") == table(&reports).as_bytes());
            assert_eq!(exported_whole(&cut).0.refusal, Some(BAD_RECORD));
            let lines = format!("refused,{refused}\ncapture,53\n");
            proved_prints(&folder, &(table(&reports) + &lines));
            assert_eq!(folder.names(), ["capture", "table"]);
        }
    }
}

/// It does not wait for what follows.
#[test]
fn a_field_outside_its_range_ends_the_table() {
    let reports = [(0, 9, 0x0001, Some(vec![0])), (0, 9, 0x0002, Some(vec![3]))];
    for version in VERSIONS {
        for wrong in wrong_captures(version) {
            let size = head(version, 1).len();
            let first = record(version, &(0, 1, 9, E2.to_vec()));
            let parts = [&wrong[..size], &first, &wrong[size..], &[0; LONGEST_HEAD]];
            let folder = Folder::new("tables-wrong");
            let (process, mut input) = folder.start_on_pipe(&EXPORT_PIPE);
            input
                .write_all(&parts.concat())
                .expect("a pipe has room for it");
            told(&end(process), 1, 53);
            drop(input);
            assert_eq!(folder.bytes("table"), table(&reports).as_bytes());
            assert_eq!(folder.names(), ["table"]);
        }
    }
}

#[test]
fn a_refused_head_has_no_table() {
    for (head, number) in refused_heads() {
        let folder = folder_with("refused-head", "capture", &head);
        told(&folder.run(&EXPORT), 0, number);
        assert_eq!(folder.names(), ["capture"]);
        proved_prints(&folder, &format!("{HEADER}refused,0\ncapture,{number}\n"));
        let (exported, text) = exported_whole(&head);
        assert_eq!(
            (exported.refusal, text.as_str()),
            (Some(Refusal(number)), HEADER)
        );
    }
}

/// That the command is refused for a reason, and that the folder is as it was.
fn leaves_all(folder: &Folder, arguments: &[&str], reason: &str) {
    let before = folder.names();
    failed(&folder.run(arguments), 1, reason);
    assert_eq!(folder.names(), before, "{arguments:?}");
}

#[test]
fn what_is_there_already_stays() {
    let folder = folder_with("there", "capture", &head(One, 1));
    folder.put("file", b"kept");
    fs::hard_link(folder.path("capture"), folder.path("hard")).expect("a link");
    fs::create_dir(folder.path("folder")).expect("a folder");
    symlink("file", folder.path("symbolic")).expect("a link");
    symlink("nothing", folder.path("dangling")).expect("a link");
    for to in ["file", "folder", "symbolic", "dangling", "."] {
        let reason = format!("cannot write {to}: it is there already");
        leaves_all(&folder, &["export", "capture", to], &reason);
    }
    for to in ["capture", "./capture", "hard"] {
        let reason = format!("cannot write {to}: it is the capture that is read");
        leaves_all(&folder, &["export", "capture", to], &reason);
    }
    assert_eq!(folder.bytes("file"), b"kept");
    assert_eq!(folder.bytes("capture"), head(One, 1));
    let link = fs::read_link(folder.path("dangling"));
    assert_eq!(link.expect("a link").to_str(), Some("nothing"));
}

#[test]
fn what_cannot_be_read_or_written_has_no_table() {
    let folder = folder_with("unreadable", "capture", &head(One, 1));
    for from in ["no/such/file", "."] {
        let reason = format!("cannot read {from}: ");
        leaves_all(&folder, &["export", from, "table"], &reason);
        leaves_all(&folder, &["import", from], &reason);
    }
    for to in ["no/such/folder/table", "capture/table", "table/", ""] {
        let reason = format!("cannot write {to}: ");
        leaves_all(&folder, &["export", "capture", to], &reason);
    }
    for arguments in [&EXPORT_PIPE[..], &["import", "-"]] {
        let process = folder.start(PROGRAM, arguments, folder.open("."));
        failed(&end(process), 1, "cannot read standard input: ");
    }
    assert_eq!(folder.names(), ["capture"]);
}

/// A read that fails once all before it is read.
struct Failing;

impl Read for Failing {
    fn read(&mut self, _room: &mut [u8]) -> io::Result<usize> {
        Err(io::ErrorKind::ConnectionReset.into())
    }
}

#[test]
fn a_read_that_fails_later_leaves_no_table() {
    let capture = capture(One, 16, &mixed(16, 2000).0);
    assert!(capture.len() > 3 * WINDOW);
    let folder = Folder::new("tables-failing");
    for length in [0, 7, 262, WINDOW, capture.len()] {
        let input = capture[..length].chain(Failing);
        let kept = export::keep(input, &folder.path("table"));
        assert!(matches!(kept, Err(Failure::Input(_))), "{length}");
        assert!(folder.names().is_empty());
    }
}

/// A file may have some KiB here: what is behind them cannot be written, as on a full disk.
#[test]
fn a_write_that_fails_leaves_no_table() {
    let (records, _, refused) = mixed(16, 2000);
    let folder = folder_with("full", "capture", &capture(One, 16, &records));
    let limited = "trap '' XFSZ; ulimit -f 64; exec \"$0\" export capture table";
    let process = folder.start("/bin/sh", &["-c", limited, PROGRAM], folder.open("capture"));
    failed(&end(process), 1, "cannot write table: ");
    assert_eq!(folder.names(), ["capture"]);
    succeeded(&folder.run(&EXPORT), refused);
}

/// A report of a Wi-Fi password is in it like any other.
#[test]
fn the_owner_alone_may_read_the_table() {
    let folder = folder_with("permissions", "capture", &head(One, 1));
    succeeded(&folder.run(&EXPORT), 0);
    let metadata = fs::metadata(folder.path("table")).expect("the file");
    assert_eq!(metadata.permissions().mode() & 0o777, 0o600);
}

const ROW: &str = "\"x000000000000000000000000000412E7\",\"1\",\"1003\",\"0x0063\",\"x4600\"\r\n";

/// The row with a part of it changed.
fn changed(from: &str, to: &str) -> String {
    assert!(ROW.contains(from));
    ROW.replacen(from, to, 1)
}

/// Lines that are refused, each with its number.
fn bad_lines() -> Vec<(String, u16)> {
    let id = "000000000000000000000000000412E7";
    let last = "4600\"\r\n";
    let long = "AB".repeat(LONGEST_DIGITS / 2 + 1);
    vec![
        (String::from("\r\n"), 61),
        (ROW.replace('"', ""), 61),
        (changed("\"1003\"", "1003"), 61),
        (changed("\"1003\"", "\"1003"), 61),
        (changed("\"1003\"", "\"1003\" "), 61),
        (changed("\"1003\",", "\"1003\";"), 61),
        (changed("\"1003\"", "\"10\"03\""), 61),
        (changed(last, "4600\"\n"), 61),
        (changed(last, "4600\",\r\n"), 61),
        (changed("\"1003\",", ""), 62),
        (changed("\"1003\",", "\"1003\",\"\","), 62),
        (changed("\"1003\"", "\"10\"\"03\""), 63),
        (changed("\"1003\"", "\"1\n003\""), 63),
        (changed("\"1003\"", "\"01003\""), 63),
        (changed("\"1003\"", "\"1,003\""), 63),
        (changed("\"1003\"", "\"4294967296\""), 63),
        (changed("\"1003\"", "\"\""), 63),
        (changed("\"1\"", "\"0\""), 63),
        (changed(&format!("x{id}"), id), 63),
        (changed(&format!("x{id}"), "4.12E+09"), 63),
        (changed("0412E7", "0412e7"), 63),
        (changed("0412E7", "0412"), 63),
        (changed("0x0063", "0063"), 63),
        (changed("0x0063", "99"), 63),
        (changed("x4600", "x460"), 63),
        (changed("x4600", "4600"), 63),
        (changed("4600", &long), 63),
    ]
}

const LONGEST_DIGITS: usize = 2 * 255;

/// Behind two rows that are right; another follows, which is not read.
#[test]
fn a_line_out_of_form_is_told_with_its_number() {
    for (line, number) in bad_lines() {
        let text = format!("{HEADER}{ROW}{ROW}{line}{ROW}");
        let imported = import(text.as_bytes());
        let refusal = Refusal(number);
        assert_eq!(imported.fault, Some(Fault { line: 4, refusal }), "{line:?}");
        assert_eq!((imported.reports, imported.boards), (2, 1), "{line:?}");
    }
}

/// Whatever is wrong in it.
#[test]
fn a_last_line_without_its_end_is_61() {
    for (line, _) in bad_lines().iter().filter(|(line, _)| line != "\r\n") {
        let text = format!("{HEADER}{ROW}{}", line.trim_end());
        let refusal = Refusal(61);
        let fault = import(text.as_bytes()).fault;
        assert_eq!(fault, Some(Fault { line: 3, refusal }), "{line:?}");
    }
}

#[test]
fn the_longest_value_and_the_greatest_counter_are_in_form() {
    let long = "AB".repeat(LONGEST_DIGITS / 2);
    let longest = changed("4600", &long);
    let greatest = changed("\"1003\"", "\"4294967295\"");
    let imported = import(format!("{HEADER}{longest}{greatest}").as_bytes());
    assert_eq!(imported.to_string(), "2 reports of 1 board");
    assert_eq!(imported.fault, None);
}

#[test]
fn a_header_that_differs_is_told_at_line_1() {
    let line = HEADER.trim_end();
    for (text, number) in [
        (String::new(), 60),
        (String::from("\r\n"), 60),
        (ROW.to_string(), 60),
        (format!("{line}\n{ROW}"), 60),
        (format!("{}{ROW}", HEADER.replace('"', "")), 60),
        (format!("\u{FEFF}{HEADER}{ROW}"), 60),
        (HEADER.to_uppercase(), 60),
        (line.to_string(), 61),
    ] {
        let folder = folder_with("header", "table", text.as_bytes());
        let output = folder.run(&["import", "table"]);
        assert_eq!(output.status.code(), Some(1));
        assert_eq!(shown(&output), "0 reports of 0 boards\n");
        let told = format!("udgornwy: table: line 1: refused {number} (");
        assert!(errors(&output).starts_with(&told), "{}", errors(&output));
        assert_eq!(errors(&output).lines().count(), 1);
    }
}

#[test]
fn a_refused_table_has_its_reports_before() {
    let text = format!(
        "{HEADER}{ROW}{}{}",
        changed("0412E7", "0412E8"),
        changed("0x0063", "99")
    );
    let folder = folder_with("refused", "table", text.as_bytes());
    let output = folder.run(&["import", "table"]);
    let same = end(folder.start(PROGRAM, &["import", "-"], folder.open("table")));
    assert_eq!(
        (output.status.code(), same.status.code()),
        (Some(1), Some(1))
    );
    assert_eq!(
        (shown(&output), shown(&same)),
        (shown(&same), String::from("2 reports of 2 boards\n"))
    );
    let told = "line 4: refused 63 (a field is not in its form, ";
    assert!(errors(&output).starts_with(&format!("udgornwy: table: {told}")));
    assert!(errors(&same).starts_with(&format!("udgornwy: standard input: {told}")));
}

/// With the capture of E1, E2 and a response that is refused.
#[test]
fn the_clients_page_shows_what_is_seen() {
    let mut damaged = E2.to_vec();
    damaged[31] ^= 1;
    let records = [
        (0, 0, 1000, E1.to_vec()),
        (0, 1, 1003, E2.to_vec()),
        (0, 1, 2003, damaged),
    ];
    let folder = folder_with("page", "monday.vlg", &capture(Two, 1, &records));
    let page = shown_after("docs/CLIENT.md", "## The table of a capture");
    let commands = page.lines().filter_map(|line| line.strip_prefix("$ "));
    let seen = commands.map(|command| {
        let output = match command.split(' ').collect::<Vec<&str>>()[..] {
            ["udgornwy", ref arguments @ ..] => folder.run(arguments),
            // Lines end in CR LF, which a terminal does not show.
            ["cat", name] => return format!("$ {command}\n{}", text_of(&folder, name)),
            _ => panic!("another command: {command}"),
        };
        format!("$ {command}\n{}{}", shown(&output), errors(&output))
    });
    assert_eq!(seen.collect::<String>(), page);
    let text = text_of(&folder, "monday.csv");
    let changed = text.replace("\"1003\",\"0x0002\"", "\"1,003\",\"0x0002\"");
    folder.put("changed.csv", changed.replace('\n', "\r\n").as_bytes());
    let output = folder.run(&["import", "changed.csv"]);
    let page = shown_after("docs/CLIENT.md", "## Reading a table");
    let command = "$ udgornwy import changed.csv\n";
    assert_eq!(
        format!("{command}{}{}", shown(&output), errors(&output)),
        page
    );
}

fn text_of(folder: &Folder, name: &str) -> String {
    let text = String::from_utf8(folder.bytes(name)).expect("text");
    text.replace("\r\n", "\n")
}

#[test]
fn bad_arguments_are_refused() {
    for (arguments, reason) in [
        (&["export"][..], "there is no file"),
        (&["export", "a"], "there is no new file"),
        (
            &["export", "a", "-"],
            "a table is written to a file, not to `-`",
        ),
        (&["export", "a", "b", "c"], "`c` is not wanted here"),
        (&["export", "--raw", "a", "b"], "there is no option `--raw`"),
        (&["import"], "there is no file"),
        (&["import", "a", "b"], "`b` is not wanted here"),
        (&["import", "--raw", "a"], "there is no option `--raw`"),
    ] {
        failed(&run(arguments), 2, reason);
    }
}
