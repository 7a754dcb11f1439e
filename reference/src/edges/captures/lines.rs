//! The longest lines, and lines that are no call on captures.

use super::{A, ONE, ONE_BOARD, TWO, record, written};
use crate::edges::Edges;
use crate::hex;

pub fn add(edges: &mut Edges) {
    long_lines(edges);
    long_writes(edges);
    bad_lines(edges);
}

fn long_lines(edges: &mut Edges) {
    edges.rule("Lines of 65,536 characters: a capture of 32,764 bytes read and summed up, sound and with its last byte missing");
    // A head, so many empty records and one with these bytes: 22, 4,091 times 8 and 14, or 23, 3,636 times 9 and 17.
    for (form, count, packet) in [
        (ONE, 4_091, "AAAAAAAAAAAA"),
        (TWO, 3_636, "AAAAAAAAAAAAAAAA"),
    ] {
        let capture = format!("{} {}", empty_records(count), record(0, packet));
        let capture = form.bytes(&capture);
        let (whole, cut) = (hex::field(&capture), hex::field(&capture[..32_763]));
        let shown = format!(" id:{A}{}", " rec:0.0.0.-".repeat(count));
        let read = format!("version {}{shown}", form.version);
        let last = format!(" rec:0.0.0.{packet}");
        edges.line(format!("capread {whole}"), format!("{read}{last}"));
        edges.line(format!("summary {whole}"), format!("0,2,{}", count + 1));
        edges.line(format!("capread {cut}"), format!("{read} refused 53"));
        edges.line(format!("summary {cut}"), format!("0,2,{count}|refused,53"));
    }
    edges.rule("A line of 65,536 characters: 32,760 bytes of version 1, rewritten as more than a line can have");
    let capture = format!("{} {}", empty_records(4_091), record(0, "AAAA"));
    let whole = hex::field(&ONE.bytes(&capture));
    edges.line(format!("rewrite 1048576 {whole}"), written(&capture));
}

fn long_writes(edges: &mut Edges) {
    edges.rule("A line of 65,536 characters: as many records as it can have");
    let head = format!("capwrite 1048576 {A}");
    let count = (65_536 - head.len()) / 8;
    let rest = (65_536 - head.len()) % 8;
    let records = " 0.0.0.-".repeat(count - 1);
    let counter = "1".repeat(rest + 1);
    let line = format!("{head}{records} 0.2.{counter}.-");
    edges.line(line, "refused 53");
    let line = format!("{head}{records} 0.0.0.-");
    edges.line(line, written(&empty_records(count)));
}

/// Board A and so many records without a packet.
fn empty_records(count: usize) -> String {
    let record = format!(" {}", record(0, ""));
    format!("{ONE_BOARD}{}", record.repeat(count))
}

/// Bad forms of the calls on captures.
const BAD: [&str; 86] = [
    "capread",
    "capread ",
    "capread  -",
    "capread -  ",
    "capread - ",
    "capread - -",
    "capread 5",
    "capread 564c47",
    "capread 564C4",
    "capread 0x564C47",
    "capread 56 4C 47",
    "capread VLG",
    "capread --",
    "capread -\r",
    "capread\t-",
    "Capread -",
    "CAPREAD -",
    "capreads -",
    "summary",
    "summary ",
    "summary  -",
    "summary - -",
    "summary 5",
    "summary 5g",
    "Summary -",
    "summaries -",
    "capwrite",
    "capwrite 0",
    "capwrite 0 ",
    "capwrite -",
    "capwrite - -",
    "capwrite 00 -",
    "capwrite 022 -",
    "capwrite +1 -",
    "capwrite -1 -",
    "capwrite 1.0 -",
    "capwrite 1048577 -",
    "capwrite 4294967296 -",
    "capwrite 18446744073709551616 -",
    "capwrite 0 ,",
    "capwrite 0 00,",
    "capwrite 0 ,00",
    "capwrite 0 00,,00",
    "capwrite 0 -,-",
    "capwrite 0 00,-",
    "capwrite 0 -,00",
    "capwrite 0 0",
    "capwrite 0 000,0",
    "capwrite 0 0a",
    "capwrite 0 00 ,00",
    "capwrite 0  -",
    "capwrite 0 - ",
    "capwrite 0 - -",
    "capwrite 0 - 0",
    "capwrite 0 - 0.0",
    "capwrite 0 - 0.0.0",
    "capwrite 0 - 0.0.0.",
    "capwrite 0 - .0.0.-",
    "capwrite 0 - 0..0.-",
    "capwrite 0 - 0.0..-",
    "capwrite 0 - 0.0.0.-.",
    "capwrite 0 - 0.0.0.-.-",
    "capwrite 0 - 0:0:0:-",
    "rewrite",
    "rewrite ",
    "rewrite -",
    "rewrite 0",
    "rewrite 0 ",
    "rewrite 0  -",
    "rewrite 0 - ",
    "rewrite 0 - -",
    "rewrite - -",
    "rewrite - 0",
    "rewrite 00 -",
    "rewrite +1 -",
    "rewrite -1 -",
    "rewrite 1048577 -",
    "rewrite 18446744073709551616 -",
    "rewrite 0 5",
    "rewrite 0 564c47",
    "rewrite 0 56 4C",
    "rewrite 0 --",
    "rewrite 0 -\r",
    "Rewrite 0 -",
    "rewrites 0 -",
    "caprewrite 0 -",
];

/// Records in a bad form; the writer would refuse the call anyway.
const BAD_RECORDS: [&str; 23] = [
    "65536.0.0.-",
    "00.0.0.-",
    "01.0.0.-",
    "-1.0.0.-",
    "+0.0.0.-",
    "0x0.0.0.-",
    "4294967296.0.0.-",
    "0.256.0.-",
    "0.00.0.-",
    "0.-0.0.-",
    "0.65536.0.-",
    "0.0.4294967296.-",
    "0.0.18446744073709551616.-",
    "0.0.00.-",
    "0.0.-.-",
    "0.0.1e3.-",
    "0.0.0.0",
    "0.0.0.0a",
    "0.0.0.--",
    "0.0.0.00-",
    "0.0.0.0x00",
    "0.0.0.é",
    "0.0.0.-  0.0.0.-",
];

fn bad_lines(edges: &mut Edges) {
    edges.rule("Lines that are none of the forms of captures");
    for line in BAD {
        edges.line(line, "bad line");
    }
    for record in BAD_RECORDS {
        edges.line(format!("capwrite 0 - {record}"), "bad line");
        let line = format!("capwrite 100 {A} 0.0.0.- {record} 0.1.0.AA");
        edges.line(line, "bad line");
    }
    edges.rule("Numbers at their limits are forms, and refused by the writer");
    edges.line(
        format!("capwrite 1048576 {A} 65535.255.4294967295.-"),
        "refused 53",
    );
    edges.line("capwrite 0 00", "refused 52");
    edges.line("capwrite 1048576 -", "refused 52");
    edges.line("rewrite 1048576 -", "refused 50");
}
