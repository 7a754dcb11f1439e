//! Captures: read, written, summed up, rewritten.

mod heads;
mod judging;
mod lines;
mod records;
mod rewriting;
mod writing;

use super::{Edges, bytes};
use crate::hex;

/// The ID of the boards here, and another.
pub const A: &str = "30303244364531423334353635383135";
const B: &str = "00000000000000000000000000000000";
/// A head of board A alone.
pub const ONE_BOARD: &str = "VLG #1 30303244364531423334353635383135";

/// A version of the form. In a capture written by hand `VLG` stands for its mark and version, `#n` for a board count
/// or index of n.
#[derive(Clone, Copy)]
pub struct Form {
    pub version: u16,
    /// The bytes of a board count or index.
    width: usize,
}

pub const ONE: Form = Form {
    version: 1,
    width: 1,
};
pub const TWO: Form = Form {
    version: 2,
    width: 2,
};
pub const FORMS: [Form; 2] = [ONE, TWO];

impl Form {
    /// The bytes of a capture written by hand.
    pub fn bytes(self, capture: &str) -> Vec<u8> {
        let words = capture.split(' ');
        words.flat_map(|word| self.word(word)).collect()
    }

    fn word(self, word: &str) -> Vec<u8> {
        match word.strip_prefix('#') {
            Some(number) => {
                let number: u16 = number.parse().expect("a board count or index");
                number.to_le_bytes()[..self.width].to_vec()
            }
            None if word == "VLG" => bytes(&format!("56 4C 47 {:02X} 00", self.version)),
            None => bytes(word),
        }
    }
}

/// What must be given of a capture whose head is sound, up to its end or to a fault.
struct Given<'a> {
    /// The capture up to there, written by hand.
    capture: &'a str,
    /// Its IDs and records, as `capread` shows them.
    shown: &'a str,
    /// The lines of its summary, empty for none.
    lines: &'a str,
}

pub fn add(edges: &mut Edges) {
    small_capture(edges);
    for form in FORMS {
        empty_captures(edges, form);
        cuts(edges, form);
    }
    heads::add(edges);
    records::add(edges);
    judging::add(edges);
    writing::add(edges);
    rewriting::add(edges);
    lines::add(edges);
}

/// Reads, sums up and rewrites a capture. With bytes behind what is given of it, it is refused with 53.
fn take(edges: &mut Edges, form: Form, given: &Given, behind: &str) {
    let Given {
        capture,
        shown,
        lines,
    } = given;
    let (refused, last) = match behind {
        "" => ("", ""),
        _ => (" refused 53", "refused,53"),
    };
    let field = hex::field(&form.bytes(&format!("{capture} {behind}")));
    let read = format!("version {}{shown}{refused}", form.version);
    edges.line(format!("capread {field}"), read);
    let lines = match (*lines, last) {
        ("", "") => "-".to_string(),
        ("", only) | (only, "") => only.to_string(),
        (lines, last) => format!("{lines}|{last}"),
    };
    edges.line(format!("summary {field}"), lines);
    let room = TWO.bytes(capture).len();
    let rewritten = format!("{}{refused}", written(capture));
    edges.line(format!("rewrite {room} {field}"), rewritten);
}

/// Reads, sums up and rewrites a capture whose head is refused; the version is 0 for 50 and 51.
fn refuse_head(edges: &mut Edges, capture: &[u8], version: u16, number: u8) {
    let field = hex::field(capture);
    let read = format!("version {version} refused {number}");
    edges.line(format!("capread {field}"), read);
    edges.line(format!("summary {field}"), format!("refused,{number}"));
    let rewritten = format!("refused {number}");
    edges.line(format!("rewrite 1000 {field}"), rewritten);
}

fn sum_up(edges: &mut Edges, form: Form, capture: &str, answer: &str) {
    let field = hex::field(&form.bytes(capture));
    edges.line(format!("summary {field}"), answer);
}

/// A writer's answer: the capture, in version 2.
fn written(capture: &str) -> String {
    format!("capture {}", hex::digits(&TWO.bytes(capture)))
}

/// A record of board 0.
fn record(direction: u8, packet: &str) -> String {
    let length = (bytes(packet).len() as u16).to_le_bytes();
    let [low, high] = length;
    format!("#0 {direction:02X} 00 00 00 00 {low:02X} {high:02X} {packet}")
}

fn small_capture(edges: &mut Edges) {
    edges.rule("A capture of two boards: a request to the second, an empty response of the first");
    let capture =
        format!("VLG #2 {A} {B} #1 00 04 03 02 01 03 00 FD FD 09 #0 01 05 00 00 00 00 00");
    let (first, second) = ("1.0.16909060.FDFD09", "0.1.5.-");
    edges.line(
        format!("capwrite 60 {A},{B} {first} {second}"),
        written(&capture),
    );
    let given = Given {
        capture: &capture,
        shown: &format!(" id:{A} id:{B} rec:{first} rec:{second}"),
        lines: "0,2,1|1,2,1",
    };
    for form in FORMS {
        take(edges, form, &given, "");
    }
    edges.rule("All its bytes: version 1, and version 2 as it is written and rewritten");
    let bytes_1 = format!("564C47010002{A}{B}0100040302010300FDFD090001050000000000");
    let bytes_2 = format!("564C4702000200{A}{B}010000040302010300FDFD09000001050000000000");
    let answer = format!("capture {bytes_2}");
    edges.line(format!("rewrite 60 {bytes_1}"), &answer[..]);
    edges.line(format!("rewrite 60 {bytes_2}"), &answer[..]);
    edges.line(format!("capwrite 60 {A},{B} {first} {second}"), &answer[..]);
}

fn empty_captures(edges: &mut Edges, form: Form) {
    edges.rule("A capture without a record, of one board and of two with one ID");
    let one = (ONE_BOARD.to_string(), A.to_string(), 23);
    let two = (format!("VLG #2 {A} {A}"), format!("{A},{A}"), 39);
    for (capture, ids, size) in [one, two] {
        edges.line(format!("capwrite {size} {ids}"), written(&capture));
        let given = Given {
            capture: &capture,
            shown: &format!(" id:{}", ids.replace(',', " id:")),
            lines: "",
        };
        take(edges, form, &given, "");
    }
}

fn cuts(edges: &mut Edges, form: Form) {
    edges.rule("A capture cut after each of its bytes: a head, a record of 3 bytes, an empty one");
    let first = format!("{ONE_BOARD} #0 00 07 00 00 00 03 00 AA BB CC");
    let second = format!("{first} #0 01 08 00 00 00 00 00");
    let whole = form.bytes(&second);
    let ends = match form.version {
        1 => [22, 33, 41],
        _ => [23, 35, 44],
    };
    for length in 0..ends[0] {
        match length {
            0..=2 => refuse_head(edges, &whole[..length], 0, 50),
            3..=4 => refuse_head(edges, &whole[..length], 0, 51),
            _ => refuse_head(edges, &whole[..length], form.version, 52),
        }
    }
    let given = [
        (ONE_BOARD, "", ""),
        (&first, " rec:0.0.7.AABBCC", "0,2,1"),
        (&second, " rec:0.0.7.AABBCC rec:0.1.8.-", "0,2,2"),
    ];
    for length in ends[0]..=ends[2] {
        let last = ends.iter().rposition(|end| *end <= length);
        let last = last.expect("a whole head");
        let (capture, records, lines) = given[last];
        let shown = &format!(" id:{A}{records}");
        let given = Given {
            capture,
            shown,
            lines,
        };
        let behind = hex::digits(&whole[ends[last]..length]);
        take(edges, form, &given, &behind);
    }
}
