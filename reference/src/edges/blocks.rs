//! Refusal 10 and the grammar of requests and responses.

use super::{Edges, ID, PASSWORD, entries, framed};
use crate::hex;

pub fn add(edges: &mut Edges) {
    edges.set_up(&ID, PASSWORD, 1);
    malformed_requests(edges);
    well_formed_requests(edges);
    pages_and_functions(edges);
    response_pages(edges);
    responses(edges);
}

/// Malformed under every function, by what is wrong.
const MALFORMED: [(&str, &str); 4] = [
    (
        "10: FD in a request",
        "FD | FD 01 | FD 01 00 | FF 00 FD 01 | FC 01 01 FD",
    ),
    (
        "10: FC to anything but 1 to 5",
        "FC | FC 00 | FC 06 | FC FC | FC FF | FC 01 FC 00 | FC 00 FC 01",
    ),
    (
        "10: FE with n = 0 or a P above FB, so FE does not reach over FF or FC",
        "FE 00 01 | FE 00 01 00 | FE 01 FC 01 | FE 01 FD 01 | FE 01 FE 01 | FE 01 FF 01 |
         FE 01 FF 00 01 00 | FE 02 FC 03 63 46 00",
    ),
    (
        "10: a block that ends inside an item",
        "FF | 01 01 FF | FE | FE 01 | FE 01 01 | FE 02 63 46 | FE FF 01 00 | FC 02 01 |
         FC 03 02 05 01 | FC 01 01 FE 03 6F 00 00",
    ),
];

fn malformed_requests(edges: &mut Edges) {
    for (rule, blocks) in MALFORMED {
        edges.rule(rule);
        for data in entries(blocks) {
            for function in 1..=5 {
                edges.ask(function, data, "refused 10");
            }
        }
    }
    edges.rule("10: a value is missing under 02 and 03");
    for function in [2, 3] {
        edges.ask(function, "01", "refused 10");
        edges.ask(function, "01 01 02", "refused 10");
    }
    edges.rule("Nothing of a malformed block is kept, wherever it goes wrong");
    edges.ask(2, "01 01 02 05 95 42 FC 04 08 FD", "refused 10");
    edges.ask(3, "01 01 02 05 95 42 FC 04 08 FC 06", "refused 10");
    edges.record(1, &[]);
}

fn well_formed_requests(edges: &mut Edges) {
    edges.rule("An empty block, or one that ends after a complete FF or FC, is well formed");
    for function in 1..=5 {
        for data in [
            "",
            "FF 00",
            "FF FF",
            "FF FC",
            "FC 01",
            "FC 05",
            "FF 01 FF 02",
            "FC 02 FC 03",
            "FF 00 FC 02",
            "FC 03 FF 04",
        ] {
            edges.ask(function, data, "silence");
        }
    }
    edges.rule("A byte above FB inside a value is no item");
    for value in ["FC", "FD", "FE", "FF"] {
        edges.expect(3, &format!("01 {value} 02 {value}"), "01 00 02 01");
        edges.expect(3, &format!("FE 02 63 {value} {value}"), "FE 02 63 00 00");
        edges.expect(1, &format!("FE 02 01 {value} {value} 02"), "01 00 02 01");
    }
    edges.rule("00 and FB are parameters");
    edges.expect(1, "00 FB", "FD 00 FD FB");
    edges.expect(3, "00 01 FB 01", "FD 00 FD FB");
    edges.rule("FE where the length is the default, FC and FF to what is in force already");
    edges.expect(3, "FE 01 01 01 FC 03 FF 00 FE 01 01 00", "01 01 01 00");
    edges.rule("Under 01, 04 and 05 a value belongs to the command and is ignored");
    edges.expect(1, "FE 01 01 01 FE 04 02 05 05 05 05", "01 00 02 01");
    edges.expect(4, "FE 01 02 05 FE 02 63 6D 01", "02 02 FE 02 63 46 00");
    edges.expect(5, "FE 01 02 05 FE 02 63 6D 01", "02 01 FE 02 63 00 00");
    edges.rule("A value of the greatest length that fits, 225 bytes beside this password");
    let long = format!("FE E1 77 {}", "FE".repeat(225));
    edges.ask(2, &long, "silence");
    edges.expect(3, &long, "FD 77");
    edges.expect(1, &long, "FD 77");
    edges.record(1, &[]);
}

fn pages_and_functions(edges: &mut Edges) {
    edges.rule("FF holds until the next FF and over FC; FE is for one parameter");
    edges.expect(
        1,
        "FF 04 FC 03 00 50 FC 01 00 01 02",
        "FF 04 00 50 00 50 01 00 02 00",
    );
    edges.expect(
        3,
        "FF 04 FE 01 00 07 01 01 02 01",
        "FF 04 00 07 01 01 02 01",
    );
    edges.expect(3, "FE 02 63 46 00 01 01", "FE 02 63 46 00 01 01");
    edges.expect(
        2,
        "FF 04 00 00 01 00 02 00 FC 05 FF 00 63 FC 03 01 00",
        "FE 02 63 00 00 01 00",
    );
    edges.rule("Each packet starts on page 0");
    edges.expect(1, "01", "01 00");
    edges.expect(1, "FF 04 01", "FF 04 01 00");
    edges.expect(1, "01", "01 00");
    edges.rule("Page 1 has rows of its own");
    edges.expect(
        1,
        "11 FF 01 11 12 01",
        "FD 11 FF 01 FE 02 11 00 00 FE 06 12 00 00 00 00 00 00 FD 01",
    );
    edges.record(1, &[]);
}

fn response_pages(edges: &mut Edges) {
    edges.rule("The page of a response follows the reported numbers, FD too; others leave no FF");
    edges.expect(
        1,
        "FF 09 FF 04 00 FF 00 FF 04 01 FF 00 01",
        "FF 04 00 00 01 00 FF 00 01 00",
    );
    edges.expect(1, "FF 02 40 FF 00 77", "FF 02 FD 40 FF 00 FD 77");
    edges.expect(2, "FF 04 00 01 FC 01 FF 00 01", "01 00");
    edges.expect(2, "FF 07 77 01 FC 01 FF 04 00", "FF 04 00 01");
    edges.expect(3, "FF FF 00 00 FB 00", "FF FF FD 00 FD FB");
    edges.ask(2, "FF 04 00 00", "silence");
}

/// Blocks that are no response.
const MALFORMED_RESPONSES: &str = "FC 01 | FC | 01 00 FC 01 | 01 | 01 00 02 | FD | FD FC | FD FD |
    FD FF | FF | 01 00 FF | FE | FE 01 | FE 01 01 | FE 00 01 | FE 00 01 00 | FE 02 63 46 |
    FE 01 FC 00 | FE 01 FF 00";

/// Blocks with their reports.
const RESPONSES: [(&str, &str); 9] = [
    ("", ""),
    ("FF 01", ""),
    ("FF 01 FF 02 FF 00", ""),
    ("00 FF FB FC", "0000=FF 00FB=FC"),
    ("FE 01 01 FD", "0001=FD"),
    ("FD 00 FD FB", "0000=unknown 00FB=unknown"),
    ("FF FF FB 00 FD 01", "FFFB=00 FF01=unknown"),
    ("01 00 01 01 FF 00 01 02", "0001=00 0001=01 0001=02"),
    ("FE 02 1E CE FF FF 04", "001E=CEFF"),
];

fn responses(edges: &mut Edges) {
    edges.rule("Responses: FC and cut items are malformed, an empty block is no reports");
    let id = hex::field(&ID);
    for data in entries(MALFORMED_RESPONSES) {
        let response = framed(&ID, PASSWORD, 6, data);
        edges.line(format!("read {id} 31313131 {response}"), "refused 10");
        edges.line(format!("list {response}"), "refused,10");
    }
    for (data, reports) in RESPONSES {
        read_and_list(edges, data, reports);
    }
}

/// Reads and lists a response with these reports.
pub fn read_and_list(edges: &mut Edges, data: &str, reports: &str) {
    let response = framed(&ID, PASSWORD, 6, data);
    let (mut read, mut listing) = ("reports".to_string(), "number,value".to_string());
    for report in reports.split_whitespace() {
        read += &format!(" {report}");
        listing += &format!("|0x{}", report.replace('=', ","));
    }
    let id = hex::field(&ID);
    edges.line(format!("read {id} 31313131 {response}"), read);
    edges.line(format!("list {response}"), listing);
}
