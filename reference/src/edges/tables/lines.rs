//! The longest lines, and lines that are no call on tables.

use super::{GOOD, HEADER, exported, import, import_bytes, table, text};
use crate::edges::captures::{ONE, ONE_BOARD};
use crate::edges::{Edges, ID, PASSWORD, framed};
use crate::hex;

pub fn add(edges: &mut Edges) {
    long_exports(edges);
    long_imports(edges);
    long_lines(edges);
    bad_lines(edges);
}

fn long_exports(edges: &mut Edges) {
    edges.rule("A line of 65,536 characters: 4,092 empty responses and a record cut short");
    let records = " #0 01 00 00 00 00 00 00".repeat(4_092);
    let capture = ONE.bytes(&format!("{ONE_BOARD}{records} 000000"));
    let field = hex::field(&capture);
    let answer = exported(&[], "refused,4092 capture,53");
    edges.line(format!("export 999999 {field}"), answer);
    edges.rule("A table of 64,080 bytes: 8 responses of 116 reports, lines of 69 bytes");
    let data = "01 00 ".repeat(116);
    let record = format!(" #0 01 FF FF FF FF 00 01 {}", framed(&ID, b"", 6, &data));
    let capture = ONE.bytes(&format!("{ONE_BOARD}{}", record.repeat(8)));
    let field = hex::field(&capture);
    let lines = [r#""@","1","4294967295","0x0001","x00""#; 928];
    let answer = exported(&lines, "refused,0");
    edges.line(format!("export 64080 {field}"), answer);
    edges.line(format!("export 64079 {field}"), "refused 54");
    edges.rule("54 at one byte less than the 992,544 that 124 such responses need");
    let capture = ONE.bytes(&format!("{ONE_BOARD}{}", record.repeat(124)));
    let field = hex::field(&capture);
    edges.line(format!("export 992543 {field}"), "refused 54");
}

fn long_imports(edges: &mut Edges) {
    edges.rule(
        "Lines of 65,535 characters: a table of 32,764 bytes, whole and with its last byte missing",
    );
    let last = r#""@","1","5","0x0001","x000102030405060708""#;
    let mut lines = vec![GOOD; 544];
    lines.push(last);
    let whole = table(&lines);
    let good = " @.1.5.0001=00".repeat(544);
    let answer = format!("reports{good} @.1.5.0001=000102030405060708");
    import(edges, &whole, &answer);
    let answer = format!("reports{good} refused 61 line 546");
    import(edges, &whole[..whole.len() - 1], &answer);
}

fn long_lines(edges: &mut Edges) {
    edges.rule("Lines of many thousand bytes: one field, many fields, a counter, a value, an open quote, no line end");
    let many = vec!["\"\""; 10_000].join(",");
    for (line, number) in [
        (format!("\"{}\"", "x".repeat(32_000)), 62),
        (many.clone(), 62),
        (format!("{many},"), 61),
        (
            GOOD.replace("\"5\"", &format!("\"{}\"", "5".repeat(32_000))),
            63,
        ),
        (
            GOOD.replace("\"x00\"", &format!("\"x{}\"", "00".repeat(16_000))),
            63,
        ),
        (format!("\"{}", "x".repeat(32_000)), 61),
        ("\"".repeat(32_000), 62),
        ("\"".repeat(32_001), 61),
        ("\r".repeat(32_000), 61),
        ("\n".repeat(32_000), 61),
    ] {
        let answer = format!("reports refused {number} line 2");
        import(edges, &format!("{HEADER}\r\n{line}\r\n"), &answer);
        let open = format!("{HEADER}\r\n{line}");
        import(edges, &open, "reports refused 61 line 2");
    }
    edges.rule("16,358 empty lines, and as many bytes that are no table");
    let text = text(&format!("{HEADER}\r\n{}", "\r\n".repeat(16_358)));
    import(edges, &text, "reports refused 61 line 2");
    for byte in [0, b'"', b'\r', b'\n', 0xFF] {
        import_bytes(edges, &[byte; 32_764], "reports refused 60 line 1");
    }
}

/// Bad forms of the calls on tables.
const BAD: [&str; 46] = [
    "export",
    "export ",
    "export -",
    "export 0",
    "export 0 ",
    "export 0  -",
    "export  0 -",
    "export 0 - ",
    "export 0 - -",
    "export - -",
    "export - 0",
    "export 00 -",
    "export 048 -",
    "export +1 -",
    "export -1 -",
    "export 1.0 -",
    "export 1048577 -",
    "export 4294967296 -",
    "export 18446744073709551616 -",
    "export 0 5",
    "export 0 564c47",
    "export 0 564C4",
    "export 0 56 4C",
    "export 0 0x56",
    "export 0 VLG",
    "export 0 --",
    "export 0 -\r",
    "export\t0 -",
    "Export 0 -",
    "EXPORT 0 -",
    "exports 0 -",
    "import",
    "import ",
    "import  -",
    "import - ",
    "import - -",
    "import 0 -",
    "import 5",
    "import 2262g0",
    "import 22 62",
    "import 0d0a",
    "import --",
    "import -\r",
    "import \"board\"",
    "Import -",
    "imports -",
];

fn bad_lines(edges: &mut Edges) {
    edges.rule("Lines that are none of the forms of tables");
    for line in BAD {
        edges.line(line, "bad line");
    }
    edges.rule("Numbers at their limits are forms");
    let answer = exported(&[], "refused,0 capture,50");
    edges.line("export 1048576 -", answer);
    edges.line("export 0 -", "refused 54");
    edges.line("import -", "reports refused 60 line 1");
    edges.rule("A table as a capture, a capture as a table");
    let table = hex::field(table(&[GOOD]).as_bytes());
    let answer = exported(&[], "refused,0 capture,50");
    edges.line(format!("export 48 {table}"), answer);
    let capture = format!("564C4702000100{}", framed(&ID, PASSWORD, 6, "01 00"));
    edges.line(format!("import {capture}"), "reports refused 60 line 1");
}
