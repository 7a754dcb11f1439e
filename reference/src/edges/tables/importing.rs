//! Headers and lines of an import.

use super::{GOOD, HEADER, import, import_bytes, table};
use crate::edges::Edges;

pub fn add(edges: &mut Edges) {
    tables(edges);
    headers(edges);
    line_ends(edges);
    other_ends(edges);
    later_lines(edges);
    cuts(edges);
}

/// A line behind the header: refused at line 2, and at line 4 between good ones. 0 is no refusal.
pub fn try_line(edges: &mut Edges, line: &str, number: u8, shown: &str) {
    let good = " @.1.5.0001=00";
    let (first, third) = match number {
        0 => (format!(" {shown}"), format!("{good}{good} {shown}{good}")),
        _ => (
            format!(" refused {number} line 2"),
            format!("{good}{good} refused {number} line 4"),
        ),
    };
    let alone = format!("{HEADER}\r\n{line}\r\n");
    import(edges, &alone, &format!("reports{first}"));
    let between = format!("{HEADER}\r\n{GOOD}\r\n{GOOD}\r\n{line}\r\n{GOOD}\r\n");
    import(edges, &between, &format!("reports{third}"));
}

fn tables(edges: &mut Edges) {
    edges.rule("Import: the reports of a table in order, with board, direction and counter");
    import(edges, &table(&[]), "reports");
    import(edges, &table(&[GOOD]), "reports @.1.5.0001=00");
    let lines = [
        r#""%","1","4294967295","0x0240","x5168""#,
        r#""@","1","0","0x0101","x""#,
        r#""%","1","10","0xFFFF","xFF""#,
    ];
    let rows = "reports %.1.4294967295.0240=5168 @.1.0.0101=unknown %.1.10.FFFF=FF";
    import(edges, &table(&lines), rows);
    edges.rule("A number with a low byte over FB is in form");
    for number in ["00FB", "00FC", "00FD", "00FE", "00FF", "FFFC", "ABCD"] {
        let line = format!(r#""@","1","5","0x{number}","x00""#);
        try_line(edges, &line, 0, &format!("@.1.5.{number}=00"));
    }
}

/// First lines that differ from the header.
const HEADERS: [&str; 31] = [
    "",
    "\r",
    "\"",
    r#""""#,
    " ",
    "x",
    "board,direction,counter,number,value",
    "'board','direction','counter','number','value'",
    r#""Board","direction","counter","number","value""#,
    r#""BOARD","DIRECTION","COUNTER","NUMBER","VALUE""#,
    r#" "board","direction","counter","number","value""#,
    r#""board","direction","counter","number","value" "#,
    r#""board", "direction","counter","number","value""#,
    r#""board";"direction";"counter";"number";"value""#,
    r#""board","direction","counter","number","value","#,
    r#","board","direction","counter","number","value""#,
    r#""board","direction","counter","number""#,
    r#""direction","counter","number","value""#,
    r#""board","direction","counter","number","value","""#,
    r#""board","direction","counter","number","value","value""#,
    r#""direction","board","counter","number","value""#,
    r#""board","direction","counter","value","number""#,
    r#""board","direction","counter","number","values""#,
    r#""board","direction","counter","number","valu""#,
    r#""board","direction","counter","number","value"""#,
    r#""board","direction","counter","number","value"#,
    r#"board","direction","counter","number","value""#,
    r#""board","direction","counter","number",value"#,
    r#""bo""ard","direction","counter","number","value""#,
    r#""x30303244364531423334353635383135","1","5","0x0001","x00""#,
    "number,value",
];

fn headers(edges: &mut Edges) {
    edges
        .rule("60 at line 1: an empty text, a header that differs, ended or not, whatever follows");
    import_bytes(edges, b"", "reports refused 60 line 1");
    let refused = "reports refused 60 line 1";
    for header in HEADERS {
        let ended = format!("{header}\r\n");
        import(edges, &ended, refused);
        import(edges, &format!("{ended}{GOOD}\r\n"), refused);
        import(edges, &format!("{ended}{HEADER}\r\n{GOOD}\r\n"), refused);
        if !header.is_empty() {
            import(edges, header, refused);
            import(edges, &format!("{header}\n"), refused);
        }
    }
    edges.rule("60: a byte order mark, other bytes before the header");
    for before in [
        &[0xEF, 0xBB, 0xBF][..],
        &[0xFE, 0xFF],
        &[0],
        &[0xFF],
        b"\n",
        b"\r",
    ] {
        let text = [before, table(&[GOOD]).as_bytes()].concat();
        import_bytes(edges, &text, refused);
    }
    edges.rule("60: a header ended by LF, CR, CR CR LF or LF CR runs on and so differs");
    for end in ["\n", "\r", "\n\r", "\r\r\n", "\n\r\n", " \r\n", "\0\r\n"] {
        import(edges, &format!("{HEADER}{end}"), refused);
        import(edges, &format!("{HEADER}{end}{GOOD}\r\n"), refused);
    }
    edges.rule("61 at line 1: the header with no line end");
    import(edges, HEADER, "reports refused 61 line 1");
}

fn line_ends(edges: &mut Edges) {
    edges.rule("61: a last line without CR LF");
    for end in ["", "\n", "\r", "\n\r", "\n\n"] {
        let first = format!("{HEADER}\r\n{GOOD}{end}");
        import(edges, &first, "reports refused 61 line 2");
        let second = format!("{HEADER}\r\n{GOOD}\r\n{GOOD}{end}");
        let answer = "reports @.1.5.0001=00 refused 61 line 3";
        import(edges, &second, answer);
    }
    edges.rule(
        "61: a last line without CR LF, also where it has four fields, a wrong one, or is one byte",
    );
    for line in [
        r#""@","1","5","0x0001""#,
        r#""@","0","5","0x0001","x00""#,
        r#""@","0","05","0x1","00","""#,
        r#""""#,
        "\"",
        "\n",
        "\r",
        " ",
        "\0",
        "x",
        "refused,0\n",
        "refused,0\ncapture,53\n",
    ] {
        let text = format!("{HEADER}\r\n{GOOD}\r\n{line}");
        let answer = "reports @.1.5.0001=00 refused 61 line 3";
        import(edges, &text, answer);
    }
}

fn other_ends(edges: &mut Edges) {
    edges.rule("Lines that LF alone ends are one line, with a byte behind a closing quote");
    let text = table(&[GOOD, GOOD]).replace("\r\n", "\n");
    import(edges, &text, "reports refused 60 line 1");
    let text = format!("{HEADER}\r\n{GOOD}\n{GOOD}\r\n");
    import(edges, &text, "reports refused 61 line 2");
    edges.rule("61: an empty line, also the last one");
    let empty = "reports @.1.5.0001=00 refused 61 line 3";
    import(edges, &format!("{}\r\n", table(&[GOOD])), empty);
    import(
        edges,
        &format!("{HEADER}\r\n{GOOD}\r\n\r\n{GOOD}\r\n"),
        empty,
    );
    let text = format!("{HEADER}\r\n\r\n");
    import(edges, &text, "reports refused 61 line 2");
}

fn later_lines(edges: &mut Edges) {
    edges.rule("The first bad line is told, whatever stands at later ones, and the reports before it are given");
    let (bad_63, bad_62) = (r#""@","0","5","0x0001","x00""#, r#""@""#);
    let good = " @.1.5.0001=00";
    for (lines, answer) in [
        (vec![bad_63, bad_62, ""], " refused 63 line 2".to_string()),
        (vec![bad_62, "", bad_63], " refused 62 line 2".to_string()),
        (vec!["", bad_63, bad_62], " refused 61 line 2".to_string()),
        (vec![GOOD, bad_63, ""], format!("{good} refused 63 line 3")),
        (
            vec![GOOD, GOOD, bad_62],
            format!("{good}{good} refused 62 line 4"),
        ),
        (vec![bad_63, GOOD, GOOD], " refused 63 line 2".to_string()),
    ] {
        import(edges, &table(&lines), &format!("reports{answer}"));
        // Without the last line end, which comes too late to be told.
        if lines[2] != bad_62 {
            let text = table(&lines);
            let open = text.strip_suffix("\r\n").expect("a line end");
            import(edges, open, &format!("reports{answer}"));
        }
    }
    edges.rule("Line numbers of two and three digits");
    for count in [8, 9, 98, 99, 254, 255] {
        let mut lines = vec![GOOD; count];
        lines.push(bad_62);
        let answer = format!(
            "reports{} refused 62 line {}",
            good.repeat(count),
            count + 2
        );
        import(edges, &table(&lines), &answer);
    }
}

fn cuts(edges: &mut Edges) {
    edges.rule("A table of two lines cut after each of its bytes");
    let whole = table(&[GOOD, GOOD]);
    let good = " @.1.5.0001=00";
    for length in 0..=whole.len() {
        // The header has 46 bytes, a line 58.
        let answer = match length {
            46 => "reports refused 61 line 1".to_string(),
            0..=47 => "reports refused 60 line 1".to_string(),
            48 => "reports".to_string(),
            49..=107 => "reports refused 61 line 2".to_string(),
            108 => format!("reports{good}"),
            109..=167 => format!("reports{good} refused 61 line 3"),
            _ => format!("reports{good}{good}"),
        };
        import_bytes(edges, &whole.as_bytes()[..length], &answer);
    }
}
