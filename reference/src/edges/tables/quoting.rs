//! Quoting and the number of fields of an import, and the order of its refusals.

use super::importing::try_line;
use super::{HEADER, import};
use crate::edges::Edges;

pub fn add(edges: &mut Edges) {
    quoting(edges);
    field_counts(edges);
    order(edges);
}

fn refuse_lines(edges: &mut Edges, number: u8, lines: &[&str]) {
    for line in lines {
        try_line(edges, line, number, "");
    }
}

/// Lines whose quoting is wrong.
const WRONG_QUOTING: [&str; 44] = [
    "",
    " ",
    ",",
    ",,,,",
    "\"",
    "\"\"\"",
    "x",
    "\n",
    "\r",
    "\0",
    r#"@,1,5,0x0001,x00"#,
    r#"@,"1","5","0x0001","x00""#,
    r#""@",1,"5","0x0001","x00""#,
    r#""@","1",5,"0x0001","x00""#,
    r#""@","1","5",0x0001,"x00""#,
    r#""@","1","5","0x0001",x00"#,
    r#""@","1","5","0x0001","#,
    r#""@","1",,"0x0001","x00""#,
    r#","1","5","0x0001","x00""#,
    r#""@","1","5","0x0001","x00","#,
    r#","@","1","5","0x0001","x00""#,
    r#"@","1","5","0x0001","x00""#,
    r#""@,"1","5","0x0001","x00""#,
    r#""@","1,"5","0x0001","x00""#,
    r#""@","1","5","0x0001","x00"#,
    r#""@","1","5","0x0001",x00""#,
    r#""@","1","5","0x0001","x00"""#,
    r#""@","1","5","0x0001",""x00""#,
    r#""@","1","5"","0x0001","x00""#,
    r#""@","1",""5","0x0001","x00""#,
    r#""@","1","5" ,"0x0001","x00""#,
    r#""@","1", "5","0x0001","x00""#,
    r#""@","1","5"0,"0x0001","x00""#,
    r#""@","1",0"5","0x0001","x00""#,
    r#""@","1";"5","0x0001","x00""#,
    r#""@" "1" "5" "0x0001" "x00""#,
    r#""@","1","5","0x0001","x00" "#,
    r#" "@","1","5","0x0001","x00""#,
    r#""@","1","5","0x0001","x"00""#,
    r#""@","1","5","0x0001","x"#,
    r#"'@','1','5','0x0001','x00'"#,
    "\"@\",\"1\",\"5\",\"0x0001\",\"x00\"\r",
    "\"@\",\"1\",\"5\",\"0x0001\",\"x00\"\n",
    "\"@\",\"1\"\t,\"5\",\"0x0001\",\"x00\"",
];

fn quoting(edges: &mut Edges) {
    edges.rule(
        "61: a field without quotes, an open one, a byte behind a closing quote, a comma at an end",
    );
    refuse_lines(edges, 61, &WRONG_QUOTING);
    edges.rule("61: CR LF ends a line though a quote is open");
    for line in [
        "\"@\",\"1\",\"5\r\n\",\"0x0001\",\"x00\"",
        "\"\r\n@\",\"1\",\"5\",\"0x0001\",\"x00\"",
        "\"@\",\"1\",\"5\",\"0x0001\",\"x00\r\n\"",
        "\"\r\n\"",
    ] {
        refuse_lines(edges, 61, &[line]);
    }
    edges.rule("The same with the line end behind a closed quote: a line of fewer fields");
    let split = "\"@\",\"1\"\r\n,\"5\",\"0x0001\",\"x00\"";
    refuse_lines(edges, 62, &[split]);
    edges.rule("61: the wrong quoting stands behind five good fields or a sixth");
    refuse_lines(
        edges,
        61,
        &[
            r#""@","1","5","0x0001","x00"x"#,
            r#""@","1","5","0x0001","x00","""#.strip_suffix('"').expect("a quote"),
            r#""@","1","5","0x0001","x00",x"#,
            r#""@","1","5","0x0001","x00","x","#,
        ],
    );
}

/// Lines that are well quoted and have not five fields.
const WRONG_COUNTS: [&str; 15] = [
    r#""""#,
    r#""x""#,
    r#""""""#,
    r#""@""#,
    r#""@","1""#,
    r#""@","1","5""#,
    r#""@","1","5","0x0001""#,
    r#""1","5","0x0001","x00""#,
    r#""@","1","5","0x0001","x00","""#,
    r#""@","1","5","0x0001","x00","x""#,
    r#""@","1","5","0x0001","x00","x00","x00""#,
    r#""@,1,5,0x0001,x00""#,
    r#""@","1,5","0x0001","x00""#,
    r#""@","1","5""0x0001","x00""#,
    r#""@"",""1"",""5"",""0x0001"",""x00""#,
];

fn field_counts(edges: &mut Edges) {
    edges.rule(
        "62: one to four fields, six and more; a comma or a doubled quote in quotes parts nothing",
    );
    refuse_lines(edges, 62, &WRONG_COUNTS);
    for count in [1, 2, 3, 4, 6, 7, 10, 255, 256, 257, 261, 1_000] {
        let line = vec!["\"\""; count].join(",");
        refuse_lines(edges, 62, &[&line]);
    }
}

fn order(edges: &mut Edges) {
    edges.rule("60 before 61 at line 1: a header that differs and has no line end");
    import(edges, &HEADER[..45], "reports refused 60 line 1");
    import(edges, &format!("{HEADER}x"), "reports refused 60 line 1");
    edges.rule("61 before 62 and 63: wrong quoting behind fields outside their form, in lines of any count");
    refuse_lines(
        edges,
        61,
        &[
            r#""x","0","05","1","00"x"#,
            r#""x","0",5"#,
            r#""","","","","","","#,
            r#"x,"","","","","""#,
            r#""x","0","05","1"""#,
        ],
    );
    edges.rule("62 before 63: fields outside their form, in lines of four and six fields");
    refuse_lines(
        edges,
        62,
        &[
            r#""","","","""#,
            r#""x","0","05","1""#,
            r#""","","","","","""#,
            r#""x","0","05","1","00","x""#,
        ],
    );
    edges.rule("63: the header's line again, five empty fields");
    refuse_lines(edges, 63, &[HEADER, r#""","","","","""#]);
}
