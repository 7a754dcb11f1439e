//! The forms of the five fields of an import.

use super::importing::try_line;
use super::{import_bytes, table, text};
use crate::edges::Edges;

pub fn add(edges: &mut Edges) {
    boards(edges);
    directions(edges);
    counters(edges);
    numbers(edges);
    values(edges);
    any_byte(edges);
}

/// Tries contents of one field, the others being good; 63 for all.
fn refuse(edges: &mut Edges, line: &str, contents: &[&str]) {
    for content in contents {
        try_line(edges, &line.replace('*', content), 63, "");
    }
}

const BOARD: &str = r#""*","1","5","0x0001","x00""#;
const DIRECTION: &str = r#""@","*","5","0x0001","x00""#;
const COUNTER: &str = r#""@","1","*","0x0001","x00""#;
const NUMBER: &str = r#""@","1","5","*","x00""#;
const VALUE: &str = r#""@","1","5","0x0001","*""#;

/// Contents that are no board.
const NO_BOARDS: [&str; 28] = [
    "",
    "x",
    "X",
    "30303244364531423334353635383135",
    "X30303244364531423334353635383135",
    "0x30303244364531423334353635383135",
    "xx30303244364531423334353635383135",
    "x3030324436453142333435363538313",
    "x303032443645314233343536353831",
    "x303032443645314233343536353831350",
    "x3030324436453142333435363538313500",
    "x3030324436453142333435363538313530303244364531423334353635383135",
    "xfdabcdef00112233445566778899aabb",
    "xFDABCDEF00112233445566778899AABb",
    "xfDABCDEF00112233445566778899AABB",
    "xFDABCDEF00112233445566778899AABG",
    "xFDABCDEF00112233 445566778899AAB",
    "xFDABCDEF-0011-2233-4455-66778899",
    " x30303244364531423334353635383135",
    "x30303244364531423334353635383135 ",
    "002D6E1B34565815",
    "4.12E+09",
    "@\"\"",
    "\"\"@",
    "@\r",
    "@\n",
    "\n@",
    "@,@",
];

fn boards(edges: &mut Edges) {
    edges.rule("A board is `x` and 32 uppercase digits: others are 63");
    refuse(edges, BOARD, &NO_BOARDS);
    edges.rule("Any 16 bytes are a board, the code word too");
    let code_word = "44454641554C545F4445564943454944";
    let same = ["00", "FF", "09", "AF", "44"].map(|digits| digits.repeat(16));
    for digits in same.into_iter().chain([code_word.to_string()]) {
        let line = BOARD.replace('*', &format!("x{digits}"));
        try_line(edges, &line, 0, &format!("{digits}.1.5.0001=00"));
    }
}

/// Contents that are no direction.
const NO_DIRECTIONS: [&str; 21] = [
    "",
    "0",
    "2",
    "3",
    "9",
    "01",
    "10",
    "11",
    "1.0",
    "+1",
    "-1",
    " 1",
    "1 ",
    "x1",
    "0x1",
    "x",
    "\r1",
    "1\n",
    "1\0",
    "\"\"1\"\"",
    "response",
];

fn directions(edges: &mut Edges) {
    edges.rule("A direction is `1`: others are 63");
    refuse(edges, DIRECTION, &NO_DIRECTIONS);
}

/// Contents that are no counter.
const NO_COUNTERS: [&str; 51] = [
    "",
    "00",
    "01",
    "05",
    "000",
    "010",
    "4294967296",
    "4294967297",
    "4294967300",
    "4300000000",
    "5000000000",
    "9999999999",
    "04294967295",
    "10000000000",
    "42949672950",
    "8589934592",
    "99999999999",
    "18446744073709551615",
    "18446744073709551616",
    "18446744073709551621",
    "340282366920938463463374607431768211461",
    "-0",
    "-1",
    "+1",
    "--",
    "-",
    "1-",
    "5 ",
    " 5",
    "5,0",
    "5.0",
    "1e3",
    "1E3",
    "0x5",
    "x5",
    "A",
    "F",
    "/",
    ":",
    "5\r",
    "5\n",
    "\r5",
    "5\n5",
    "\"\"5",
    "5\"\"",
    "\"\"",
    "5\0",
    "5\t",
    "5\u{e9}",
    "\u{665}",
    "4.12E+09",
];

fn counters(edges: &mut Edges) {
    edges.rule("A counter is decimal without leading zeros, up to 4294967295: others are 63");
    refuse(edges, COUNTER, &NO_COUNTERS);
    let long = format!("1{}", "0".repeat(500));
    let zeros = "0".repeat(500);
    refuse(edges, COUNTER, &[&long, &zeros]);
    edges.rule("Counters at their ends and of each length");
    for counter in [
        "0",
        "1",
        "9",
        "10",
        "99",
        "100",
        "999",
        "1000",
        "65535",
        "65536",
        "999999999",
        "1000000000",
        "2147483647",
        "2147483648",
        "3999999999",
        "4294967290",
        "4294967294",
        "4294967295",
    ] {
        let line = COUNTER.replace('*', counter);
        try_line(edges, &line, 0, &format!("@.1.{counter}.0001=00"));
    }
}

/// Contents that are no number.
const NO_NUMBERS: [&str; 37] = [
    "",
    "0",
    "0x",
    "x",
    "0x1",
    "0x01",
    "0x001",
    "0x00001",
    "0x000001",
    "0x00010001",
    "0001",
    "x0001",
    "0X0001",
    "X0001",
    "1x0001",
    "00x0001",
    "0xx001",
    "0x0x01",
    "0x00ab",
    "0x000a",
    "0xabcd",
    "0x000G",
    "0xG000",
    "0x00-1",
    "0x 001",
    "0x001 ",
    " 0x0001",
    "0x0001 ",
    "1",
    "0x0001\r",
    "0x0001\n",
    "0x\"\"0001",
    "0x000\"\"",
    "0x000/",
    "0x000:",
    "0x000@",
    "0x000`",
];

fn numbers(edges: &mut Edges) {
    edges.rule("A number is `0x` and four uppercase digits: others are 63");
    refuse(edges, NUMBER, &NO_NUMBERS);
    edges.rule("Any four digits are a number");
    for digits in [
        "0000", "0009", "000A", "000F", "09AF", "F000", "0A00", "1234", "FFFF",
    ] {
        let line = NUMBER.replace('*', &format!("0x{digits}"));
        try_line(edges, &line, 0, &format!("@.1.5.{digits}=00"));
    }
}

/// Contents that are no value.
const NO_VALUES: [&str; 44] = [
    "", "0", "00", "0000", "-", "x-", "X", "X00", "0x", "0x00", "xx", "xx00", "x0", "x000", "xF",
    "x0a", "xa0", "xab", "x0G", "xG0", "x0/", "x0:", "x0@", "x0`", "x/0", "x:0", "x 00", "x00 ",
    " x00", "x0 0", "x00-00", "x+1", "x\r", "x\n", "x00\r", "x00\n", "x\n00", "x\"\"", "x00\"\"",
    "\"\"x00", "\"\"", "x00\0", "\0", "unknown",
];

fn values(edges: &mut Edges) {
    edges.rule("A value is `x` and two uppercase digits for each byte: others are 63");
    refuse(edges, VALUE, &NO_VALUES);
    edges.rule("`x` alone is an unknown parameter; values of any bytes");
    let unknown = VALUE.replace('*', "x");
    try_line(edges, &unknown, 0, "@.1.5.0001=unknown");
    for digits in ["00", "FF", "0D0A", "222C22", "0123456789ABCDEF", "78"] {
        let line = VALUE.replace('*', &format!("x{digits}"));
        try_line(edges, &line, 0, &format!("@.1.5.0001={digits}"));
    }
    edges.rule("Values of up to 255 bytes; 256 and more are 63, and so are odd digits near there");
    for bytes in [127, 128, 229, 230, 254, 255] {
        let digits = "5A".repeat(bytes);
        let line = VALUE.replace('*', &format!("x{digits}"));
        try_line(edges, &line, 0, &format!("@.1.5.0001={digits}"));
        refuse(edges, VALUE, &[&format!("x{digits}5")]);
    }
    for bytes in [256, 257, 300, 511, 512, 513, 767] {
        refuse(edges, VALUE, &[&format!("x{}", "5A".repeat(bytes))]);
    }
}

fn any_byte(edges: &mut Edges) {
    edges
        .rule("Any byte may stand in quotes, and no form has it there; a quote ends the field: 61");
    for byte in 0..=255 {
        let line = text(&COUNTER.replace('*', "5*"));
        let mut table = table(&[&line]).into_bytes();
        let place = table.iter().position(|byte| *byte == b'*');
        table[place.expect("its place")] = byte;
        let answer = match byte {
            b'"' => "reports refused 61 line 2".to_string(),
            b'0'..=b'9' => format!("reports @.1.5{}.0001=00", char::from(byte)),
            _ => "reports refused 63 line 2".to_string(),
        };
        import_bytes(edges, &table, &answer);
    }
}
