//! Every row: the edges of its set, raises and lowers through the whole of it, clock, calendar and texts.

use super::{Edges, ID, PASSWORD};

pub fn add(edges: &mut Edges) {
    edges.set_up(&ID, PASSWORD, 1);
    byte_edges(edges, [ordered_rows(), other_rows()].concat());
    switches(edges, &[0x01, 0x07, 0x14, 0x15, 0x68, 0x72, 0x9B]);
    edges.set_up(&ID, PASSWORD, 2);
    walks(edges, ordered_rows());
    filter_timer(edges);
    fan_speeds(edges);
    edges.set_up(&ID, PASSWORD, 1);
    clock(edges);
    calendar(edges);
    free_bytes(edges);
    texts(edges);
}

/// FF for the page and the low byte.
fn place(number: u16) -> (String, String) {
    let [high, low] = number.to_be_bytes();
    let page = match high {
        0 => String::new(),
        page => format!("FF {page:02X}"),
    };
    (page, format!("{low:02X}"))
}

/// Rows of one byte with their functions 04 and 05 and all legal values.
fn ordered_rows() -> Vec<(u16, Vec<u8>)> {
    let mut rows = vec![
        (0x0002, vec![1, 2, 3, 4, 5]),
        (0x0003, vec![3, 5]),
        (0x0008, vec![0, 1, 2, 3, 4, 5]),
        (0x0009, (0..=59).collect()),
        (0x000A, (0..=23).collect()),
        (0x000D, [vec![0], (15..=30).collect()].concat()),
        (0x0018, (15..=30).collect()),
        (0x001D, vec![0, 1, 2]),
        (0x0060, vec![0, 1]),
        (0x0066, (0..=60).collect()),
        (0x0067, (0..=15).collect()),
        (0x00F0, vec![0, 1]),
    ];
    let fans = [
        0x36, 0x37, 0x3A, 0x3B, 0x3C, 0x3D, 0x3E, 0x3F, 0x40, 0x41, 0x42, 0x43, 0x45, 0x46, 0x47,
    ];
    rows.extend(fans.map(|number| (number, (0..=100).collect())));
    rows
}

/// Rows of one byte without 04 and 05, and not inverting.
fn other_rows() -> Vec<(u16, Vec<u8>)> {
    vec![
        (0x0094, vec![1, 2]),
        (0x0099, vec![48, 50, 51, 52]),
        (0x009A, (1..=13).collect()),
        (0x0400, (0..=80).collect()),
        (0x0401, vec![0, 1]),
        (0x0402, vec![0, 1]),
    ]
}

/// Writes all 256 bytes to a row under 03 and expects what `after` makes of the value held.
fn all_bytes(edges: &mut Edges, number: u16, start: u8, after: impl Fn(u8, u8) -> u8) {
    let (page, low) = place(number);
    let mut held = start;
    let written: Vec<u8> = (0..=255).collect();
    for part in written.chunks(64) {
        let (mut data, mut reports) = (page.clone(), page.clone());
        for byte in part {
            held = after(held, *byte);
            data += &format!("{low} {byte:02X}");
            reports += &format!("{low} {held:02X}");
        }
        edges.expect(3, &data, &reports);
    }
}

/// All bytes, and the edges of the set, of rows of one byte with these members.
pub fn byte_edges(edges: &mut Edges, rows: Vec<(u16, Vec<u8>)>) {
    for (number, members) in rows {
        edges.rule(&format!("{number:04X}: all 256 bytes written under 03"));
        let start = if number == 0x0037 { 100 } else { members[0] };
        all_bytes(edges, number, start, |held, byte| {
            if members.contains(&byte) { byte } else { held }
        });
        edges.rule(&format!(
            "{number:04X}: its edges under 02, which is silent"
        ));
        let (page, low) = place(number);
        let (first, last) = (members[0], members[members.len() - 1]);
        let read = format!("{page} {low}");
        let past = last.wrapping_add(1);
        let write = format!("{page} {low} {first:02X} {low} {past:02X}");
        edges.ask(2, &write, "silence");
        edges.expect(1, &read, &format!("{page} {low} {first:02X}"));
        let write = format!("{page} FE 01 {low} {last:02X} {low} FF");
        edges.ask(2, &write, "silence");
        edges.expect(1, &read, &format!("{page} {low} {last:02X}"));
        let two_bytes = format!("{page} FE 02 {low} {first:02X} 00");
        edges.expect(3, &two_bytes, &format!("{page} {low} {last:02X}"));
    }
}

pub fn switches(edges: &mut Edges, numbers: &[u16]) {
    edges.rule("Switches: all 256 bytes; 2 inverts");
    for number in numbers {
        all_bytes(edges, *number, 0, |held, byte| match byte {
            0 | 1 => byte,
            2 => 1 - held,
            _ => held,
        });
    }
}

/// From the lowest value up through the set and past its end, and down again.
pub fn walks(edges: &mut Edges, rows: Vec<(u16, Vec<u8>)>) {
    for (number, members) in rows {
        edges.rule(&format!(
            "{number:04X}: raised through its set and past the end, then lowered"
        ));
        let (page, low) = place(number);
        edges.ask(2, &format!("{page} {low} {:02X}", members[0]), "silence");
        let last = members[members.len() - 1];
        let up = [&members[1..], &[last]].concat();
        let down: Vec<u8> = members.iter().rev().skip(1).copied().collect();
        let down = [&down[..], &members[..1]].concat();
        for (function, steps) in [(4, up), (5, down)] {
            // A response has room for 114 reports.
            for part in steps.chunks(110) {
                let data = format!("{page} {}", low.repeat(part.len()));
                let reports: String = part
                    .iter()
                    .map(|value| format!("{low} {value:02X}"))
                    .collect();
                edges.expect(function, &data, &format!("{page} {reports}"));
            }
        }
    }
}

/// Reports of 0063, one after another.
pub fn filter_reports(days: &[u16]) -> String {
    days.iter()
        .map(|days| {
            let [low, high] = days.to_le_bytes();
            format!("FE 02 63 {low:02X} {high:02X}")
        })
        .collect()
}

fn filter_timer(edges: &mut Edges) {
    edges.rule("0063: raised and lowered through its whole set and past both ends");
    edges.ask(2, "FE 02 63 00 00", "silence");
    let mut up: Vec<u16> = (70..=365).step_by(5).collect();
    let mut down: Vec<u16> = up.iter().rev().skip(1).copied().collect();
    up.push(365);
    down.extend_from_slice(&[0, 0]);
    for (function, values) in [(4, up), (5, down)] {
        for part in values.chunks(40) {
            let reads = "63".repeat(part.len());
            edges.expect(function, &reads, &filter_reports(part));
        }
    }
    edges.rule("0063: values just outside its set, and with a high byte");
    edges.expect(3, "FE 02 63 46 00", "FE 02 63 46 00");
    let outside = [
        1, 5, 65, 69, 71, 72, 74, 326, 364, 366, 370, 17_920, 0x4646, 0xFFFF,
    ];
    for days in outside {
        edges.expect(3, &filter_reports(&[days]), "FE 02 63 46 00");
    }
    edges.expect(3, "FE 02 63 FF 00", "FE 02 63 FF 00");
    edges.expect(3, "FE 02 63 04 01", "FE 02 63 04 01");
    edges.expect(5, "63 63", "FE 02 63 FF 00 FE 02 63 FA 00");
    edges.expect(4, "63 63", "FE 02 63 FF 00 FE 02 63 04 01");
}

fn fan_speeds(edges: &mut Edges) {
    edges.rule("0036 and 0037 do not narrow the fan speeds");
    edges.expect(
        3,
        "36 32 37 3C 3A 00 3B 64 36 64 37 00",
        "36 32 37 3C 3A 00 3B 64 36 64 37 00",
    );
}

fn clock(edges: &mut Edges) {
    edges.rule("006F: seconds, minutes and hours at their edges");
    let mut held = "FE 03 6F 00 00 00";
    let times = [
        ("FE 03 6F 3B 3B 17", true),
        ("FE 03 6F 3C 00 00", false),
        ("FE 03 6F 00 3C 00", false),
        ("FE 03 6F 00 00 18", false),
        ("FE 03 6F FF FF FF", false),
        ("FE 03 6F 00 00 00", true),
        ("FE 03 6F 17 3B 16", true),
        ("FE 03 6F 3B 17 3B", false),
    ];
    for (value, legal) in times {
        held = if legal { value } else { held };
        edges.expect(3, value, held);
    }
}

/// Day, weekday, month and year, and whether they are a date.
const DATES: [(&str, bool); 22] = [
    ("1F 04 0C 63", true),
    ("00 05 01 00", false),
    ("20 02 01 00", false),
    ("01 00 01 00", false),
    ("01 08 01 00", false),
    ("01 05 01 00", false),
    ("01 07 01 00", false),
    ("01 01 01 00", false),
    ("01 06 00 00", false),
    ("01 01 0D 00", false),
    ("01 05 01 64", false),
    ("01 06 01 00", true),
    ("1D 02 02 00", true),
    ("1D 03 02 00", false),
    ("1E 03 02 00", false),
    ("1D 04 02 01", false),
    ("1C 03 02 01", true),
    ("1F 01 04 00", false),
    ("1E 07 04 00", true),
    ("1F 01 02 17", false),
    ("04 85 37 42", false),
    ("FF FF FF FF", false),
];

fn calendar(edges: &mut Edges) {
    edges.rule("0070: 31 December 2099, a Thursday; 29 February 2000, a Tuesday, not of 2001; 31 April; wrong weekdays");
    let mut held = "01 06 01 00";
    for (date, is_date) in DATES {
        held = if is_date { date } else { held };
        edges.expect(3, &format!("FE 04 70 {date}"), &format!("FE 04 70 {held}"));
    }
    edges.rule("0070: the last of each month, and the day after it, which is no day of that month");
    // 31 December 1999 was a Friday. Of these years every fourth is a leap year.
    let mut weekday = 5;
    for year in 0..100 {
        let february = if year % 4 == 0 { 29 } else { 28 };
        let lengths = [31, february, 31, 30, 31, 30, 31, 31, 30, 31, 30, 31];
        let (mut data, mut reports) = (String::new(), String::new());
        for (month, length) in (1..).zip(lengths) {
            weekday = (weekday + length - 1) % 7 + 1;
            let next = weekday % 7 + 1;
            let last = format!("FE 04 70 {length:02X} {weekday:02X} {month:02X} {year:02X}");
            data += &format!(
                "{last} FE 04 70 {:02X} {next:02X} {month:02X} {year:02X}",
                length + 1
            );
            reports += &format!("{last} {last}");
        }
        edges.expect(3, &data, &reports);
    }
}

fn free_bytes(edges: &mut Edges) {
    edges.rule("009C to 009F: four free bytes each");
    for row in ["9C", "9D", "9E", "9F"] {
        for value in ["FF FF FF FF", "C0 A8 04 01", "00 00 00 00", "FC FD FE FF"] {
            let command = format!("FE 04 {row} {value}");
            edges.expect(3, &command, &command);
        }
    }
}

fn texts(edges: &mut Edges) {
    let start = format!("FE 08 96 {}", "30".repeat(8));
    for (row, start, lengths) in [("95", "95 41", 1..=32), ("96", &start, 8..=64)] {
        edges.rule(&format!("00{row}: its lengths, each byte 20 to 7E"));
        let mut held = start.to_string();
        for length in 1..=70usize {
            let byte = format!("{:02X}", 0x20 + length);
            let command = format!("FE {length:02X} {row} {}", byte.repeat(length));
            if lengths.contains(&length) {
                held = match length {
                    1 => format!("{row} {byte}"),
                    _ => command.clone(),
                };
            }
            edges.expect(3, &command, &held);
        }
        text_bytes(edges, row, &held);
        edges.rule("A shorter text leaves nothing of the longer one");
        let data = format!("{start} FC 01 {row}");
        edges.expect(3, &data, &format!("{start} {start}"));
    }
    edges.rule("0095 of one byte is written and reported without FE");
    edges.expect(3, "95 20 95 7E 95 7F 95 1F", "95 20 95 7E 95 7E 95 7E");
    edges.expect(3, "96 20", &start);
}

fn text_bytes(edges: &mut Edges, row: &str, held: &str) {
    edges.rule("A byte outside 20 to 7E at the first, a middle or the last place");
    for bad in ["00", "1F", "7F", "80", "FF"] {
        for place in [0, 4, 8] {
            let mut text = ["41"; 9];
            text[place] = bad;
            let command = format!("FE 09 {row} {}", text.concat());
            edges.expect(3, &command, held);
        }
    }
    let ends = format!("FE 09 {row} 20 20 20 20 20 7E 7E 7E 7E");
    edges.expect(3, &ends, &ends);
}
