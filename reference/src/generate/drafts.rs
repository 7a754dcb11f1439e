//! Tables in parts, so that each can be damaged: fields, quotes, line ends, lines, the header, any byte.

use super::{captured, contents, identities};
use crate::hex;
use crate::random::Random;
use crate::table::HEADER;

/// A table in the making.
pub struct Draft {
    /// The header is the first.
    lines: Vec<Line>,
}

struct Line {
    /// As they stand, with their quotes.
    fields: Vec<Vec<u8>>,
    end: Vec<u8>,
}

impl Line {
    fn new(fields: Vec<Vec<u8>>) -> Line {
        let end = b"\r\n".to_vec();
        Line { fields, end }
    }

    fn bytes(&self) -> Vec<u8> {
        [&self.fields.join(&b','), &self.end[..]].concat()
    }
}

/// First lines that are no header.
const HEADERS: [&str; 16] = [
    "",
    "board,direction,counter,number,value",
    r#""Board","direction","counter","number","value""#,
    r#""BOARD","DIRECTION","COUNTER","NUMBER","VALUE""#,
    r#""board", "direction", "counter", "number", "value""#,
    r#""board";"direction";"counter";"number";"value""#,
    r#""board","direction","counter","number""#,
    r#""board","direction","counter","number","value","""#,
    r#""board","direction","counter","number","value","#,
    r#""board","direction","counter","value","number""#,
    r#""board","direction","counter","number","values""#,
    r#""board","direction","counter","number","value"""#,
    r#""board","direction","counter","number","value" "#,
    r#" "board","direction","counter","number","value""#,
    "number,value",
    "\u{feff}\"board\",\"direction\",\"counter\",\"number\",\"value\"",
];

/// Line ends that are none, or that leave a byte on the line.
const ENDS: [&str; 14] = [
    "", "", "\n", "\n", "\r", "\r", "\r\r\n", "\r\r\n", "\n\r\n", "\n\r", " \r\n", ",\r\n",
    "\r\n\r\n", "\r\n\n",
];

impl Draft {
    /// A table that is accepted.
    pub fn new(random: &mut Random, rows: usize) -> Draft {
        let header = HEADER.split(',').map(|field| field.as_bytes().to_vec());
        let mut lines = vec![Line::new(header.collect())];
        lines.extend((0..rows).map(|_| row(random)));
        Draft { lines }
    }

    pub fn bytes(&self) -> Vec<u8> {
        self.lines.iter().flat_map(Line::bytes).collect()
    }

    /// The bytes of the first lines, as many as make up at most so many bytes.
    pub fn bytes_up_to(&self, size: usize) -> Vec<u8> {
        let mut bytes = Vec::new();
        for line in self.lines.iter().map(Line::bytes) {
            if bytes.len() + line.len() > size {
                break;
            }
            bytes.extend_from_slice(&line);
        }
        bytes
    }

    /// Does one kind of damage, or several, mostly to one line.
    pub fn damage(&mut self, random: &mut Random) {
        let line = self.any_line(random);
        self.damage_line(random, line);
        while random.chance(30) {
            let other = self.any_line(random);
            let line = random.pick(&[line, other]).min(self.lines.len() - 1);
            self.damage_line(random, line);
        }
        if let Some(last) = self.lines.last_mut().filter(|_| random.chance(5)) {
            last.end.clear();
        }
    }

    /// A line behind the header, the last one in half of the cases; the header now and then.
    fn any_line(&self, random: &mut Random) -> usize {
        let last = self.lines.len() - 1;
        if last == 0 || random.chance(8) {
            return 0;
        }
        let any = random.between(1, last);
        random.pick(&[any, last])
    }

    fn damage_line(&mut self, random: &mut Random, line: usize) {
        match random.between(0, 19) {
            0 => self.lines.insert(line, Line::new(Vec::new())),
            1..=2 => self.lines[line].end = random.pick(&ENDS).as_bytes().to_vec(),
            3..=5 => change_count(random, &mut self.lines[line].fields),
            6..=9 => misquote(random, &mut self.lines[line].fields),
            _ if line == 0 => self.damage_header(random),
            _ => change_field(random, &mut self.lines[line].fields),
        }
    }

    fn damage_header(&mut self, random: &mut Random) {
        if random.chance(10) && self.lines.len() > 1 {
            self.lines.remove(0);
            return;
        }
        let header = random.pick(&HEADERS).as_bytes().to_vec();
        self.lines[0].fields = vec![header];
    }
}

/// A line that is accepted.
fn row(random: &mut Random) -> Line {
    let board = identities::legal_id(random);
    let number = random.next_number() as u16;
    let number = random.pick(&[number, number, number | 0x00FC, number & 0x00FF, 0, 0xFFFF]);
    let (any, edge) = (random.between(1, 40), contents::value_length(random));
    let length = random.pick(&[0, 0, 1, 1, 1, 2, 4, 16, any, edge.min(255)]);
    let fields = [
        format!("x{}", hex::digits(&board)),
        "1".to_string(),
        captured::counter(random).to_string(),
        format!("0x{number:04X}"),
        format!("x{}", hex::digits(&random.bytes(length))),
    ];
    let quoted = fields.map(|field| format!("\"{field}\"").into_bytes());
    Line::new(quoted.to_vec())
}

/// A place of one of the fields; none where a line has lost them all.
fn any_place(random: &mut Random, fields: &[Vec<u8>]) -> Option<usize> {
    let last = fields.len().checked_sub(1)?;
    Some(random.between(0, last))
}

/// Gives one field another content, mostly one outside its form.
fn change_field(random: &mut Random, fields: &mut [Vec<u8>]) {
    let Some(place) = any_place(random, fields) else {
        return;
    };
    let held = fields[place].strip_prefix(b"\"");
    let held = held.and_then(|rest| rest.strip_suffix(b"\""));
    let content = contents::other(random, place, held.unwrap_or_default());
    fields[place] = [b"\"", &content[..], b"\""].concat();
}

/// Takes a field away, adds one, or joins two by what is no separator.
fn change_count(random: &mut Random, fields: &mut Vec<Vec<u8>>) {
    let Some(place) = any_place(random, fields) else {
        return;
    };
    match random.between(0, 5) {
        0..=1 => {
            fields.remove(place);
        }
        2 => {
            let count = random.between(0, fields.len());
            fields.truncate(count);
        }
        3 => fields.insert(place, fields[place].clone()),
        4 => {
            let more = [&b"\"\""[..], b"\"x\"", b"\"x00\"", b"\"a,b\"", b"", b"x"];
            fields.push(random.pick(&more).to_vec());
        }
        _ => {
            let between = [&b""[..], b"", b";", b", ", b" ,", b",,", b"\t", b" "];
            let between = random.pick(&between);
            let next = fields.remove((place + 1).min(fields.len() - 1));
            let place = place.min(fields.len().saturating_sub(1));
            if let Some(field) = fields.get_mut(place) {
                field.extend([between, &next].concat());
            }
        }
    }
}

/// Spoils the quotes of one field, in most cases so that the quoting is wrong.
fn misquote(random: &mut Random, fields: &mut [Vec<u8>]) {
    let Some(place) = any_place(random, fields) else {
        return;
    };
    let field = &mut fields[place];
    let (inside, length) = (random.between(0, field.len()), field.len());
    let junk = [
        &b" "[..],
        b"0",
        b"x",
        b"\"",
        b"\"\"",
        b"\r",
        b"\n",
        b"\0",
        b",",
    ];
    let junk = random.pick(&junk).iter().copied();
    match random.between(0, 9) {
        0 => field.retain(|byte| *byte != b'"'),
        1 if length > 0 => {
            field.remove(0);
        }
        2 if length > 0 => {
            field.pop();
        }
        3 => field.extend(junk),
        4 => drop(field.splice(0..0, junk)),
        5 => drop(field.splice(inside..inside, *b"\"")),
        6 => drop(field.splice(inside..inside, *b"\"\"")),
        7 => drop(field.splice(inside..inside, *b"\r\n")),
        8 => field.clear(),
        _ => field
            .iter_mut()
            .filter(|byte| **byte == b'"')
            .for_each(|quote| *quote = b'\''),
    }
}

/// Bytes that matter to a table.
const MARKS: [u8; 16] = *b"\"\"\",,\r\r\n\nx01Aa \0";

/// One byte changed, left out or put in, or the text cut.
pub fn change_bytes(random: &mut Random, text: &mut Vec<u8>) {
    let any = random.between(0, text.len());
    let near_end = text.len().saturating_sub(random.between(0, 4));
    let place = random.pick(&[any, any, near_end]);
    match random.between(0, 7) {
        0 => text.truncate(place),
        1 => text.insert(place, random.byte()),
        2..=3 => text.insert(place, random.pick(&MARKS)),
        _ if place == text.len() => text.truncate(text.len().saturating_sub(1)),
        4 => {
            text.remove(place);
        }
        5 => text[place] = random.pick(&MARKS),
        6 => text[place] = random.byte(),
        _ => text[place] ^= 1 << random.between(0, 7),
    }
}

/// Bytes before or behind the whole text, or other line ends in all of it.
pub fn change_whole(random: &mut Random, text: &mut Vec<u8>) {
    let behind = [
        &b"\r\n"[..],
        b"\n",
        b"\r",
        b" ",
        b"\"",
        b"\0",
        b"\x1A",
        b"refused,0\n",
        b"refused,1\ncapture,53\n",
    ];
    let before = [
        &b"\xEF\xBB\xBF"[..],
        b"\xFF\xFE",
        b" ",
        b"\r\n",
        b"\n",
        b"\0",
    ];
    match random.between(0, 9) {
        0..=3 => text.extend(random.pick(&behind)),
        4..=6 => drop(text.splice(0..0, random.pick(&before).iter().copied())),
        7 => text.retain(|byte| *byte != b'\r'),
        8 => text.retain(|byte| *byte != b'\n'),
        _ => text.extend_from_within(..),
    }
}

#[cfg(test)]
mod tests {
    use super::*;
    use crate::table;

    #[test]
    fn drafts_are_accepted_until_they_are_damaged() {
        let mut random = Random::new(5);
        let mut refused = 0;
        for round in 0..2_000 {
            let mut draft = Draft::new(&mut random, round % 6);
            let imported = table::import(&draft.bytes());
            assert_eq!((imported.rows.len(), imported.refusal), (round % 6, None));
            draft.damage(&mut random);
            refused += usize::from(table::import(&draft.bytes()).refusal.is_some());
        }
        assert!(refused > 1_500, "{refused}");
    }
}
