//! Import: the reports of a table, up to the first line that is refused.

use super::{HEADER, LINE_END, Row};
use crate::block::Report;
use crate::call;
use crate::capture::RESPONSE;
use crate::hex;
use crate::reader::Reader;
use crate::refusal::Refusal;

const QUOTE: u8 = b'"';
/// The most bytes of a value.
const LONGEST_VALUE: usize = 255;

/// What the import gives: everything before the line that it refuses.
#[derive(Debug, Default, PartialEq, Eq)]
pub struct Imported {
    pub rows: Vec<Row>,
    /// Why a line is refused, and its number; the header is line 1.
    pub refusal: Option<(Refusal, usize)>,
}

/// Reads a table. Checks 60 to 63, the lowest at the first bad line.
pub fn import(text: &[u8]) -> Imported {
    let mut imported = Imported::default();
    imported.refusal = imported.fill(&lines(text)).err();
    imported
}

impl Imported {
    fn fill(&mut self, lines: &[Line]) -> Result<(), (Refusal, usize)> {
        check_header(lines.first()).map_err(|refusal| (refusal, 1))?;
        for (place, line) in lines.iter().enumerate().skip(1) {
            let row = line.row().map_err(|refusal| (refusal, place + 1))?;
            self.rows.push(row);
        }
        Ok(())
    }
}

/// Checks 60 and 61. A text without a byte has no line.
fn check_header(line: Option<&Line>) -> Result<(), Refusal> {
    match line {
        Some(line) if line.text == HEADER.as_bytes() => line.check_end(),
        _ => Err(Refusal::TableHeader),
    }
}

/// One line, without its line end.
#[derive(Debug, PartialEq, Eq)]
pub struct Line<'a> {
    pub text: &'a [u8],
    /// Whether CR LF follows; only the last line can lack it.
    pub is_ended: bool,
}

/// The lines of a text: each runs to the first CR LF, quotes open or not, or to the end.
pub fn lines(text: &[u8]) -> Vec<Line<'_>> {
    let mut lines = Vec::new();
    let mut rest = text;
    while !rest.is_empty() {
        let mut pairs = rest.windows(LINE_END.len());
        let end = pairs.position(|pair| pair == LINE_END.as_bytes());
        lines.push(Line {
            text: &rest[..end.unwrap_or(rest.len())],
            is_ended: end.is_some(),
        });
        rest = end.map_or(&[], |end| &rest[end + LINE_END.len()..]);
    }
    lines
}

impl Line<'_> {
    /// Checks 61, as far as the line end goes.
    fn check_end(&self) -> Result<(), Refusal> {
        match self.is_ended {
            true => Ok(()),
            false => Err(Refusal::TableQuoting),
        }
    }

    /// The row of the line. Checks 61, 62, 63.
    pub fn row(&self) -> Result<Row, Refusal> {
        self.check_end()?;
        let fields = self.fields().ok_or(Refusal::TableQuoting)?;
        let fields: [Vec<u8>; 5] = fields.try_into().map_err(|_| Refusal::TableFields)?;
        parse_row(&fields).ok_or(Refusal::TableForm)
    }

    /// What stands in the quotes of each field; none where the quoting is wrong.
    pub fn fields(&self) -> Option<Vec<Vec<u8>>> {
        let mut reader = Reader { rest: self.text };
        let mut fields = vec![read_field(&mut reader)?];
        while !reader.rest.is_empty() {
            reader.byte().filter(|byte| *byte == b',')?;
            fields.push(read_field(&mut reader)?);
        }
        Some(fields)
    }
}

/// A field in quotes. A doubled quote is a quote in it, a single one is its end.
fn read_field(reader: &mut Reader) -> Option<Vec<u8>> {
    reader.byte().filter(|byte| *byte == QUOTE)?;
    let mut field = Vec::new();
    loop {
        let byte = reader.byte()?;
        if byte == QUOTE {
            if reader.rest.first() != Some(&QUOTE) {
                return Some(field);
            }
            reader.byte()?;
        }
        field.push(byte);
    }
}

/// The row of five fields; none if one is outside its form.
fn parse_row([board, direction, counter, number, value]: &[Vec<u8>; 5]) -> Option<Row> {
    let board = parse_bytes(b"x", board)?.try_into().ok()?;
    let direction = (direction == b"1").then_some(RESPONSE)?;
    let counter = std::str::from_utf8(counter).ok()?;
    let counter = call::parse_decimal(counter, u32::MAX as usize)? as u32;
    let number = u16::from_be_bytes(parse_bytes(b"0x", number)?.try_into().ok()?);
    let value = parse_bytes(b"x", value).filter(|value| value.len() <= LONGEST_VALUE)?;
    let report = match value.is_empty() {
        true => Report::Unknown { number },
        false => Report::Value { number, value },
    };
    Some(Row {
        board,
        direction,
        counter,
        report,
    })
}

/// The bytes of hex digits behind a prefix.
fn parse_bytes(prefix: &[u8], field: &[u8]) -> Option<Vec<u8>> {
    hex::parse_digits(field.strip_prefix(prefix)?)
}
