//! What the import of a table meets.

use std::collections::BTreeSet;

use super::fields;
use crate::block::Report;
use crate::refusal::Refusal;
use crate::table::{self, HEADER, Line, Row};
use crate::tally::captures::also;

/// What a table meets but for the fields outside their forms.
const IMPORTS: [&str; 41] = [
    "accepted",
    "accepted: no report",
    "accepted: 1 report",
    "accepted: more than 9 reports",
    "accepted: what export wrote",
    "accepted: an unknown parameter",
    "accepted: a value of 255 bytes",
    "accepted: a low byte over FB",
    "accepted: a counter of 0",
    "accepted: a counter of 4294967295",
    "refused 60",
    "refused 60: no byte",
    "refused 60: an empty line",
    "refused 60: no CR LF",
    "refused 60: cut short",
    "refused 60: ended by LF",
    "refused 60: a byte order mark",
    "refused 60: in another case",
    "refused 61",
    "refused 61: the header with no line end",
    "refused 61: an empty line",
    "refused 61: no line end",
    "refused 61: no line end, also 62",
    "refused 61: no line end, also 63",
    "refused 61: no line end, quoting too",
    "refused 61: a field without quotes",
    "refused 61: an open quote",
    "refused 61: a byte behind a closing quote",
    "refused 61: a comma at the end",
    "refused 61: CR before CR LF",
    "refused 61: reports before",
    "refused 61: a line over 9",
    "refused 62",
    "refused 62: 1 fields",
    "refused 62: 4 fields",
    "refused 62: 6 fields",
    "refused 62: also 63",
    "refused 62: reports before",
    "refused 63",
    "refused 63: reports before",
    "refused 63: a line over 9",
];

pub fn expected() -> Vec<String> {
    let others = IMPORTS.iter().map(|name| name.to_string());
    let forms = fields::OUTSIDE.iter();
    let forms = forms.map(|name| format!("refused 63: {name}"));
    others.chain(forms).collect()
}

pub fn met(text: &[u8], writer: Option<String>) -> BTreeSet<String> {
    let imported = table::import(text);
    let lines = table::lines(text);
    let (outcome, mut names) = match imported.refusal {
        None => {
            let accepted = accepted(&imported.rows).chain(writer);
            ("accepted".to_string(), accepted.collect())
        }
        Some((Refusal::TableHeader, _)) => ("refused 60".to_string(), header_causes(text)),
        Some((refusal, line)) => {
            let causes = match line {
                1 => vec!["the header with no line end".to_string()],
                _ => line_causes(&lines[line - 1], refusal),
            };
            (format!("refused {}", refusal.number()), causes)
        }
    };
    if let Some((_, line)) = imported.refusal {
        names.extend(also([
            (line > 2, "reports before"),
            (line > 9, "a line over 9"),
        ]));
    }
    let names = names.iter().map(|name| format!("{outcome}: {name}"));
    names.chain([outcome.clone()]).collect()
}

fn accepted(rows: &[Row]) -> impl Iterator<Item = String> {
    let any = |holds: fn(&Row) -> bool| rows.iter().any(holds);
    also([
        (rows.is_empty(), "no report"),
        (rows.len() == 1, "1 report"),
        (rows.len() > 9, "more than 9 reports"),
        (any(|row| row.counter == 0), "a counter of 0"),
        (
            any(|row| row.counter == u32::MAX),
            "a counter of 4294967295",
        ),
        (
            any(|row| matches!(row.report, Report::Unknown { .. })),
            "an unknown parameter",
        ),
        (
            any(|row| matches!(&row.report, Report::Value { value, .. } if value.len() == 255)),
            "a value of 255 bytes",
        ),
        (any(|row| number(row) % 256 > 0xFB), "a low byte over FB"),
    ])
}

fn number(row: &Row) -> u16 {
    match row.report {
        Report::Value { number, .. } | Report::Unknown { number } => number,
    }
}

fn header_causes(text: &[u8]) -> Vec<String> {
    let header = HEADER.as_bytes();
    let front = &text[..text.len().min(header.len())];
    let is_cut = !text.is_empty() && header.starts_with(text);
    let by_line_feed = [header, b"\n"].concat();
    let lines = table::lines(text);
    let first_is_ended = lines.first().is_some_and(|line| line.is_ended);
    also([
        (text.is_empty(), "no byte"),
        (text.starts_with(b"\r\n"), "an empty line"),
        (!text.is_empty() && !first_is_ended, "no CR LF"),
        (is_cut, "cut short"),
        (text.starts_with(&by_line_feed), "ended by LF"),
        (text.starts_with(b"\xEF\xBB\xBF"), "a byte order mark"),
        (
            front != header && front.eq_ignore_ascii_case(header),
            "in another case",
        ),
    ])
    .collect()
}

/// Why a line behind the header is refused.
fn line_causes(line: &Line, refusal: Refusal) -> Vec<String> {
    let fields = line.fields();
    match (refusal, &fields) {
        (Refusal::TableQuoting, _) if !line.is_ended => vec![open_cause(line)],
        (Refusal::TableQuoting, _) => {
            let before_end = line.text.ends_with(b"\r");
            let mut causes = vec![quoting_cause(line.text).to_string()];
            causes.extend(also([(before_end, "CR before CR LF")]));
            causes
        }
        (Refusal::TableFields, Some(fields)) => {
            let outside = fields::causes(fields);
            let mut causes = vec![format!("{} fields", fields.len())];
            causes.extend(also([(!outside.is_empty(), "also 63")]));
            causes
        }
        _ => fields::causes(&fields.unwrap_or_default()),
    }
}

/// What else would hold of a line with no line end.
fn open_cause(line: &Line) -> String {
    let ended = Line {
        is_ended: true,
        ..*line
    };
    let name = match ended.row() {
        Ok(_) => "no line end",
        Err(Refusal::TableFields) => "no line end, also 62",
        Err(Refusal::TableForm) => "no line end, also 63",
        Err(_) => "no line end, quoting too",
    };
    name.to_string()
}

/// What is wrong first with the quoting of a line.
fn quoting_cause(line: &[u8]) -> &'static str {
    if line.is_empty() {
        return "an empty line";
    }
    let mut rest = line;
    loop {
        let Some(inside) = rest.strip_prefix(b"\"") else {
            return match rest {
                [] => "a comma at the end",
                _ => "a field without quotes",
            };
        };
        let Some(end) = closing_quote(inside) else {
            return "an open quote";
        };
        let [b',', more @ ..] = &inside[end + 1..] else {
            return "a byte behind a closing quote";
        };
        rest = more;
    }
}

/// The place of the first quote that is not doubled.
fn closing_quote(inside: &[u8]) -> Option<usize> {
    let mut place = 0;
    loop {
        place += inside[place..].iter().position(|byte| *byte == b'"')?;
        if inside.get(place + 1) != Some(&b'"') {
            return Some(place);
        }
        place += 2;
    }
}
