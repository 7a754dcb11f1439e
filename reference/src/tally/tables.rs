//! What calls meet of tables: each refusal with its cause, each field at its edges, what an export leaves out.

mod exporting;
mod fields;
mod importing;

use super::captures::{Written, named};
use crate::call::{self, Call};

/// The refusals of each call, in the order in which they are checked. What a capture is refused with is told beside its table.
pub const REFUSALS: [(&str, &[u8]); 2] = [("export", &[54]), ("import", &[60, 61, 62, 63])];

/// The names of all outcomes that a comparison has to meet.
pub fn expected() -> Vec<String> {
    [
        named("line", vec!["bad".to_string()]),
        named("export", exporting::expected()),
        named("import", importing::expected()),
    ]
    .concat()
}

/// The names that a call met.
pub fn met(line: &str, answer: &str, written: &Written) -> Vec<String> {
    match call::parse(line) {
        None => named("line", ["bad".to_string()]),
        Some(Call::Export { room, capture }) => {
            named("export", exporting::met(room, &capture, answer))
        }
        Some(Call::Import { table }) => {
            named("import", importing::met(&table, written.writer(line)))
        }
        Some(_) => Vec::new(),
    }
}

#[cfg(test)]
mod tests {
    use super::*;
    use crate::hex;
    use crate::replay::Session;
    use crate::table::HEADER;

    const ID: &str = "30303030303030303030303030303030";

    /// The names of a call, without its word, joined.
    fn names(line: &str) -> String {
        let answer = Session::new().line(line.as_bytes()).expect("an answer");
        let met = met(line, &answer, &Written::default()).into_iter();
        let names = met.map(|name| name.split_once(' ').expect("two words").1.to_string());
        names.collect::<Vec<_>>().join(", ")
    }

    #[test]
    fn exports_are_named_by_version_and_outcome() {
        let one = format!("564C47010001{ID}");
        let two = format!("564C4702000100{ID}");
        for (fields, expected) in [
            (
                "0 -".to_string(),
                "refused 54, refused 54: also 50, refused 54: no byte",
            ),
            (
                "48 -".to_string(),
                "50 beside, 50 beside: the buffer's whole length",
            ),
            (
                "49 564C47".to_string(),
                "51 beside, 51 beside: one byte of the buffer left",
            ),
            (
                "47 564C47010011".to_string(),
                "version 1 refused 54, version 1 refused 54: also 52, version 1 refused 54: one byte too short",
            ),
            (
                format!("48 {one}"),
                "version 1 whole, version 1 whole: no report, version 1 whole: the buffer's whole length",
            ),
            (
                format!("60 {two}0000010000000000000000"),
                "version 2 53 beside, version 2 53 beside: a counter of 0, version 2 53 beside: a response judged 2, \
                 version 2 53 beside: more of the buffer left, version 2 53 beside: no report",
            ),
        ] {
            assert_eq!(names(&format!("export {fields}")), expected);
        }
        assert_eq!(names("export 0"), "bad");
    }

    fn import(text: &str) -> String {
        names(&format!("import {}", hex::field(text.as_bytes())))
    }

    #[test]
    fn headers_are_named_by_their_cause() {
        for (text, expected) in [
            ("", "refused 60, refused 60: no byte"),
            ("\r\n", "refused 60, refused 60: an empty line"),
            (
                "\"board\"",
                "refused 60, refused 60: cut short, refused 60: no CR LF",
            ),
            (
                &format!("{HEADER}\nx\r\n"),
                "refused 60, refused 60: ended by LF",
            ),
            (
                &format!("\u{feff}{HEADER}\r\n"),
                "refused 60, refused 60: a byte order mark",
            ),
            (
                &HEADER.to_uppercase(),
                "refused 60, refused 60: in another case, refused 60: no CR LF",
            ),
            (
                HEADER,
                "refused 61, refused 61: the header with no line end",
            ),
        ] {
            assert_eq!(import(text), expected);
        }
    }

    fn good() -> String {
        format!("\"x{ID}\",\"1\",\"0\",\"0x0001\",\"x\"")
    }

    /// The import of a line behind the header.
    fn line(line: &str) -> String {
        import(&format!("{HEADER}\r\n{line}"))
    }

    #[test]
    fn lines_are_named_by_their_cause() {
        let good = good();
        for (text, expected) in [
            ("\r\n".to_string(), "61: an empty line"),
            (good.clone(), "61: no line end"),
            ("\"\"".to_string(), "61: no line end, also 62"),
            (good.replace('1', "2"), "61: no line end, also 63"),
            (format!("{good}\n"), "61: no line end, quoting too"),
            ("x\r\n".to_string(), "61: a field without quotes"),
            ("\"x\r\n".to_string(), "61: an open quote"),
            (
                "\"x\"x\r\n".to_string(),
                "61: a byte behind a closing quote",
            ),
            (format!("{good},\r\n"), "61: a comma at the end"),
            ("\"\",\"\"\r\n".to_string(), "62: 2 fields"),
        ] {
            let names = line(&text);
            assert!(names.contains(&format!("refused {expected}")), "{names}");
        }
    }

    #[test]
    fn fields_are_named_by_their_cause() {
        let good = good();
        for (old, new, expected) in [
            ("\"x30", "\"30", "board without its prefix"),
            ("\"1\"", "\"01\"", "direction 01"),
            ("\"0\"", "\"4294967296\"", "counter 4294967296"),
            ("0x0001", "0x001", "number of a digit less"),
            ("\"x\"", "\"xA\"", "value of odd digits"),
            ("\"x\"", "\"xab\"", "value in lowercase"),
        ] {
            let names = line(&format!("{}\r\n", good.replace(old, new)));
            assert!(
                names.contains(&format!("refused 63: {expected}")),
                "{names}"
            );
        }
        let accepted = line(&format!("{good}\r\n"));
        assert_eq!(
            accepted,
            "accepted, accepted: 1 report, accepted: a counter of 0, accepted: an unknown parameter"
        );
    }
}
