//! Text from a board. It may hold any byte, so none but the printable ones of ASCII reach a terminal or a file as they are.

use std::fmt::Write;

/// The characters of some bytes; the backslash and what is not printable as `\xNN`.
pub fn printable(bytes: &[u8]) -> String {
    let mut text = String::new();
    for byte in bytes {
        match byte {
            b'\\' | ..b' ' | 0x7F.. => {
                // Writing to a string does not fail.
                let _ = write!(text, "\\x{byte:02X}");
            }
            _ => text.push(char::from(*byte)),
        }
    }
    text
}

/// A string of JSON. The text is `printable`, so only these two need an escape.
pub fn quoted(text: &str) -> String {
    format!("\"{}\"", text.replace('\\', "\\\\").replace('"', "\\\""))
}

/// A board's ID in the form that `--id` takes: 16 characters, or 32 hex digits.
pub fn identity(id: &[u8]) -> String {
    if id.iter().all(u8::is_ascii_graphic) {
        return id.iter().copied().map(char::from).collect();
    }
    crate::hex::digits(id)
}

#[cfg(test)]
mod tests {
    use super::*;

    #[test]
    fn only_printable_ascii_is_left() {
        let all: Vec<u8> = (0..=255).collect();
        let text = printable(&all);
        assert!(text.bytes().all(|byte| (b' '..=b'~').contains(&byte)));
        assert_eq!(printable(b"Home 2"), "Home 2");
        assert_eq!(
            printable(b"\x1B[2J\\\n\x7F\x80~"),
            "\\x1B[2J\\x5C\\x0A\\x7F\\x80~"
        );
    }

    #[test]
    fn quotes_and_backslashes_are_escaped_in_json() {
        assert_eq!(quoted("a\"b\\x1B"), "\"a\\\"b\\\\x1B\"");
    }

    #[test]
    fn an_id_is_characters_or_digits() {
        assert_eq!(identity(b"002D6E1B34565815"), "002D6E1B34565815");
        assert_eq!(identity(&[0x1B; 16]), "1B".repeat(16));
    }
}
