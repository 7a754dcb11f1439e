//! Packets as a person reads them: sixteen bytes to a line, with their place and their characters.

use std::fmt::Write;

const WIDTH: usize = 16;

/// The lines of a dump, each with its line end.
pub fn dump(bytes: &[u8]) -> String {
    let lines = bytes.chunks(WIDTH).enumerate();
    lines
        .map(|(index, chunk)| line(index * WIDTH, chunk))
        .collect()
}

fn line(place: usize, bytes: &[u8]) -> String {
    let mut text = format!("{place:04X}:");
    for byte in bytes {
        // Writing to a string does not fail.
        let _ = write!(text, " {byte:02X}");
    }
    let characters: String = bytes.iter().map(|byte| character(*byte)).collect();
    format!("{text:<54} {characters}\n")
}

fn character(byte: u8) -> char {
    match byte {
        b' '..=b'~' => char::from(byte),
        _ => '.',
    }
}

#[cfg(test)]
mod tests {
    use super::*;

    #[test]
    fn a_dump_has_places_bytes_and_characters() {
        let text = dump(b"\xFD\xFD\x02\x10002D6E1B3456\x7F1");
        let first = "0000: FD FD 02 10 30 30 32 44 36 45 31 42 33 34 35 36  ....002D6E1B3456\n";
        let second = "0010: 7F 31                                            .1\n";
        assert_eq!(text, format!("{first}{second}"));
        assert_eq!(dump(&[]), "");
    }
}
