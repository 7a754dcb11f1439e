//! Bytes as hex digits.

/// Two digits for each byte, nothing between them.
pub fn parse(text: &str) -> Option<Vec<u8>> {
    if text.is_empty() || !text.len().is_multiple_of(2) {
        return None;
    }
    text.as_bytes().chunks(2).map(parse_byte).collect()
}

/// The digits of some bytes, uppercase.
pub fn digits(bytes: &[u8]) -> String {
    bytes.iter().map(|byte| format!("{byte:02X}")).collect()
}

fn parse_byte(digits: &[u8]) -> Option<u8> {
    digits
        .iter()
        .try_fold(0, |value, digit| Some(value * 16 + parse_digit(*digit)?))
}

fn parse_digit(digit: u8) -> Option<u8> {
    match digit {
        b'0'..=b'9' => Some(digit - b'0'),
        b'a'..=b'f' => Some(digit - b'a' + 10),
        b'A'..=b'F' => Some(digit - b'A' + 10),
        _ => None,
    }
}

#[cfg(test)]
mod tests {
    use super::*;

    #[test]
    fn pairs_of_digits_are_bytes() {
        assert_eq!(parse("00cEfF"), Some(vec![0x00, 0xCE, 0xFF]));
        assert_eq!(digits(&[0x00, 0xCE, 0xFF]), "00CEFF");
        for bad in ["", "0", "0x00", "0g", " 00", "00 00", "0\u{e9}", "\u{e9}"] {
            assert_eq!(parse(bad), None, "{bad}");
        }
    }
}
