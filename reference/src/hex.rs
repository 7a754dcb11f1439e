//! Bytes as the call list shows them: uppercase hex without separators, `-` for no bytes.

/// Uppercase hex of the bytes, empty for none.
pub fn digits(bytes: &[u8]) -> String {
    let digit = |half: u8| char::from(b"0123456789ABCDEF"[usize::from(half)]);
    bytes
        .iter()
        .flat_map(|byte| [digit(byte / 16), digit(byte % 16)])
        .collect()
}

/// A field of a call or an answer: hex, or `-` for no bytes.
pub fn field(bytes: &[u8]) -> String {
    if bytes.is_empty() {
        "-".to_string()
    } else {
        digits(bytes)
    }
}

/// The bytes of a field. Lowercase, an odd number of digits and an empty field are none.
pub fn parse_field(field: &str) -> Option<Vec<u8>> {
    match field {
        "-" => Some(Vec::new()),
        "" => None,
        digits => parse_digits(digits.as_bytes()),
    }
}

/// The bytes of uppercase digits, two for each byte.
pub fn parse_digits(digits: &[u8]) -> Option<Vec<u8>> {
    if !digits.len().is_multiple_of(2) {
        return None;
    }
    digits
        .chunks(2)
        .map(|pair| Some(parse_digit(pair[0])? * 16 + parse_digit(pair[1])?))
        .collect()
}

/// A parameter number: exactly four uppercase hex digits.
pub fn parse_number(field: &str) -> Option<u16> {
    if field.len() != 4 {
        return None;
    }
    let bytes = parse_field(field)?;
    Some(u16::from_be_bytes([bytes[0], bytes[1]]))
}

fn parse_digit(digit: u8) -> Option<u8> {
    match digit {
        b'0'..=b'9' => Some(digit - b'0'),
        b'A'..=b'F' => Some(digit - b'A' + 10),
        _ => None,
    }
}

#[cfg(test)]
mod tests {
    use super::*;

    #[test]
    fn fields_are_uppercase_pairs_or_a_dash() {
        assert_eq!(field(&[]), "-");
        assert_eq!(field(&[0, 0xAF]), "00AF");
        assert_eq!(parse_field("00AF"), Some(vec![0, 0xAF]));
        assert_eq!(parse_field("-"), Some(vec![]));
        for bad in ["", "0", "ABC", "0a", "--", "-0", "0x", "G0", "é", "+1"] {
            assert_eq!(parse_field(bad), None, "{bad}");
        }
    }

    #[test]
    fn digits_are_uppercase_pairs_or_none() {
        assert_eq!(parse_digits(b""), Some(vec![]));
        assert_eq!(parse_digits(b"00AF"), Some(vec![0, 0xAF]));
        for bad in ["-", "0", "0a", "0G", "@0", "0/", "0:", "00A"] {
            assert_eq!(parse_digits(bad.as_bytes()), None, "{bad}");
        }
    }

    #[test]
    fn parameter_numbers_have_four_digits() {
        assert_eq!(parse_number("0A1F"), Some(0x0A1F));
        for bad in ["", "-", "A1F", "00A1F", "0a1F", "0xA1", "éé", "---- "] {
            assert_eq!(parse_number(bad), None, "{bad}");
        }
    }
}
