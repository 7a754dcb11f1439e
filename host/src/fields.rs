//! Values of several numbers, like times and addresses: the text `08:30:00` and the bytes of its numbers.

use std::ops::RangeInclusive;

/// A number of such a value, in the order of the text.
pub struct Field {
    /// Its place among the bytes.
    at: usize,
    /// One byte, or two, low byte first.
    bytes: usize,
    range: RangeInclusive<u16>,
    /// How many digits the text has at least.
    digits: usize,
    /// What follows the number in the text.
    mark: &'static str,
}

const fn byte(at: usize, lowest: u16, highest: u16, digits: usize, mark: &'static str) -> Field {
    Field {
        at,
        bytes: 1,
        range: lowest..=highest,
        digits,
        mark,
    }
}

const fn word(at: usize, digits: usize, mark: &'static str) -> Field {
    Field {
        at,
        bytes: 2,
        range: 0..=u16::MAX,
        digits,
        mark,
    }
}

/// `23:59:59`, stored seconds first.
pub const TIME: [Field; 3] = [
    byte(2, 0, 23, 2, ":"),
    byte(1, 0, 59, 2, ":"),
    byte(0, 0, 59, 2, ""),
];

/// `23:59`, stored minutes first.
pub const SHORT_TIME: [Field; 2] = [byte(1, 0, 23, 2, ":"), byte(0, 0, 59, 2, "")];

/// `1h02m03s`, stored seconds first.
pub const COUNTDOWN: [Field; 3] = [
    byte(2, 0, 23, 1, "h"),
    byte(1, 0, 59, 2, "m"),
    byte(0, 0, 59, 2, "s"),
];

/// `180d23h59m`, stored minutes first.
pub const DURATION: [Field; 3] = [
    byte(2, 0, 255, 1, "d"),
    byte(1, 0, 23, 2, "h"),
    byte(0, 0, 59, 2, "m"),
];

/// The same with two bytes of days: `364d23h59m`.
pub const LONG_DURATION: [Field; 3] = [
    word(2, 1, "d"),
    byte(1, 0, 23, 2, "h"),
    byte(0, 0, 59, 2, "m"),
];

/// `192.168.4.1`
pub const ADDRESS: [Field; 4] = [
    byte(0, 0, 255, 1, "."),
    byte(1, 0, 255, 1, "."),
    byte(2, 0, 255, 1, "."),
    byte(3, 0, 255, 1, ""),
];

/// `1.12 2021-03-04`: the version, and a date that is stored day first.
pub const FIRMWARE: [Field; 5] = [
    byte(0, 0, 255, 1, "."),
    byte(1, 0, 255, 1, " "),
    word(4, 4, "-"),
    byte(3, 1, 12, 2, "-"),
    byte(2, 1, 31, 2, ""),
];

/// `21-03-04`, the end of a date; the weekday, byte 1, is not among them.
pub const DATE: [Field; 3] = [
    byte(3, 0, 99, 2, "-"),
    byte(2, 1, 12, 2, "-"),
    byte(0, 1, 31, 2, ""),
];

/// The text, where each number is in its range.
pub fn show(fields: &[Field], bytes: &[u8]) -> Option<String> {
    fields.iter().map(|field| field.show(bytes)).collect()
}

/// Puts the numbers of a text into the bytes.
pub fn parse(fields: &[Field], text: &str, bytes: &mut [u8]) -> Option<()> {
    let mut rest = text;
    for field in fields {
        rest = field.parse(rest, bytes)?;
    }
    rest.is_empty().then_some(())
}

impl Field {
    fn show(&self, bytes: &[u8]) -> Option<String> {
        let places = bytes.get(self.at..self.at + self.bytes)?;
        let number = places
            .iter()
            .rev()
            .fold(0, |number, byte| number << 8 | u16::from(*byte));
        let is_in = self.range.contains(&number);
        is_in.then(|| format!("{number:0digits$}{}", self.mark, digits = self.digits))
    }

    /// What is left of the text.
    fn parse<'a>(&self, text: &'a str, bytes: &mut [u8]) -> Option<&'a str> {
        let rest = text.trim_start_matches(|character: char| character.is_ascii_digit());
        let number: u16 = text[..text.len() - rest.len()].parse().ok()?;
        if !self.range.contains(&number) {
            return None;
        }
        let places = bytes.get_mut(self.at..self.at + self.bytes)?;
        places.copy_from_slice(&number.to_le_bytes()[..self.bytes]);
        rest.strip_prefix(self.mark)
    }
}

#[cfg(test)]
mod tests {
    use super::*;

    fn bytes_of(fields: &[Field], text: &str, size: usize) -> Option<Vec<u8>> {
        let mut bytes = vec![0; size];
        parse(fields, text, &mut bytes).map(|()| bytes)
    }

    #[test]
    fn texts_and_bytes_go_both_ways() {
        for (fields, text, bytes) in [
            (&TIME[..], "23:05:09", &[9, 5, 23][..]),
            (&COUNTDOWN, "1h02m03s", &[3, 2, 1]),
            (&SHORT_TIME, "08:30", &[30, 8]),
            (&DURATION, "255d23h59m", &[59, 23, 255]),
            (&LONG_DURATION, "365d23h59m", &[59, 23, 0x6D, 1]),
            (&ADDRESS, "192.168.4.1", &[192, 168, 4, 1]),
            (&FIRMWARE, "1.12 2021-03-04", &[1, 12, 4, 3, 0xE5, 7]),
        ] {
            assert_eq!(show(fields, bytes).as_deref(), Some(text));
            assert_eq!(bytes_of(fields, text, bytes.len()).as_deref(), Some(bytes));
            assert_eq!(show(fields, &bytes[1..]), None, "{text}");
        }
    }

    #[test]
    fn texts_that_are_none() {
        for bad in [
            "",
            "1:2",
            "24:00:00",
            "00:60:00",
            "1:2:3:",
            "1:2:3 ",
            "-1:2:3",
            "1::3",
            "x:2:3",
            "1:2:99999",
        ] {
            assert_eq!(bytes_of(&TIME, bad, 3), None, "{bad}");
        }
        for bad in ["", "8", "8:", "08:60", "24:00", "08:30:00", "08.30"] {
            assert_eq!(bytes_of(&SHORT_TIME, bad, 2), None, "{bad}");
        }
        assert_eq!(bytes_of(&DURATION, "256d00h00m", 3), None);
        assert_eq!(show(&TIME, &[60, 0, 0]), None);
        assert_eq!(bytes_of(&ADDRESS, "1.2.3.256", 4), None);
    }
}
