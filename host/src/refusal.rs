//! The numbers that a call is turned down with.

use std::fmt;

#[derive(Clone, Copy, Debug, PartialEq, Eq)]
pub struct Refusal(pub u16);

impl Refusal {
    fn meaning(self) -> &'static str {
        match self.0 {
            1 => "buffer too short",
            2 => "length under 24 or over 256 bytes",
            3 => "does not begin with FD FD",
            4 => "checksum differs",
            5 => "TYPE or ID size differs",
            6 => "password size over 8, or the packet ends inside its head",
            7 => "ID differs",
            8 => "password differs",
            9 => "wrong FUNC",
            10 => "data block malformed",
            11 => "a search that does not only read",
            12 => "response would exceed 256 bytes",
            20 => "ID has not 16 bytes, or is DEFAULT_DEVICEID",
            21 => "password over 8 characters, or not of 0-9, a-z, A-Z",
            22 => "mode is neither client nor access point",
            23 => "unit type is not 2 to 5",
            30 => "not a row that can be measured",
            31 => "not the row's length",
            40 => "ID has not 16 bytes",
            41 => "not a list of commands",
            42 => {
                "a function outside 1 to 5, a low byte above FB, or a value of no or over 255 bytes"
            }
            43 => "request would exceed 256 bytes",
            50 => "does not begin with VLG",
            51 => "version is neither 1 nor 2, or is cut short",
            52 => "not 1 to 16 boards in version 1 or 1 to 1,000 in version 2, with an ID of 16 bytes each",
            53 => "a record is cut short, or its index, direction or length is outside its range",
            54 => "buffer shorter than the capture or the table",
            60 => "not the header of a table",
            61 => "a field is not in quotes, or no CR LF ends the line",
            62 => "not five fields",
            63 => "a field is not in its form, a counter over 32 bits, or a value over 255 bytes",
            70 => "the record is not one that a board can have",
            _ => "unknown number",
        }
    }
}

impl fmt::Display for Refusal {
    fn fmt(&self, formatter: &mut fmt::Formatter<'_>) -> fmt::Result {
        write!(formatter, "refused {} ({})", self.0, self.meaning())
    }
}
