//! Lines that are no call, lines that are passed over, and the longest lines.

use super::Generator;
use crate::block::Command;
use crate::call::Call;
use crate::hex;

/// Lines that have none of the forms.
const BAD_LINES: [&str; 50] = [
    " ",
    "-",
    "Record",
    "record ",
    " record",
    "record\r",
    "record 0",
    "recor",
    "setup",
    "setup - -",
    "setup - - ",
    "setup - - 01",
    "setup - - 256",
    "setup - - -1",
    "setup - - 4294967297",
    "setup  - 1",
    "setup - - 1 256",
    "setup - - 1 02",
    "setup - - 1 2 2",
    "packet 1025 -",
    "packet 0256 -",
    "packet 256",
    "packet -",
    "packet 256 - -",
    "packet +256 -",
    "packet 256 fdfd",
    "packet 256 FDF",
    "measure 1E 00",
    "measure 0x1E 00",
    "poke mode 18446744073709551617",
    "poke modes 1",
    "poke type -",
    "poke type 256",
    "poke types 2",
    "poke 00001 00",
    "poke 0077:0.1 00",
    "poke 0077:8.1 00",
    "poke 0077:1.0 00",
    "poke 0077:1.5 00",
    "poke 0077:1 00",
    "poke 0077:11.1 00",
    "poke 0077:1.1: 00",
    "poke 0077:1.1",
    "poke 0078:1.1 00",
    "poke 0177:1.1 00",
    "write 256 - - 1:0001",
    "write 256 - - 1:0001:- ",
    "write 256 - - 300:0001:-",
    "read - -",
    "list",
];

impl Generator {
    /// A line from the table, or the last line with a character or a field changed.
    pub fn bad_line(&mut self) {
        let fixed = self.random.pick(&BAD_LINES).to_string();
        let last = self.lines.last().cloned().unwrap_or_default();
        let line = match self.random.chance(50) {
            true => fixed,
            false => self.spoiled(&last),
        };
        self.line(line);
        self.show_record_sometimes(10);
    }

    /// The line with a character or a field changed.
    pub fn spoiled(&mut self, line: &str) -> String {
        let mut characters: Vec<char> = line.chars().collect();
        let place = self.random.between(0, characters.len());
        match self.random.between(0, 7) {
            0 => return line.to_lowercase(),
            1 => return line.replacen(' ', "  ", 1),
            2 => return format!("{line} "),
            3 => return format!("{line} 00"),
            4 => characters.truncate(place),
            5 => characters.insert(
                place,
                self.random.pick(&[' ', '0', 'A', ':', '-', '\t', 'é']),
            ),
            6 if place < characters.len() => {
                characters.remove(place);
            }
            _ => return line.replacen(' ', "\t", 1),
        }
        characters.into_iter().collect()
    }

    pub fn passed_over_line(&mut self) {
        let lines = ["", "#", "# setup - - 1", "#record", "# é\t", "##"];
        let line = self.random.pick(&lines).to_string();
        self.line(line);
    }

    /// A line of exactly 8,192 characters, or just under.
    pub fn long_line(&mut self) {
        const LONGEST_LINE: usize = 8_192;
        if self.random.chance(50) {
            let packet = self.random.bytes((LONGEST_LINE - "packet 1024 ".len()) / 2);
            self.call(Call::Packet {
                length: 1024,
                packet,
            });
            return;
        }
        let (id, password) = (self.id(), self.password());
        let head = format!("write 256 {} {}", hex::field(&id), hex::field(&password));
        let function = self.random.pick(&[0, 1, 4]);
        let count = (LONGEST_LINE - head.len()) / " 1:0001:-".len();
        let mut commands = Vec::new();
        for place in 0..count {
            let function = if place + 1 == count { function } else { 1 };
            commands.push(Command {
                function,
                number: place as u16 % 0xFC,
                value: Vec::new(),
            });
        }
        self.call(Call::Write {
            length: 256,
            id,
            password,
            commands,
        });
    }
}

#[cfg(test)]
mod tests {
    use super::*;
    use crate::call;

    #[test]
    fn the_bad_lines_are_bad() {
        for line in BAD_LINES {
            assert_eq!(call::parse(line), None, "{line}");
        }
    }
}
