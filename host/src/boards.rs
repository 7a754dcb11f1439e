//! The boards that a command asks: the one that its options name, or some of a file.
//!
//! A line of the file is a board: name, host, ID, password and perhaps its unit type, with spaces or tabs between them. `-` is the empty
//! password. A line that begins with `#` is a comment; empty lines are passed over.

use std::fs::{self, Metadata};
use std::path::Path;

use crate::ffi::ID_SIZE;
use crate::hex;
use crate::target;
use crate::unit_type::UnitType;

/// A board that can be asked.
#[derive(Clone, Debug, PartialEq, Eq)]
pub struct Unit {
    /// Its name in the file of boards.
    pub name: Option<String>,
    pub host: String,
    pub id: Vec<u8>,
    pub password: Vec<u8>,
    pub unit_type: UnitType,
}

/// The word that stands for every board of a file.
pub const ALL: &str = "all";

const EMPTY_PASSWORD: &str = "-";

/// The boards of a file, and a warning where others can read it.
pub fn load(path: &str) -> Result<(Vec<Unit>, Option<String>), String> {
    let failed = |error| format!("cannot read {path}: {error}");
    let text = fs::read_to_string(path).map_err(failed)?;
    let units = parse(&text).map_err(|error| format!("{path}: {error}"))?;
    let metadata = Path::new(path).metadata().map_err(failed)?;
    let warning = is_open(&metadata).then(|| {
        format!("warning: others can read {path}, which holds passwords: chmod 600 {path}")
    });
    Ok((units, warning))
}

#[cfg(unix)]
fn is_open(metadata: &Metadata) -> bool {
    use std::os::unix::fs::PermissionsExt;
    const OTHERS_READ: u32 = 0o044;
    metadata.permissions().mode() & OTHERS_READ != 0
}

#[cfg(not(unix))]
fn is_open(_metadata: &Metadata) -> bool {
    false
}

fn parse(text: &str) -> Result<Vec<Unit>, String> {
    let mut units: Vec<Unit> = Vec::new();
    for (number, line) in (1..).zip(text.lines()) {
        let line = line.trim();
        if line.is_empty() || line.starts_with('#') {
            continue;
        }
        let unit = parse_line(line).map_err(|error| format!("line {number}: {error}"))?;
        if units.iter().any(|other| other.name == unit.name) {
            return Err(format!("line {number}: this name stands there twice"));
        }
        units.push(unit);
    }
    Ok(units)
}

/// Says nothing of what stands there, which may be a password in the wrong place.
fn parse_line(line: &str) -> Result<Unit, String> {
    let fields: Vec<&str> = line.split_whitespace().collect();
    let (name, host, id, password, unit_type) = match fields[..] {
        [name, host, id, password] => (name, host, id, password, None),
        [name, host, id, password, unit_type] => (name, host, id, password, Some(unit_type)),
        _ => {
            let count = fields.len();
            return Err(format!(
                "a board has a name, a host, an ID, a password (`-` if it is empty) and perhaps a unit type, not {count} fields"
            ));
        }
    };
    if name == ALL || !name.bytes().all(is_name) {
        return Err(format!(
            "a name is of letters, digits, `.`, `_` and `-`, and not `{ALL}`"
        ));
    }
    target::check(host).map_err(|_| String::from("the second field is no host"))?;
    Ok(Unit {
        name: Some(String::from(name)),
        host: String::from(host),
        id: parse_id(id).map_err(|_| String::from("the third field is no ID"))?,
        password: parse_password(password)?,
        unit_type: parse_unit_type(unit_type)?,
    })
}

fn parse_unit_type(text: Option<&str>) -> Result<UnitType, String> {
    let parsed = text.map_or(Some(UnitType::default()), UnitType::parse);
    parsed.ok_or_else(|| String::from("the fifth field is no unit type, which is 2 to 5"))
}

fn is_name(byte: u8) -> bool {
    byte.is_ascii_alphanumeric() || b"._-".contains(&byte)
}

fn parse_password(text: &str) -> Result<Vec<u8>, String> {
    const LONGEST: usize = 8;
    let is_password =
        text.len() <= LONGEST && text.bytes().all(|byte| byte.is_ascii_alphanumeric());
    match text {
        EMPTY_PASSWORD => Ok(Vec::new()),
        _ if is_password => Ok(text.as_bytes().to_vec()),
        _ => Err(format!(
            "a password is up to {LONGEST} of 0-9, a-z, A-Z, or `-` if it is empty"
        )),
    }
}

/// 16 characters, or 32 hex digits.
pub fn parse_id(text: &str) -> Result<Vec<u8>, String> {
    if text.len() == ID_SIZE && text.bytes().all(|byte| byte.is_ascii_graphic()) {
        return Ok(text.as_bytes().to_vec());
    }
    match hex::parse(text) {
        Some(id) if id.len() == ID_SIZE => Ok(id),
        _ => Err(format!(
            "the ID `{text}` is neither {ID_SIZE} characters nor 32 hex digits"
        )),
    }
}

/// The boards of these names, each once, in the order of the names; `all` is every one, in the file's order.
pub fn choose(units: &[Unit], names: &[&str]) -> Result<Vec<Unit>, String> {
    let mut chosen: Vec<Unit> = Vec::new();
    for name in names {
        let is_meant = |unit: &&Unit| *name == ALL || unit.name.as_deref() == Some(name);
        let mut meant = units.iter().filter(is_meant).peekable();
        if meant.peek().is_none() {
            return Err(format!("the file of boards has no board `{name}`"));
        }
        for unit in meant {
            if !chosen.contains(unit) {
                chosen.push(unit.clone());
            }
        }
    }
    Ok(chosen)
}

#[cfg(test)]
mod tests {
    use super::*;

    const FILE: &str = "# the study's boards\n\n flat-1\t192.168.1.7  002D6E1B34565815 1111\r\nflat-2 board.example:4001 00000000000000000000000000000000 -\t5\n";

    #[test]
    fn a_line_is_a_board() {
        let units = parse(FILE).expect("two boards");
        let unit = |name: &str, host: &str, id: &[u8], password: &[u8], unit_type| Unit {
            name: Some(name.to_string()),
            host: host.to_string(),
            id: id.to_vec(),
            password: password.to_vec(),
            unit_type,
        };
        let (micra, expert) = (UnitType::Micra, UnitType::ExpertA30);
        assert_eq!(
            units,
            [
                unit("flat-1", "192.168.1.7", b"002D6E1B34565815", b"1111", micra),
                unit("flat-2", "board.example:4001", &[0; 16], b"", expert),
            ]
        );
        assert_eq!(parse("#\n"), Ok(vec![]));
    }

    #[test]
    fn a_wrong_line_is_told_by_its_number_and_not_shown() {
        for (line, reason) in [
            ("flat-3 h 002D6E1B34565815", "not 3 fields"),
            ("flat-3 h 002D6E1B34565815 1111 5 6", "not 6 fields"),
            ("flat-3 h 002D6E1B34565815 1111 1", "no unit type"),
            ("flat-3 h 002D6E1B34565815 1111 6", "no unit type"),
            ("flat-3 h 002D6E1B34565815 1111 03", "no unit type"),
            ("flat-3 h 002D6E1B34565815 1111 secret", "no unit type"),
            ("flat-1 h 002D6E1B34565815 1111", "twice"),
            ("all h 002D6E1B34565815 1111", "not `all`"),
            ("f\u{1B}[m h 002D6E1B34565815 1111", "a name is of"),
            ("flat-3 h:0 002D6E1B34565815 1111", "no host"),
            ("flat-3 broadcast 002D6E1B34565815 1111", "no host"),
            ("flat-3 broadcast:1 002D6E1B34565815 1111", "no host"),
            ("flat-3 h secret 1111", "no ID"),
            ("flat-3 h 002D6E1B34565815 secret-1", "a password is"),
            ("flat-3 h 002D6E1B34565815 123456789", "a password is"),
        ] {
            let error = parse(&format!("{FILE}{line}\n")).expect_err(line);
            assert!(
                error.starts_with("line 5: ") && error.contains(reason),
                "{error}"
            );
            assert!(!error.contains("secret") && !error.contains('\u{1B}'));
        }
    }

    #[test]
    fn a_board_is_a_micra_or_what_the_fifth_field_says() {
        let line = "flat h 002D6E1B34565815 1111";
        for (field, unit_type) in [
            ("", UnitType::Micra),
            (" 2", UnitType::Micra),
            (" 3", UnitType::ExpertA50),
            ("\t4 ", UnitType::ExpertDuo),
            ("  5", UnitType::ExpertA30),
        ] {
            let units = parse(&format!("{line}{field}")).expect("a board");
            assert_eq!(units[0].unit_type, unit_type);
        }
    }

    #[test]
    fn boards_are_chosen_by_name() {
        let units = parse(FILE).expect("two boards");
        let chosen = |names: &[&str]| choose(&units, names).map(|units| units.len());
        assert_eq!(chosen(&["flat-2"]), Ok(1));
        assert_eq!(chosen(&["flat-2", "flat-1", "flat-2"]), Ok(2));
        assert_eq!(choose(&units, &["all"]), Ok(units.clone()));
        assert_eq!(chosen(&["flat-1", "all"]), Ok(2));
        assert!(chosen(&["flat-3"]).is_err());
        assert!(choose(&[], &["all"]).is_err());
    }

    #[test]
    fn ids_are_characters_or_digits() {
        assert_eq!(
            parse_id("002D6E1B34565815"),
            Ok(b"002D6E1B34565815".to_vec())
        );
        assert_eq!(parse_id(&"0a".repeat(16)), Ok(vec![10; 16]));
        for bad in [
            "",
            "002D6E1B3456581",
            "002D6E1B345658155",
            "00000000\u{e9}000000",
            "a b d e f g h i ",
        ] {
            assert!(parse_id(bad).is_err(), "{bad}");
        }
    }
}
