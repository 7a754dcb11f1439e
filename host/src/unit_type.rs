//! The unit types that a board may be set up with: the Micra, and three of the VENTO Expert. Each has rows of its own.

use std::fmt;

#[derive(Clone, Copy, Debug, Default, PartialEq, Eq)]
pub enum UnitType {
    #[default]
    Micra,
    ExpertA50,
    ExpertDuo,
    ExpertA30,
}

use UnitType::{ExpertA30, ExpertA50, ExpertDuo, Micra};

impl UnitType {
    /// Ascending by their numbers.
    pub const ALL: [UnitType; 4] = [Micra, ExpertA50, ExpertDuo, ExpertA30];

    /// As 0x00B9 reports it.
    pub const fn number(self) -> u8 {
        match self {
            Micra => 2,
            ExpertA50 => 3,
            ExpertDuo => 4,
            ExpertA30 => 5,
        }
    }

    /// What the guides call such units, without the letters that all of them have.
    pub const fn product(self) -> &'static str {
        match self {
            Micra => "Micra 100 WiFi",
            ExpertA50 => "VENTO Expert A50-1, A85-1 or A100-1",
            ExpertDuo => "VENTO Expert Duo A30-1",
            ExpertA30 => "VENTO Expert A30",
        }
    }

    pub fn of(number: u16) -> Option<UnitType> {
        let mut all = UnitType::ALL.into_iter();
        all.find(|unit_type| u16::from(unit_type.number()) == number)
    }

    /// A number as it is written, without a sign or a zero before it.
    pub fn parse(text: &str) -> Option<UnitType> {
        let mut all = UnitType::ALL.into_iter();
        all.find(|unit_type| unit_type.number().to_string() == text)
    }

    /// As a value of 0x00B9 is shown: `4 VENTO Expert Duo A30-1`.
    pub fn words(self) -> String {
        format!("{} {}", self.number(), self.product())
    }
}

/// As messages call it: `type 4 (VENTO Expert Duo A30-1)`.
impl fmt::Display for UnitType {
    fn fmt(&self, formatter: &mut fmt::Formatter<'_>) -> fmt::Result {
        write!(formatter, "type {} ({})", self.number(), self.product())
    }
}

/// Some unit types as messages name them: `type 3`, `types 3 and 4`, `types 3, 4 and 5`.
pub fn list(unit_types: &[UnitType]) -> String {
    let numbers: Vec<String> = unit_types
        .iter()
        .map(|unit_type| unit_type.number().to_string())
        .collect();
    match &numbers[..] {
        [] => String::from("no type"),
        [one] => format!("type {one}"),
        [first @ .., last] => format!("types {} and {last}", first.join(", ")),
    }
}

#[cfg(test)]
mod tests {
    use super::*;

    #[test]
    fn types_are_2_to_5() {
        let numbers = UnitType::ALL.map(UnitType::number);
        assert_eq!(numbers, [2, 3, 4, 5]);
        for unit_type in UnitType::ALL {
            let number = unit_type.number();
            assert_eq!(UnitType::of(u16::from(number)), Some(unit_type));
            assert_eq!(UnitType::parse(&number.to_string()), Some(unit_type));
        }
        for other in [0, 1, 6, 255, 258, 512] {
            assert_eq!(UnitType::of(other), None, "{other}");
        }
        for bad in [
            "", "1", "6", "02", "+3", "-3", " 3", "3 ", "0x3", "3.0", "258", "Micra",
        ] {
            assert_eq!(UnitType::parse(bad), None, "{bad}");
        }
        assert_eq!(UnitType::default(), Micra);
    }

    #[test]
    fn a_type_has_words() {
        assert_eq!(Micra.words(), "2 Micra 100 WiFi");
        assert_eq!(ExpertDuo.to_string(), "type 4 (VENTO Expert Duo A30-1)");
        for (types, text) in [
            (&UnitType::ALL[..1], "type 2"),
            (&UnitType::ALL[1..3], "types 3 and 4"),
            (&UnitType::ALL[1..], "types 3, 4 and 5"),
        ] {
            assert_eq!(list(types), text);
        }
    }
}
