//! The unit types: which unit a board controls, chosen at set-up.

use std::ops::RangeInclusive;

pub const MICRA: u8 = 2;
/// The types of VENTO Expert.
pub const EXPERT: RangeInclusive<u8> = 3..=5;
/// The types that set-up takes.
pub const ALL: RangeInclusive<u8> = 2..=5;

/// What the row of the unit type holds, low byte first.
pub fn row_value(unit_type: u8) -> Vec<u8> {
    vec![unit_type, 0]
}
