//! Values for rows: legal ones, those at the edges of each set, and those of a wrong length.

use super::{calendar, identities, schedule};
use crate::random::Random;
use crate::rows::{self, Row, Values};
use crate::schedule::NUMBER;
use crate::units::MICRA;

/// A type of each product that has all of its rows.
const FULL_TYPES: [u8; 2] = [MICRA, 3];

/// The row that one of the products has under a number; none if neither has one.
pub fn row(random: &mut Random, number: u16) -> Option<&'static Row> {
    let rows = FULL_TYPES.map(|unit_type| rows::find(unit_type, number));
    let rows: Vec<&Row> = rows.into_iter().flatten().collect();
    (!rows.is_empty()).then(|| random.pick(&rows))
}

/// A number: mostly of a row of any unit type, else that of the schedule, unknown or anything.
pub fn number(random: &mut Random) -> u16 {
    let rows = rows::of(identities::legal_type(random)).keys();
    let rows: Vec<u16> = rows.copied().collect();
    let row = random.pick(&rows);
    let unknown = random.pick(&[
        0x0000, 0x0004, 0x0005, 0x0010, 0x0023, 0x0026, 0x0038, 0x0048, 0x0049, 0x0065, 0x0177,
        0x007D, 0x007F, 0x0080, 0x0081, 0x0082, 0x0085, 0x0087, 0x00A0, 0x00A2, 0x00FB, 0x0101,
        0x0102, 0x0104, 0x017C, 0x01B9, 0x0240, 0x0301, 0x0306, 0x0403, 0x0406, 0x047C, 0x7C00,
        0xFF01,
    ]);
    let any = u16::from_be_bytes([random.byte(), random.byte() % 0xFC]);
    let page = random.byte();
    let page = random.pick(&[0, 1, 2, 3, 4, 8, 16, 32, 64, 128, page]);
    let other_page = u16::from_be_bytes([page, row as u8]);
    match random.between(0, 41) {
        0..=31 => row,
        32..=36 => unknown,
        37 | 38 => other_page,
        39 | 40 => NUMBER,
        _ => any,
    }
}

/// A value for a number, 1 to 255 bytes: mostly legal on one of the products or close to it.
pub fn value(random: &mut Random, number: u16) -> Vec<u8> {
    let mut value = match row(random, number) {
        None if number == NUMBER => schedule::write(random),
        None => {
            let length = random.pick(&[1, 1, 1, 2, 4, 6]);
            random.bytes(length)
        }
        Some(row) if row.inverts && random.chance(20) => vec![2],
        Some(row) => match random.between(0, 9) {
            0..=4 => legal(random, row),
            5..=7 => edge(random, row),
            8 => {
                let near_inversion: [&[u8]; 8] =
                    [&[0], &[1], &[2], &[2], &[3], &[255], &[2, 0], &[0, 2]];
                random.pick(&near_inversion).to_vec()
            }
            _ => wrong_length(random, row),
        },
    };
    if value.is_empty() {
        value.push(random.byte());
    }
    value
}

/// A value of the row's set.
pub fn legal(random: &mut Random, row: &Row) -> Vec<u8> {
    match &row.values {
        Values::Number { size, .. } => {
            let members = row.members();
            let ends = [members[0], members[members.len() - 1]];
            let any = random.pick(&members);
            number_bytes(random.pick(&[ends[0], ends[1], any, any]), *size)
        }
        Values::Bytes(ranges) => ranges
            .iter()
            .map(|(low, high)| {
                let any = random.between(usize::from(*low), usize::from(*high)) as u8;
                random.pick(&[*low, *high, any])
            })
            .collect(),
        Values::Date => calendar::legal(random),
        Values::Text { shortest, longest } => {
            let any = random.between(*shortest, *longest);
            let length = random.pick(&[*shortest, *shortest + 1, *longest - 1, *longest, any]);
            (0..length)
                .map(|_| {
                    let any = random.between(0x20, 0x7E) as u8;
                    random.pick(&[any, any, 0x20, 0x7E])
                })
                .collect()
        }
    }
}

/// A value of the row's size at or just past an edge of its set.
pub fn edge(random: &mut Random, row: &Row) -> Vec<u8> {
    match &row.values {
        Values::Number { size, .. } => {
            let members = row.members();
            let member = random.pick(&members);
            let ends = [members[0], members[members.len() - 1]];
            let near = random.pick(&[ends[0], ends[1], ends[0], ends[1], member]);
            let step = random.pick(&[0, 1, 1, 1, 2, 5, 256]);
            let past = random.pick(&[near.wrapping_add(step), near.wrapping_sub(step)]);
            number_bytes(past, *size)
        }
        Values::Bytes(ranges) => {
            let mut value = legal(random, row);
            let place = random.between(0, ranges.len() - 1);
            let (low, high) = ranges[place];
            value[place] =
                random.pick(&[low.wrapping_sub(1), high.wrapping_add(1), low, high, 255]);
            value
        }
        Values::Date => calendar::edge(random),
        Values::Text { shortest, longest } => text_edge(random, row, *shortest, *longest),
    }
}

/// A text with one byte out of range, or one byte too short or too long.
fn text_edge(random: &mut Random, row: &Row, shortest: usize, longest: usize) -> Vec<u8> {
    if random.chance(50) {
        let length = random.pick(&[shortest - 1, longest + 1]);
        return vec![b'x'; length];
    }
    let mut value = legal(random, row);
    let place = random.between(0, value.len() - 1);
    let place = random.pick(&[0, place, value.len() - 1]);
    value[place] = random.pick(&[0x1F, 0x7F, 0x00, 0x80, 0xFF, 0x20, 0x7E]);
    value
}

/// A value that is too short or too long, its first bytes mostly legal.
pub fn wrong_length(random: &mut Random, row: &Row) -> Vec<u8> {
    let mut value = legal(random, row);
    match random.between(0, 5) {
        0 | 1 => value.push(0),
        2 => value.truncate(value.len() - 1),
        3 => value.insert(0, 0),
        4 => {
            let length = random.between(1, 20);
            value.resize(length, 0);
        }
        _ => {
            let length = random.between(1, 120);
            value = random.bytes(length);
        }
    }
    value
}

fn number_bytes(number: u16, size: usize) -> Vec<u8> {
    number.to_le_bytes()[..size].to_vec()
}

#[cfg(test)]
mod tests {
    use super::*;

    #[test]
    fn legal_values_are_legal_and_edges_lie_on_both_sides() {
        let mut random = Random::new(1);
        for row in FULL_TYPES.iter().flat_map(|full| rows::of(*full).values()) {
            let drawn: Vec<bool> = (0..400)
                .map(|_| {
                    let value = edge(&mut random, row);
                    row.contains(&value)
                })
                .collect();
            assert!((0..100).all(|_| row.contains(&legal(&mut random, row))));
            assert!(drawn.contains(&true), "{:04X}", row.number);
            assert_eq!(drawn.contains(&false), !is_free(row));
        }
    }

    fn is_free(row: &Row) -> bool {
        match &row.values {
            Values::Number { size, .. } => *size == 1 && row.members().len() == 256,
            Values::Bytes(ranges) => ranges.iter().all(|range| *range == (0, 255)),
            _ => false,
        }
    }

    #[test]
    fn values_fit_the_size_byte_and_numbers_the_low_byte() {
        let mut random = Random::new(2);
        for _ in 0..5_000 {
            let number = number(&mut random);
            assert!(number.to_be_bytes()[1] <= 0xFB);
            let length = value(&mut random, number).len();
            assert!((1..=255).contains(&length));
        }
    }
}
