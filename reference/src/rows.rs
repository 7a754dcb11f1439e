//! The rows of each unit type: their numbers, the values they may hold and the functions they take.

mod expert;
mod micra;

use std::collections::BTreeMap;
use std::sync::OnceLock;

use crate::calendar;
use crate::units;

/// The row that holds the date.
pub const CALENDAR_ROW: u16 = 0x0070;
/// The row that holds the board's ID.
pub const ID_ROW: u16 = 0x007C;
/// The row that holds the unit type.
pub const UNIT_TYPE_ROW: u16 = 0x00B9;

/// Which functions a row takes.
#[derive(Clone, Copy, Debug, PartialEq, Eq)]
pub enum Access {
    /// Function 01.
    ReadOnly,
    /// Functions 01, 02 and 03.
    Three,
    /// Functions 01 to 05.
    AllFive,
}

/// The stars of a row in the table of VENTO Expert.
#[derive(Clone, Copy, Debug, PartialEq, Eq)]
pub enum Stars {
    None,
    /// Type 5 lacks the row.
    One,
    /// Type 3 alone has the row.
    Two,
}

/// Numbers from the first to the last by a step.
#[derive(Debug)]
pub struct Span {
    first: u16,
    last: u16,
    step: usize,
}

impl Span {
    fn contains(&self, number: u16) -> bool {
        let in_range = (self.first..=self.last).contains(&number);
        in_range && usize::from(number - self.first).is_multiple_of(self.step)
    }

    fn numbers(&self) -> impl Iterator<Item = u16> {
        (self.first..=self.last).step_by(self.step)
    }
}

/// The set of legal values of a row.
#[derive(Debug)]
pub enum Values {
    /// One number, low byte first, out of ascending spans.
    Number { size: usize, spans: &'static [Span] },
    /// Each byte in a range of its own.
    Bytes(&'static [(u8, u8)]),
    /// Day, weekday, month and year of a date.
    Date,
    /// Bytes 20 to 7E, the length in a range.
    Text { shortest: usize, longest: usize },
}

#[derive(Debug)]
pub struct Row {
    pub number: u16,
    pub access: Access,
    /// Writing 2 inverts.
    pub inverts: bool,
    pub values: Values,
    pub stars: Stars,
}

impl Row {
    pub fn takes(&self, function: u8) -> bool {
        match self.access {
            Access::ReadOnly => function == 1,
            Access::Three => (1..=3).contains(&function),
            Access::AllFive => (1..=5).contains(&function),
        }
    }

    /// Whether a unit type of the row's product has the row.
    fn is_on(&self, unit_type: u8) -> bool {
        match self.stars {
            Stars::None => true,
            Stars::One => unit_type != 5,
            Stars::Two => unit_type == 3,
        }
    }

    /// The most bytes that a value of this row has.
    pub fn room(&self) -> usize {
        match &self.values {
            Values::Number { size, .. } => *size,
            Values::Bytes(ranges) => ranges.len(),
            Values::Date => 4,
            Values::Text { longest, .. } => *longest,
        }
    }

    pub fn is_text(&self) -> bool {
        matches!(self.values, Values::Text { .. })
    }

    /// The numbers of the row's set, ascending; none if the row holds no number.
    pub fn members(&self) -> Vec<u16> {
        let spans = match &self.values {
            Values::Number { spans, .. } => *spans,
            _ => &[],
        };
        spans.iter().flat_map(Span::numbers).collect()
    }

    /// Whether the value is in the row's set.
    pub fn contains(&self, value: &[u8]) -> bool {
        match &self.values {
            Values::Number { size, spans } => {
                let number = number_of(value);
                value.len() == *size && spans.iter().any(|span| span.contains(number))
            }
            Values::Bytes(ranges) => {
                value.len() == ranges.len()
                    && value
                        .iter()
                        .zip(*ranges)
                        .all(|(byte, (low, high))| low <= byte && byte <= high)
            }
            Values::Date => {
                <[u8; 4]>::try_from(value).is_ok_and(|value| calendar::judge(value).is_ok())
            }
            Values::Text { shortest, longest } => {
                (*shortest..=*longest).contains(&value.len())
                    && value.iter().all(|byte| (0x20..=0x7E).contains(byte))
            }
        }
    }

    /// What the row holds after `written` came under a function that the row takes; none: unchanged.
    pub fn written(&self, held: &[u8], written: &[u8]) -> Option<Vec<u8>> {
        if self.inverts && written == [2] {
            return Some(if held == [0] { vec![1] } else { vec![0] });
        }
        self.contains(written).then(|| written.to_vec())
    }

    /// The least legal value above the one held.
    pub fn raised(&self, held: &[u8]) -> Option<Vec<u8>> {
        let members = self.members().into_iter();
        let above = members.filter(|member| *member > number_of(held));
        Some(bytes_of(above.min()?, self.room()))
    }

    /// The greatest legal value below the one held.
    pub fn lowered(&self, held: &[u8]) -> Option<Vec<u8>> {
        let members = self.members().into_iter();
        let below = members.filter(|member| *member < number_of(held));
        Some(bytes_of(below.max()?, self.room()))
    }

    /// The value that the start record holds. 007C and 00B9 depend on the identity and are set there.
    pub fn start(&self) -> Vec<u8> {
        match (self.number, &self.values) {
            (0x0037, _) => vec![100],
            (0x0095, _) => b"A".to_vec(),
            (0x0096, _) => b"00000000".to_vec(),
            (_, Values::Number { size, .. }) => bytes_of(self.members()[0], *size),
            (_, Values::Bytes(ranges)) => ranges.iter().map(|(low, _)| *low).collect(),
            (_, Values::Date) => vec![1, 6, 1, 0],
            (_, Values::Text { shortest, .. }) => vec![b' '; *shortest],
        }
    }
}

/// A value of one or two bytes as a number, low byte first.
fn number_of(value: &[u8]) -> u16 {
    let bytes = [0, 1].map(|place| value.get(place).copied().unwrap_or(0));
    u16::from_le_bytes(bytes)
}

fn bytes_of(number: u16, size: usize) -> Vec<u8> {
    number.to_le_bytes()[..size].to_vec()
}

/// The rows of a unit type by ascending number.
pub type Table = BTreeMap<u16, &'static Row>;

/// The rows of a unit type; none for a number that is no unit type.
pub fn of(unit_type: u8) -> &'static Table {
    static NONE: Table = Table::new();
    static TABLES: OnceLock<BTreeMap<u8, Table>> = OnceLock::new();
    let tables = TABLES.get_or_init(|| {
        let types = units::ALL.map(|unit_type| (unit_type, table(unit_type)));
        types.collect()
    });
    tables.get(&unit_type).unwrap_or(&NONE)
}

fn table(unit_type: u8) -> Table {
    let product: &'static [Row] = match unit_type {
        units::MICRA => &micra::ROWS,
        _ => &expert::ROWS,
    };
    let mut by_number = Table::new();
    for row in product.iter().filter(|row| row.is_on(unit_type)) {
        let earlier = by_number.insert(row.number, row);
        assert!(earlier.is_none(), "a row is listed twice");
    }
    by_number
}

/// The row of a number on a unit type; none if the parameter is unknown there.
pub fn find(unit_type: u8, number: u16) -> Option<&'static Row> {
    of(unit_type).get(&number).copied()
}

// What the tables of the products are made of.

/// Seconds, minutes and hours.
const CLOCK: &[(u8, u8)] = &[(0, 59), (0, 59), (0, 23)];

/// Any bytes, of which a row takes as many as it has.
const FREE: &[(u8, u8)] = &[(0, 255); 16];

const fn to(first: u16, last: u16) -> Span {
    steps(first, last, 1)
}

const fn only(number: u16) -> Span {
    steps(number, number, 1)
}

const fn steps(first: u16, last: u16, step: usize) -> Span {
    Span { first, last, step }
}

const fn row(number: u16, access: Access, values: Values) -> Row {
    Row {
        number,
        access,
        inverts: false,
        values,
        stars: Stars::None,
    }
}

/// 0 or 1; writing 2 inverts.
const fn switch(number: u16) -> Row {
    const SPANS: &[Span] = &[to(0, 1)];
    let mut switch = byte(number, Access::Three, SPANS);
    switch.inverts = true;
    switch
}

/// One number of one byte.
const fn byte(number: u16, access: Access, spans: &'static [Span]) -> Row {
    self::number(number, access, 1, spans)
}

const fn number(number: u16, access: Access, size: usize, spans: &'static [Span]) -> Row {
    row(number, access, Values::Number { size, spans })
}

const fn bytes(number: u16, ranges: &'static [(u8, u8)]) -> Row {
    row(number, Access::Three, Values::Bytes(ranges))
}

const fn free(number: u16, size: usize) -> Row {
    bytes(number, FREE.split_at(size).0)
}

const fn read_only(number: u16, size: usize) -> Row {
    let values = Values::Bytes(FREE.split_at(size).0);
    row(number, Access::ReadOnly, values)
}

const fn text(number: u16, shortest: usize, longest: usize) -> Row {
    row(number, Access::Three, Values::Text { shortest, longest })
}

const fn date() -> Row {
    row(CALENDAR_ROW, Access::Three, Values::Date)
}

impl Row {
    const fn starred(mut self, stars: Stars) -> Row {
        self.stars = stars;
        self
    }
}

#[cfg(test)]
mod tests {
    use super::*;
    use crate::units::MICRA;

    fn row(number: u16) -> &'static Row {
        find(MICRA, number).unwrap()
    }

    /// A row of VENTO Expert.
    fn expert(number: u16) -> &'static Row {
        find(3, number).unwrap()
    }

    /// How many rows a type has by their functions, and how many of them invert.
    fn counts(unit_type: u8) -> [usize; 4] {
        let rows = || of(unit_type).values();
        let count = |access| rows().filter(|row| row.access == access).count();
        let inverting = rows().filter(|row| row.inverts).count();
        [
            count(Access::ReadOnly),
            count(Access::Three),
            count(Access::AllFive),
            inverting,
        ]
    }

    #[test]
    fn there_are_72_rows_of_micra() {
        assert_eq!(of(MICRA).len(), 72);
        assert_eq!(counts(MICRA), [23, 9 + 12, 13 + 15, 7]);
    }

    #[test]
    fn there_are_50_rows_of_expert_and_fewer_with_stars() {
        assert_eq!([3, 4, 5].map(|unit_type| of(unit_type).len()), [50, 43, 39]);
        assert_eq!(counts(3), [18, 16, 16, 6]);
        assert_eq!(counts(4), [18, 16, 9, 6]);
        assert_eq!(counts(5), [16, 15, 8, 5]);
        let lacking = |unit_type| {
            let rows = of(3).keys();
            let lacking = rows.filter(move |number| find(unit_type, **number).is_none());
            lacking.copied().collect::<Vec<u16>>()
        };
        let two_stars = [0x003A, 0x003B, 0x003C, 0x003D, 0x003E, 0x003F, 0x0063];
        assert_eq!(lacking(4), two_stars);
        let both = [&[0x0016, 0x002D], &two_stars[..], &[0x00B8, 0x0305]].concat();
        assert_eq!(lacking(5), both);
        assert!((0..=255).all(|other| units::ALL.contains(&other) != of(other).is_empty()));
    }

    #[test]
    fn other_numbers_are_unknown() {
        for number in [
            0x0000, 0x0065, 0x0077, 0x007D, 0x007E, 0x007F, 0x0080, 0x0081, 0x0083, 0x0085, 0x0087,
            0x00A0, 0x00A2, 0x0038, 0x0039, 0x0044, 0x0048, 0x0101, 0x0240, 0x0403, 0x00FB, 0xFFFF,
            0x000F, 0x0016, 0x0019, 0x0302, 0x0303, 0x0304, 0x0305,
        ] {
            assert!(find(MICRA, number).is_none(), "{number:04X}");
        }
        for number in [
            0x0000, 0x0003, 0x0008, 0x0009, 0x0065, 0x0077, 0x007D, 0x0080, 0x0085, 0x0087, 0x0093,
            0x009F, 0x00A0, 0x00A1, 0x00A2, 0x0036, 0x0037, 0x0040, 0x0301, 0x0306, 0x0400, 0xFFFF,
        ] {
            assert!(find(3, number).is_none(), "{number:04X}");
        }
    }

    #[test]
    fn sets_of_expert_end_where_the_guide_says() {
        let edges: [(u16, &[u8], &[u8]); 11] = [
            (0x0002, &[1, 3, 255], &[0, 4, 5, 254]),
            (0x0007, &[0, 1, 2], &[3]),
            (0x0019, &[40, 80], &[39, 81]),
            (0x003A, &[10, 255], &[0, 9]),
            (0x003F, &[10, 255], &[0, 9]),
            (0x0044, &[0, 255], &[]),
            (0x0066, &[0, 60], &[61]),
            (0x0094, &[1, 2], &[0, 3]),
            (0x009A, &[1, 13], &[0, 14]),
            (0x00B7, &[0, 2], &[3]),
            (0x00B8, &[5, 100], &[0, 4, 101]),
        ];
        for (number, legal, illegal) in edges {
            assert_eq!(expert(number).access, Access::AllFive);
            assert!(!expert(number).inverts);
            assert!(legal.iter().all(|byte| expert(number).contains(&[*byte])));
            assert!(!illegal.iter().any(|byte| expert(number).contains(&[*byte])));
        }
        for number in [0x0302, 0x0303] {
            let setpoint = expert(number);
            assert_eq!(setpoint.access, Access::Three);
            assert!(setpoint.contains(&[59, 23]) && setpoint.contains(&[0, 0]));
            assert!(!setpoint.contains(&[60, 0]) && !setpoint.contains(&[0, 24]));
            assert!(!setpoint.contains(&[0]) && !setpoint.contains(&[0, 0, 0]));
        }
        let timer = expert(0x0063);
        assert_eq!(timer.members(), (70..=365).collect::<Vec<u16>>());
        assert_eq!(timer.start(), [70, 0]);
        assert_eq!(expert(0x0002).raised(&[3]), Some(vec![255]));
        assert_eq!(expert(0x0002).lowered(&[255]), Some(vec![3]));
        assert_eq!(expert(0x0064).room(), 3);
    }

    #[test]
    fn sets_end_where_the_rules_say() {
        let edges: [(u16, &[u8], &[u8]); 22] = [
            (0x0001, &[0, 1], &[2, 3, 255]),
            (0x0401, &[0, 1], &[2]),
            (0x0002, &[1, 5], &[0, 6]),
            (0x0003, &[3, 5], &[2, 4, 6]),
            (0x0008, &[0, 5], &[6]),
            (0x0009, &[0, 59], &[60]),
            (0x000A, &[0, 23], &[24]),
            (0x000D, &[0, 15, 30], &[1, 14, 31]),
            (0x0018, &[15, 30], &[0, 14, 31]),
            (0x001D, &[0, 2], &[3]),
            (0x0060, &[0, 1], &[2]),
            (0x00F0, &[0, 1], &[2]),
            (0x0066, &[0, 60], &[61]),
            (0x0067, &[0, 15], &[16]),
            (0x0036, &[0, 100], &[101]),
            (0x0037, &[0, 100], &[101]),
            (0x0043, &[0, 100], &[101]),
            (0x0047, &[0, 100], &[101]),
            (0x0094, &[1, 2], &[0, 3]),
            (0x0099, &[48, 50, 51, 52], &[47, 49, 53]),
            (0x009A, &[1, 13], &[0, 14]),
            (0x0400, &[0, 80], &[81]),
        ];
        for (number, legal, illegal) in edges {
            assert!(legal.iter().all(|byte| row(number).contains(&[*byte])));
            assert!(!illegal.iter().any(|byte| row(number).contains(&[*byte])));
            assert!(!row(number).contains(&[]) && !row(number).contains(&[legal[0], 0]));
        }
    }

    #[test]
    fn filter_timer_steps_over_the_gap() {
        let timer = row(0x0063);
        let days = |days: u16| days.to_le_bytes().to_vec();
        assert_eq!(timer.raised(&days(0)), Some(days(70)));
        assert_eq!(timer.raised(&days(70)), Some(days(75)));
        assert_eq!(timer.raised(&days(360)), Some(days(365)));
        assert_eq!(timer.raised(&days(365)), None);
        assert_eq!(timer.lowered(&days(70)), Some(days(0)));
        assert_eq!(timer.lowered(&days(0)), None);
        assert!(!timer.contains(&days(72)) && !timer.contains(&days(65)));
        assert!(!timer.contains(&days(370)) && !timer.contains(&[70]));
        assert!(!timer.contains(&[70, 0, 0]));
    }

    #[test]
    fn raise_and_lower_go_to_the_next_member() {
        assert_eq!(row(0x0003).raised(&[3]), Some(vec![5]));
        assert_eq!(row(0x0003).lowered(&[5]), Some(vec![3]));
        assert_eq!(row(0x000D).raised(&[0]), Some(vec![15]));
        assert_eq!(row(0x000D).lowered(&[15]), Some(vec![0]));
        assert_eq!(row(0x0002).raised(&[5]), None);
        assert_eq!(row(0x0002).lowered(&[1]), None);
        assert_eq!(row(0x0037).raised(&[100]), None);
    }

    #[test]
    fn texts_clock_and_calendar_end_where_the_rules_say() {
        assert!(row(0x0095).contains(b" ") && row(0x0095).contains(&[0x7E; 32]));
        assert!(!row(0x0095).contains(b"") && !row(0x0095).contains(&[0x41; 33]));
        assert!(!row(0x0095).contains(&[0x1F]) && !row(0x0095).contains(&[0x41, 0x7F]));
        assert!(row(0x0096).contains(&[0x30; 8]) && row(0x0096).contains(&[0x30; 64]));
        assert!(!row(0x0096).contains(&[0x30; 7]) && !row(0x0096).contains(&[0x30; 65]));
        assert!(row(0x006F).contains(&[59, 59, 23]) && !row(0x006F).contains(&[60, 0, 0]));
        assert!(!row(0x006F).contains(&[0, 60, 0]) && !row(0x006F).contains(&[0, 0, 24]));
        for date in [[1, 6, 1, 0], [29, 2, 2, 0], [31, 4, 12, 99]] {
            assert!(row(0x0070).contains(&date));
        }
        for illegal in [[1, 1, 1, 0], [29, 4, 2, 1], [4, 0x85, 0x37, 0x42]] {
            assert!(!row(0x0070).contains(&illegal));
        }
        assert!(!row(0x0070).contains(&[1, 6, 1]) && !row(0x0070).contains(&[1, 6, 1, 0, 0]));
    }

    #[test]
    fn two_inverts_only_where_the_rules_say() {
        assert_eq!(row(0x0001).written(&[0], &[2]), Some(vec![1]));
        assert_eq!(row(0x0001).written(&[1], &[2]), Some(vec![0]));
        assert_eq!(row(0x0001).written(&[1], &[2, 0]), None);
        for number in [0x0401, 0x0402, 0x0060, 0x00F0] {
            assert_eq!(row(number).written(&[0], &[2]), None);
        }
    }

    #[test]
    fn start_values_are_legal() {
        for row in units::ALL.flat_map(|unit_type| of(unit_type).values()) {
            assert!(row.contains(&row.start()), "{:04X}", row.number);
        }
        assert_eq!(row(0x0070).start(), [1, 6, 1, 0]);
        assert_eq!(row(0x0099).start(), [48]);
        assert_eq!(row(0x0063).start(), [0, 0]);
    }
}
