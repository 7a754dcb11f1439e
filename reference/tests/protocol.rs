//! The tables of docs/PROTOCOL.md say what this implementation does.

mod board;

use std::collections::{BTreeMap, BTreeSet};
use std::fs;
use std::ops::RangeInclusive;
use std::path::Path;

use board::{Board, CODE_WORD, ZERO_ID, packet};
use reference::call::{self, Call};
use reference::capture::{self, Captured, Reading, Version};
use reference::edges;
use reference::generate::{self, Subject};
use reference::record::{CLIENT, Record, setup};
use reference::replay::Session;
use reference::rows::{self, Row};
use reference::schedule::{self, FIELDS, Schedule};
use reference::summary;
use reference::tally;
use reference::units::{self, MICRA};

const ID: [u8; 16] = *b"002D6E1B34565815";
/// The guide's default password, 1111.
const PASSWORD: &str = "31313131";

fn file(path: &str) -> String {
    let root = Path::new(env!("CARGO_MANIFEST_DIR")).join("..");
    fs::read_to_string(root.join(path)).expect("a file of the repository")
}

/// The lines of a section of the page, up to the next title of any level.
fn section(title: &str) -> Vec<String> {
    let page = file("docs/PROTOCOL.md");
    page.lines()
        .skip_while(|line| line.trim_start_matches('#') != format!(" {title}"))
        .skip(1)
        .take_while(|line| !line.starts_with('#'))
        .map(String::from)
        .collect()
}

/// The cells of the table in a section of the page, found by the title of its first column.
fn table(title: &str, first: &str) -> Vec<Vec<String>> {
    let lines = section(title);
    let mut lines = lines
        .iter()
        .skip_while(|line| !line.starts_with(&format!("| {first} |")));
    let width = cells(lines.next().expect("the table's head")).len();
    let rows: Vec<_> = lines
        .skip(1)
        .take_while(|line| line.starts_with('|'))
        .map(|line| cells(line))
        .collect();
    assert!(rows.iter().all(|row| row.len() == width), "{title}");
    rows
}

/// The blocks of indented lines in a section of the page.
fn blocks(title: &str) -> Vec<Vec<String>> {
    let lines = section(title);
    let blocks = lines.split(|line| !line.starts_with("    "));
    blocks
        .filter(|block| !block.is_empty())
        .map(|block| block.iter().map(|line| line.trim().to_string()).collect())
        .collect()
}

fn cells(line: &str) -> Vec<String> {
    let inner = line
        .strip_prefix('|')
        .and_then(|rest| rest.strip_suffix('|'));
    let inner = inner.expect("a line of a table");
    inner
        .split('|')
        .map(|cell| cell.trim().to_string())
        .collect()
}

/// `a` or `a..b`, both ends included.
fn range(text: &str) -> RangeInclusive<u16> {
    let (low, high) = text.split_once("..").unwrap_or((text, text));
    low.parse().expect("a number")..=high.parse().expect("a number")
}

/// Numbers and ranges, one after the other; a range may go by steps.
fn members(text: &str) -> BTreeSet<u16> {
    let parts = text.split(", ").flat_map(|part| {
        let (numbers, step) = part.split_once(" by ").unwrap_or((part, "1"));
        range(numbers).step_by(step.parse().expect("a step"))
    });
    parts.collect()
}

fn bytes(text: &str) -> Vec<u8> {
    let byte = |digits| u8::from_str_radix(digits, 16).expect("two digits");
    text.split(' ').map(byte).collect()
}

fn hex_number(text: &str) -> u16 {
    u16::from_str_radix(text, 16).expect("four digits")
}

fn start(unit_type: u8) -> Record {
    setup(&ID, b"1111", CLIENT, unit_type).0
}

/// Whether a board may hold the value in the row.
fn is_held(record: &mut Record, number: u16, value: &[u8]) -> bool {
    let before = record.values[&number].clone();
    record.poke_row(number, value);
    let legal = record.values[&number] == value && record.check().is_ok();
    record.values.insert(number, before);
    legal
}

/// The sections of the products' tables.
const MICRA_ROWS: &str = "The rows of Micra";
const EXPERT_ROWS: &str = "The rows of VENTO Expert";

/// A row of a product's table, on one of the types that have it.
struct Listed {
    unit_type: u8,
    row: &'static Row,
    cells: Vec<String>,
}

impl Listed {
    fn name(&self) -> &str {
        &self.cells[1]
    }

    /// The ID or the unit type where a cell names it.
    fn identity(&self, cell: &str) -> Option<Vec<u8>> {
        match cell {
            "the ID" => Some(ID.to_vec()),
            "the type" => Some(vec![self.unit_type, 0]),
            _ => None,
        }
    }
}

/// The types that have a row of a product's table.
fn listed_types(section: &str, cells: &[String]) -> Vec<u8> {
    let types = match section {
        MICRA_ROWS => "2",
        _ => &cells[6],
    };
    members(types)
        .into_iter()
        .map(|listed| listed as u8)
        .collect()
}

/// The rows of both tables, once for each type that has them.
fn listed_rows() -> Vec<Listed> {
    let mut listed = Vec::new();
    for section in [MICRA_ROWS, EXPERT_ROWS] {
        for cells in table(section, "Number") {
            for unit_type in listed_types(section, &cells) {
                let row = rows::find(unit_type, hex_number(&cells[0]));
                listed.push(Listed {
                    unit_type,
                    row: row.expect("a row of the type"),
                    cells: cells.clone(),
                });
            }
        }
    }
    listed
}

#[test]
fn the_rows_are_those_that_exist() {
    let listed = listed_rows();
    let types = table("The rows", "Type");
    assert_eq!(types.len(), units::ALL.count());
    for (unit_type, cells) in units::ALL.zip(types) {
        let rows = listed.iter().filter(|listed| listed.unit_type == unit_type);
        let numbers: Vec<u16> = rows.map(|listed| listed.row.number).collect();
        let existing: Vec<u16> = rows::of(unit_type).keys().copied().collect();
        assert_eq!(numbers, existing);
        assert_eq!(cells[0], unit_type.to_string());
        assert_eq!(cells[2], existing.len().to_string(), "{cells:?}");
    }
}

#[test]
fn rows_have_the_client_names() {
    let micra = file("host/src/rows/micra.rs");
    let expert = file("host/src/rows/expert.rs");
    for listed in listed_rows() {
        let client = if listed.unit_type == MICRA {
            &micra
        } else {
            &expert
        };
        let number = format!("0x{:04X}", listed.row.number);
        let name = format!("\"{}\"", listed.name());
        let named = |line: &str| line.contains(&number) && line.contains(&name);
        assert!(client.lines().any(named), "{name}");
    }
}

#[test]
fn a_name_stands_for_one_number() {
    let mut numbers: BTreeMap<String, u16> = BTreeMap::new();
    for listed in listed_rows() {
        let number = listed.row.number;
        let earlier = numbers.insert(listed.name().to_string(), number);
        assert!(earlier.is_none_or(|earlier| earlier == number));
    }
}

#[test]
fn numbers_that_differ_between_the_products_are_named() {
    let page = file("docs/PROTOCOL.md");
    let (_, after) = page.split_once(" or another size: ").expect("the sentence");
    let (numbers, _) = after.split_once('.').expect("its end");
    let numbers = numbers.replace('\n', " ");
    let named: Vec<String> = numbers.split(", ").map(String::from).collect();
    let expert = table(EXPERT_ROWS, "Number");
    let differs = |micra: &&Vec<String>| {
        let same_number = |cells: &&Vec<String>| cells[0] == micra[0];
        let expert = expert.iter().find(same_number);
        expert.is_some_and(|cells| cells[2..5] != micra[2..5]) && micra[0] != "00B9"
    };
    let micra = table(MICRA_ROWS, "Number");
    let differing: Vec<String> = micra
        .iter()
        .filter(differs)
        .map(|cells| cells[0].clone())
        .collect();
    assert_eq!(named, differing);
}

#[test]
fn rows_take_the_functions() {
    for Listed { row, cells, .. } in listed_rows() {
        let functions = members(&cells[2].replace(" to ", ".."));
        for function in 0..=255 {
            let listed = functions.contains(&u16::from(function));
            assert_eq!(row.takes(function), listed, "{cells:?}");
        }
    }
}

#[test]
fn rows_have_the_sizes() {
    for Listed { row, cells, .. } in listed_rows() {
        let sizes = range(&cells[3]);
        assert_eq!(row.room(), usize::from(*sizes.end()), "{cells:?}");
        assert_eq!(row.is_text(), cells[4] == "text", "{cells:?}");
        if row.is_text() {
            for size in 0..=80 {
                let text = vec![b'A'; usize::from(size)];
                assert_eq!(row.contains(&text), sizes.contains(&size), "{cells:?}");
            }
        } else {
            assert_eq!(sizes.start(), sizes.end(), "{cells:?}");
        }
    }
}

#[test]
fn rows_have_the_sets() {
    for listed in listed_rows() {
        let Listed { row, cells, .. } = &listed;
        let (set, inverts) = match cells[4].strip_suffix("; 2 inverts") {
            Some(set) => (set, true),
            None => (&cells[4][..], false),
        };
        assert_eq!(row.inverts, inverts, "{cells:?}");
        if let Some(identity) = listed.identity(set) {
            let only = |byte: &u8| u16::from(*byte)..=u16::from(*byte);
            holds_bytes(&listed, &identity.iter().map(only).collect::<Vec<_>>());
            continue;
        }
        match set {
            "any" => holds_bytes(&listed, &vec![0..=255; row.room()]),
            "text" => holds_text(&listed),
            "a date" => holds_dates(&listed),
            _ if set.contains(" / ") => {
                let field = |field: &str| range(field.split_once(' ').expect("a field's name").1);
                holds_bytes(&listed, &set.split(" / ").map(field).collect::<Vec<_>>());
            }
            _ => holds_numbers(&listed, &members(set)),
        }
    }
}

fn holds_numbers(Listed { unit_type, row, .. }: &Listed, members: &BTreeSet<u16>) {
    let mut record = start(*unit_type);
    for number in 0..=u16::MAX >> (16 - 8 * row.room()) {
        let held = is_held(&mut record, row.number, &number.to_le_bytes()[..row.room()]);
        let listed = members.contains(&number);
        assert_eq!(held, listed, "{:04X} {number}", row.number);
    }
}

fn holds_bytes(Listed { unit_type, row, .. }: &Listed, ranges: &[RangeInclusive<u16>]) {
    assert_eq!(ranges.len(), row.room(), "{:04X}", row.number);
    let mut record = start(*unit_type);
    let lowest: Vec<u8> = ranges.iter().map(|range| *range.start() as u8).collect();
    for (place, range) in ranges.iter().enumerate() {
        for byte in 0..=255 {
            let mut value = lowest.clone();
            value[place] = byte;
            let held = is_held(&mut record, row.number, &value);
            let listed = range.contains(&byte.into());
            assert_eq!(held, listed, "{:04X} {value:?}", row.number);
        }
    }
}

/// The days of a month, from the table of months.
fn listed_days(month: u16, is_leap: bool) -> u8 {
    let months = table("Dates and temperatures", "Month");
    let cells = months
        .iter()
        .find(|cells| members(&cells[0]).contains(&month));
    let days = &cells.expect("the month")[1];
    let (common, leap) = days.split_once(", in a leap year ").unwrap_or((days, days));
    let days = if is_leap { leap } else { common };
    days.parse().expect("a number")
}

/// Each month's days with their weekdays, counted on from the Saturday of 1 January 2000, and no day before or after them.
fn holds_dates(Listed { unit_type, row, .. }: &Listed) {
    let mut record = start(*unit_type);
    let mut weekday = 6;
    for (year, month) in (0..=99).flat_map(|year| (1..=12).map(move |month| (year, month))) {
        let days = listed_days(month.into(), year % 4 == 0);
        let mut is_date = |day, weekday| {
            let value = [day, weekday, month, year];
            is_held(&mut record, row.number, &value)
        };
        for day in 1..=days {
            assert!(is_date(day, weekday), "{day} {month} {year}");
            weekday = weekday % 7 + 1;
            assert!(!is_date(day, weekday), "{day} {month} {year}");
        }
        assert!(!is_date(0, weekday) && !is_date(days + 1, weekday));
    }
}

fn holds_text(Listed { unit_type, row, .. }: &Listed) {
    let mut record = start(*unit_type);
    for byte in 0..=255 {
        let mut value = vec![b'A'; row.room()];
        value[row.room() - 1] = byte;
        let held = is_held(&mut record, row.number, &value);
        let listed = (0x20..=0x7E).contains(&byte);
        assert_eq!(held, listed, "{:04X} {byte:02X}", row.number);
    }
}

#[test]
fn rows_start_with_the_bytes() {
    for listed in listed_rows() {
        let record = start(listed.unit_type);
        let cell = &listed.cells[5];
        let value = listed.identity(cell).unwrap_or_else(|| bytes(cell));
        let number = listed.row.number;
        assert_eq!(record.values[&number], value, "{:?}", listed.cells);
    }
}

#[test]
fn further_numbers_of_the_guides_are_unknown() {
    for (section, types) in [(MICRA_ROWS, MICRA..=MICRA), (EXPERT_ROWS, units::EXPERT)] {
        let lines = self::section(section);
        let sentence = lines
            .iter()
            .find_map(|line| line.split_once(" unknown here: "));
        let numbers = sentence.expect("the sentence").1.trim_end_matches('.');
        for number in numbers.split(", ").map(hex_number) {
            for unit_type in types.clone() {
                assert!(rows::find(unit_type, number).is_none());
                assert!(!start(unit_type).has_schedule() || number != schedule::NUMBER);
            }
        }
    }
}

#[test]
fn entries_have_the_fields() {
    let listed = table("The weekly schedule", "Field");
    assert_eq!(listed.len(), FIELDS.len());
    let starting = Schedule::start();
    for (place, (field, cells)) in FIELDS.into_iter().zip(listed).enumerate() {
        assert_eq!(format!("{field:?}").to_lowercase(), cells[0]);
        let members = members(&cells[1]);
        for byte in 0..=255 {
            let listed = members.contains(&u16::from(byte));
            assert_eq!(field.contains(byte), listed, "{cells:?} {byte}");
        }
        let value: u8 = cells[2].parse().expect("a number");
        assert!(starting.entries().all(|entry| entry.2[place] == value));
    }
}

#[test]
fn written_days_stand_for_the_days() {
    let listed = table("The weekly schedule", "Day written");
    for day in 0..=255u8 {
        let mut schedule = Schedule::start();
        schedule.run(2, &[day, 3, 5, 30, 59, 23]);
        let changed = schedule.entries().filter(|entry| entry.2[0] == 5);
        let changed: BTreeSet<u16> = changed.map(|entry| entry.0.into()).collect();
        let row = listed.iter().find(|cells| cells[0] == day.to_string());
        let days = row.map_or(BTreeSet::new(), |cells| members(&cells[1]));
        assert_eq!(changed, days, "{day}");
    }
}

/// Asks a board for what the cells of an example say: function, data block and answer.
fn answers_so(board: &mut Board, cells: &[String]) {
    let (function, data) = (cells[0].parse().expect("a function"), &cells[1]);
    match &cells[2][..] {
        answer if answer == "silence" || answer.starts_with("refused ") => {
            assert_eq!(board.ask(function, data), answer, "{cells:?}");
        }
        response => board.expect(function, data, response),
    }
}

#[test]
fn examples_are_answered_so() {
    let mut board = Board::new(PASSWORD, 1);
    for cells in table("Examples", "FUNC") {
        answers_so(&mut board, &cells);
    }
}

#[test]
fn examples_of_expert_are_answered_so() {
    let examples = table("Examples", "Type");
    for unit_type in units::EXPERT {
        let mut board = Board::of_type(unit_type, PASSWORD, 1);
        let listed = unit_type.to_string();
        let mut own = examples
            .iter()
            .filter(|cells| cells[0] == listed)
            .peekable();
        assert!(own.peek().is_some());
        own.for_each(|cells| answers_so(&mut board, &cells[1..]));
    }
}

#[test]
fn the_discovery_is_answered_so() {
    let page = file("docs/PROTOCOL.md");
    let (_, after) = page
        .split_once("\nA discovery with the data block")
        .expect("the sentence");
    let quoted: Vec<&str> = after.split('`').skip(1).step_by(2).take(6).collect();
    for (unit_type, last) in units::ALL.zip(&quoted[2..]) {
        let sent = packet(CODE_WORD, "", 1, quoted[0]);
        let mut board = Board::of_type(unit_type, PASSWORD, 1);
        let answer = board.call(&format!("packet 256 {sent}"));
        let data = [quoted[1], ZERO_ID, last].concat();
        let response = packet(ZERO_ID, "", 6, &data);
        assert_eq!(answer, format!("response {response}"));
    }
}

#[test]
fn packets_and_listing_are_written_so() {
    let page = file("docs/PROTOCOL.md");
    let packets = blocks("The packet").concat();
    let [request, response] = [0, 1].map(|place: usize| packets[place].replace(' ', ""));
    let mut board = Board::new(PASSWORD, 1);
    assert_eq!(request, packet(ZERO_ID, PASSWORD, 1, "01 02"));
    assert_eq!(board.ask(2, "01 00 02 03"), "silence");
    let answer = board.call(&format!("packet 256 {request}"));
    assert_eq!(answer, format!("response {response}"));
    let block = "FF 01 FD 01 04 05 FF 02 FE 02 40 51 68";
    assert!(page.contains(&format!("`{block}` reports")));
    let response = packet(ZERO_ID, PASSWORD, 6, block);
    let listing = board.call(&format!("list {response}"));
    assert_eq!(
        listing,
        blocks("The listing of a response").concat().join("|")
    );
}

/// A record of a capture of two boards.
fn kept() -> Captured {
    Captured {
        index: 1,
        direction: 1,
        counter: 0x0102_0304,
        packet: vec![0xFD, 9, 7],
    }
}

/// A row of the table of versions.
struct Form {
    version: Version,
    /// The version's bytes.
    bytes: Vec<u8>,
    /// The bytes of a board count or index.
    width: usize,
    boards: RangeInclusive<usize>,
}

impl Form {
    /// A number of boards, or an index.
    fn number(&self, value: usize) -> Vec<u8> {
        (value as u32).to_le_bytes()[..self.width].to_vec()
    }

    /// The smaller numbers of that width, and some of the greater ones.
    fn numbers(&self) -> impl Iterator<Item = usize> {
        let count = 1 << (8 * self.width);
        let numbers = (0..1_100).chain([32_768, 65_280, 65_535]);
        numbers.filter(move |number| *number < count)
    }
}

fn listed_versions() -> Vec<Form> {
    let rows = table("Captures", "Version").into_iter();
    rows.map(|cells| {
        let version = Version::ALL.into_iter();
        let mut version = version.filter(|version| version.number().to_string() == cells[0]);
        Form {
            version: version.next().expect("a version"),
            bytes: bytes(quoted(&cells[1])),
            width: cells[2].parse().expect("a number of bytes"),
            boards: plain_range(&cells[3]),
        }
    })
    .collect()
}

/// `low to high`.
fn plain_range(text: &str) -> RangeInclusive<usize> {
    let (low, high) = text.split_once(" to ").expect("a range");
    let number = |digits: &str| digits.replace(',', "").parse().expect("a number");
    number(low)..=number(high)
}

#[test]
fn the_versions_are_those_that_are_read() {
    let listed: Vec<Version> = listed_versions().iter().map(|form| form.version).collect();
    assert_eq!(listed, Version::ALL);
}

#[test]
fn captures_have_the_parts() {
    let ids = [ID, [0x41; 16]].concat();
    let head = table("Captures", "Place");
    let record = table("Captures", "Place in a record");
    for form in listed_versions() {
        let capture = capture::compose(form.version, &ids, &[kept()]);
        let parts: [&[u8]; 9] = [
            &bytes(quoted(&head[0][3])),
            &form.bytes,
            &form.number(2),
            &ids,
            &form.number(1),
            &[1],
            &[4, 3, 2, 1],
            &[3, 0],
            &[0xFD, 9, 7],
        ];
        let size_of = |cell: &str| match cell {
            "16 b" => 16 * 2,
            "n" => 3,
            "w" => form.width,
            number => number.parse().expect("a number of bytes"),
        };
        let start = head.iter().map(|cells| size_of(&cells[1])).sum::<usize>();
        let starts = head.iter().map(|_| 0).chain(record.iter().map(|_| start));
        let mut end = 0;
        for ((cells, start), part) in head.iter().chain(&record).zip(starts).zip(parts) {
            let place = start + cells[0].split(" + ").map(size_of).sum::<usize>();
            assert_eq!((place, size_of(&cells[1])), (end, part.len()), "{cells:?}");
            end += part.len();
            assert_eq!(&capture[place..end], part, "{cells:?}");
        }
        assert_eq!(end, capture.len());
    }
}

/// What stands between the first two backquotes of a cell.
fn quoted(cell: &str) -> &str {
    cell.split('`').nth(1).expect("quoted bytes")
}

/// The range of a part of a record of three boards, `low to high` in its cell.
fn part_range(part: &str) -> RangeInclusive<usize> {
    let rows = table("Captures", "Place in a record");
    let row = rows.iter().find(|cells| cells[2] == part);
    let content = row.expect("the part")[3].replace("b - 1", "2");
    let (low, high) = content.split_once(" to ").expect("a range");
    let low = low.split(' ').next_back().expect("a number");
    let high = high.split([':', ' ']).next().expect("a number");
    low.parse().expect("a number")..=high.parse().expect("a number")
}

/// Whether a capture of so many boards is accepted, with these bytes behind its head.
fn is_accepted(form: &Form, boards: usize, rest: &[u8]) -> bool {
    let (count, ids) = (form.number(boards), vec![0; 16 * boards]);
    let head = [b"VLG", &form.bytes[..], &count, &ids].concat();
    capture::read(&[&head, rest].concat()).refusal.is_none()
}

#[test]
fn captures_have_the_board_counts() {
    for form in listed_versions() {
        for boards in form.numbers() {
            let listed = form.boards.contains(&boards);
            assert_eq!(is_accepted(&form, boards, &[]), listed, "{boards}");
        }
    }
}

#[test]
fn captures_have_the_ranges() {
    let [index, direction, length] = ["index", "direction", "length"].map(part_range);
    for form in listed_versions() {
        let accepted = |index: usize, fields: &[u8], packet: usize| {
            let record = [&form.number(index), fields, &vec![0; packet]].concat();
            is_accepted(&form, 3, &record)
        };
        for value in form.numbers() {
            let is_index = index.contains(&value);
            assert_eq!(accepted(value, &[0; 7], 0), is_index, "{value}");
        }
        for value in 0..=255 {
            let mut fields = [value as u8, 0, 0, 0, 0, 0, 0];
            assert_eq!(accepted(0, &fields, 0), direction.contains(&value));
            for place in 1..5 {
                fields = [0; 7];
                fields[place] = value as u8;
                assert!(accepted(0, &fields, 0));
            }
        }
        for value in (0..=1_100).chain([32_768, 65_535]) {
            let [low, high] = (value as u16).to_le_bytes();
            let is_length = accepted(0, &[0, 0, 0, 0, 0, low, high], value);
            assert_eq!(is_length, length.contains(&value), "{value}");
        }
    }
}

#[test]
fn a_refused_reading_gives_what_is_said() {
    for form in listed_versions() {
        let whole = capture::compose(form.version, &[ID, ID].concat(), &[kept(), kept()]);
        for cells in table("Reading a capture", "No.") {
            let number: u8 = cells[0].parse().expect("a number");
            // The mark, the version, the board count and the index of the second record.
            let second = whole.len() - form.width - 7 - kept().packet.len();
            let place = [0, 3, 5, second][usize::from(number - 50)];
            let mut damaged = whole.clone();
            damaged[place] = 0xFF;
            let cut = &whole[..place + usize::from(number == 53)];
            let mut expected = Reading::default();
            for part in cells[2].split([',', ' ']) {
                match part {
                    "version" => expected.version = Some(form.version),
                    "IDs" => expected.ids = vec![ID; 2],
                    "records" => expected.records = vec![kept()],
                    _ => {}
                }
            }
            for capture in [&damaged, cut] {
                let reading = capture::read(capture);
                expected.refusal = reading.refusal;
                assert_eq!(reading, expected, "{cells:?}");
                let refusal = reading.refusal.map(|refusal| refusal.number());
                assert_eq!(refusal, Some(number));
            }
        }
    }
}

/// The number that a packet is judged with.
fn judged(direction: u8, packet: &[u8]) -> u8 {
    summary::judge(&Captured {
        direction,
        packet: packet.to_vec(),
        ..kept()
    })
}

fn judged_rows() -> Vec<Vec<String>> {
    table("The summary of a capture", "Judged")
}

#[test]
fn packets_are_judged_with_the_numbers() {
    let rows = judged_rows().into_iter();
    let numbers = rows.map(|cells| cells[0].parse().expect("a number"));
    let listed: Vec<u8> = numbers.collect();
    let lines = Subject::Captures.list(1, 3_000);
    let captures = lines.iter().filter_map(|line| match call::parse(line) {
        Some(Call::Summary { capture }) => Some(capture),
        _ => None,
    });
    let records: Vec<Captured> = captures
        .flat_map(|capture| capture::read(&capture).records)
        .collect();
    for direction in [0, 1] {
        let numbers = records
            .iter()
            .map(|record| judged(direction, &record.packet));
        let occurred: BTreeSet<u8> = numbers.collect();
        assert_eq!(Vec::from_iter(occurred), listed);
    }
}

#[test]
fn functions_are_judged_by_the_direction() {
    let rows = judged_rows();
    let row = rows.iter().find(|cells| cells[0] == "9").expect("its row");
    for (direction, cell) in [(0, &row[1]), (1, &row[2])] {
        let quoted = cell.split('`').skip(1).step_by(2);
        let ends: Vec<u8> = quoted
            .map(|digits| digits.parse().expect("a function"))
            .collect();
        let functions = ends[0]..=ends[ends.len() - 1];
        for function in 0..=255 {
            let packet = reference::packet::write(&ID, b"", function, &[]);
            let is_9 = judged(direction, &packet) == 9;
            assert_eq!(is_9, !functions.contains(&function), "{function}");
        }
    }
}

#[test]
fn the_capture_is_read_and_summed_up_so() {
    let capture = blocks("Captures").concat().concat().replace(' ', "");
    let packets = blocks("The packet").concat();
    let [request, response] = [0, 1].map(|place: usize| packets[place].replace(' ', ""));
    let mut session = Session::new();
    let mut call = |line: String| session.line(line.as_bytes()).expect("an answer");
    let records = format!("0.0.1000.{request} rec:0.1.1003.{response} rec:0.0.2000.FD");
    let read = format!("version 2 id:{ZERO_ID} rec:{records}");
    assert_eq!(call(format!("capread {capture}")), read);
    let write = format!("capwrite 1000 {ZERO_ID} {}", records.replace("rec:", ""));
    assert_eq!(call(write), format!("capture {capture}"));
    let texts = blocks("The summary of a capture");
    assert_eq!(call(format!("summary {capture}")), texts[0].join("|"));
    let cut = &capture[..capture.len() - 2];
    assert_eq!(call(format!("summary {cut}")), texts[1].join("|"));
    assert_eq!(texts.len(), 2);
}

#[test]
fn the_capture_is_exported_so() {
    let capture = blocks("Captures").concat().concat().replace(' ', "");
    let lines = blocks("Exporting a capture").concat();
    let (last, rows) = lines.split_last().expect("lines");
    let table: String = rows.iter().map(|row| format!("{row}\r\n")).collect();
    let digits: String = table.bytes().map(|byte| format!("{byte:02X}")).collect();
    let answer = Session::new().line(format!("export 1000 {capture}").as_bytes());
    assert_eq!(answer.expect("an answer"), format!("table {digits} {last}"));
    assert_eq!(blocks("Tables").concat(), rows[..1]);
}

/// Each call of a list with the section of the page that has its refusals.
const SECTIONS: [(&str, &str); 12] = [
    ("setup", "Setting up a board"),
    ("packet", "A packet"),
    ("measure", "A measurement"),
    ("write", "The tool writes a request"),
    ("read", "The tool reads a response"),
    ("list", "The listing of a response"),
    ("capread", "Reading a capture"),
    ("capwrite", "Writing a capture"),
    ("summary", "The summary of a capture"),
    ("rewrite", "Rewriting a capture"),
    ("export", "Exporting a capture"),
    ("import", "Importing a table"),
];

/// A call list cannot describe what 41 refuses.
const NO_LIST: u8 = 41;

fn listed_refusals(section: &str) -> Vec<u8> {
    let rows = table(section, "No.").into_iter();
    rows.map(|cells| cells[0].parse().expect("a number"))
        .collect()
}

#[test]
fn refusals_are_in_the_order_of_the_checks() {
    for (call, section) in SECTIONS {
        let mut expected = tally::refusals(call).to_vec();
        if call == "write" {
            let place = expected.iter().position(|number| *number == 42);
            expected.insert(place.expect("the number after it"), NO_LIST);
        }
        assert_eq!(listed_refusals(section), expected, "{section}");
    }
}

/// The number of the refusal that ends an answer: behind a comma in a text of lines, else behind a space. An export that is not refused counts
/// refused responses.
fn refusal_told(call: &str, answer: &str) -> Option<u8> {
    if call == "export" && answer != "refused 54" {
        return None;
    }
    let (_, rest) = answer.rsplit_once("refused")?;
    let number = rest[1..].split(' ').next()?;
    Some(number.parse().expect("a number"))
}

#[test]
fn refusals_are_those_that_occur() {
    let mut occurred = BTreeSet::new();
    let mut session = Session::new();
    let edges = edges::list().into_iter().chain(edges::table_list());
    let edges = edges.map(|entry| entry.line);
    let captures = Subject::Captures.list(1, 5_000);
    for line in edges.chain(generate::list(1, 20_000)).chain(captures) {
        let answer = session.line(line.as_bytes()).unwrap_or_default();
        let call = line.split(' ').next().unwrap_or_default();
        if let Some(number) = refusal_told(call, &answer) {
            occurred.insert((call.to_string(), number));
        }
    }
    let mut listed = BTreeSet::new();
    for (call, section) in SECTIONS {
        let numbers = listed_refusals(section).into_iter();
        let numbers = numbers.filter(|number| *number != NO_LIST);
        listed.extend(numbers.map(|number| (call.to_string(), number)));
    }
    assert_eq!(listed, occurred);
}
