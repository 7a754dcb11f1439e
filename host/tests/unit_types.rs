//! Boards of every unit type: their rows, names, values and refusals, by the linked library and by the command line client over sockets.

mod common;

use common::*;
use udgornwy::entry::NUMBER;
use udgornwy::ffi::{self, Answer, Command, LOWER, RAISE, READ, WRITE};
use udgornwy::refusal::Refusal;
use udgornwy::report::{self, Report};
use udgornwy::rows::{self, Access, Row};
use udgornwy::unit_type::UnitType;
use udgornwy::values;

const CLIENT: u8 = 1;

fn board_of(unit_type: UnitType) -> ffi::Board {
    let board = ffi::set_up(ID.as_bytes(), b"", CLIENT, unit_type.number());
    board.expect("a board of this type")
}

fn reports_of(board: &mut ffi::Board, commands: &[Command]) -> Vec<Report> {
    let packet = ffi::write(ID.as_bytes(), b"", commands).expect("a request");
    match ffi::packet(board, &packet) {
        Answer::Response(response) => report::reports(&response).expect("reports"),
        _ => panic!("no response to {commands:?}"),
    }
}

/// What a board at its start reports after a command to it.
fn reported(unit_type: UnitType, function: u8, number: u16, value: &[u8]) -> Option<Vec<u8>> {
    let commands = [Command::new(function, number, value)];
    let reports = reports_of(&mut board_of(unit_type), &commands);
    reports.into_iter().next().expect("a report").value
}

/// The rows but for the schedule, which is read by day and period.
fn rows_of(unit_type: UnitType) -> impl Iterator<Item = &'static Row> {
    rows::of(unit_type).filter(|row| row.number != NUMBER)
}

/// The client's table has the rows of the library's, and no other.
#[test]
fn a_number_is_known_to_a_board_where_the_table_has_it() {
    let numbers: Vec<u16> = (0..=0x05FB).filter(|number| number % 256 <= 0xFB).collect();
    for unit_type in UnitType::ALL {
        let mut board = board_of(unit_type);
        for numbers in numbers.chunks(8) {
            let read = |number: &u16| Command::new(READ, *number, &[]);
            let commands: Vec<Command> = numbers.iter().map(read).collect();
            for Report { number, value } in reports_of(&mut board, &commands) {
                let row = rows_of(unit_type).find(|row| row.number == number);
                let length = row.map(|row| *row.size.range().start());
                let held = value.map(|value| value.len());
                assert_eq!(held, length, "{unit_type}: 0x{number:04X}");
            }
        }
    }
}

/// A row is measured where it is read only, and else raised, lowered and inverted as the table says.
#[test]
fn a_row_takes_the_functions_of_the_table() {
    for unit_type in UnitType::ALL {
        for row in rows_of(unit_type) {
            let (number, name) = (row.number, row.name);
            let start = reported(unit_type, READ, number, &[]).expect(name);
            let steps = [RAISE, LOWER].map(|function| {
                let held = reported(unit_type, function, number, &[]);
                held.expect(name) != start
            });
            let is_step = row.access == Access::Step;
            assert_eq!(steps.contains(&true), is_step, "{unit_type}: {name}");
            let inverted = reported(unit_type, WRITE, number, &[2]) == Some(vec![1]);
            let is_inverted = row.access == Access::Invert;
            assert_eq!(inverted, is_inverted, "{unit_type}: {name}");
            assert_measured(unit_type, row, &start);
        }
    }
}

fn assert_measured(unit_type: UnitType, row: &Row, value: &[u8]) {
    let is_identity = [0x007C, 0x00B9].contains(&row.number);
    let is_measured = row.access == Access::Read && !is_identity;
    let measured = ffi::measure(board_of(unit_type), row.number, value);
    let refusal = measured.err();
    let expected = (!is_measured).then_some(Refusal(30));
    assert_eq!(refusal, expected, "{unit_type}: {}", row.name);
}

#[test]
fn a_set_up_of_another_type_is_refused_after_the_others() {
    for unit in 0..=255 {
        let set_up = |id: &[u8], mode| ffi::set_up(id, b"", mode, unit).err();
        let refusal = (!(2..=5).contains(&unit)).then_some(Refusal(23));
        assert_eq!(set_up(ID.as_bytes(), CLIENT), refusal);
        assert_eq!(set_up(ID.as_bytes(), 3), Some(Refusal(22)));
        assert_eq!(set_up(b"", 3), Some(Refusal(20)));
    }
    assert!(Refusal(23).to_string().contains("unit type is not 2 to 5"));
}

/// Over a socket, by name, with the length and the value that the client shows.
#[test]
fn every_row_of_every_type_is_asked_by_its_name() {
    for unit_type in UnitType::ALL {
        let number = unit_type.number().to_string();
        let board = Board::of_type(&number, &[]);
        let rows: Vec<&Row> = rows_of(unit_type).collect();
        for some in rows.chunks(8) {
            let names: Vec<&str> = some.iter().map(|row| row.name).collect();
            let words = [&["--type", &number], &names[..]].concat();
            let listing = board.listed("get", &words);
            assert_eq!(listing.lines().count(), 1 + names.len());
            for (row, line) in some.iter().zip(listing.lines().skip(1)) {
                let digits = line.strip_prefix(&format!("0x{:04X},", row.number));
                let length = digits.expect("the row").len() / 2;
                assert_eq!(length, *row.size.range().start(), "{line}");
            }
            let table = board.listed("get", &[&["--format", "table"], &words[..]].concat());
            assert_eq!(table.lines().count(), 1 + names.len());
            assert!(!table.contains("unknown"), "{table}");
        }
    }
}

/// The names of the guide's rows with one star, and with two, and the numbers of all.
const ONE_STAR: [(&str, &str); 4] = [
    ("0-10v-sensor-activation", "0x0016"),
    ("0-10v-sensor-signal", "0x002D"),
    ("0-10v-sensor-threshold", "0x00B8"),
    ("0-10v-sensor-status", "0x0305"),
];

const TWO_STARS: [(&str, &str); 7] = [
    ("supply-fan-level-1", "0x003A"),
    ("exhaust-fan-level-1", "0x003B"),
    ("supply-fan-level-2", "0x003C"),
    ("exhaust-fan-level-2", "0x003D"),
    ("supply-fan-level-3", "0x003E"),
    ("exhaust-fan-level-3", "0x003F"),
    ("filter-replacement-timer", "0x0063"),
];

#[test]
fn starred_rows_are_unknown_where_the_guide_says() {
    for (number, has_one, has_two) in [("3", true, true), ("4", true, false), ("5", false, false)] {
        let board = Board::of_type(number, &[]);
        let one = ONE_STAR.map(|row| (row, has_one));
        let two = TWO_STARS.map(|row| (row, has_two));
        for ((name, digits), has) in one.into_iter().chain(two) {
            let by_number = board.listed("get", &["--type", number, digits]);
            assert_eq!(by_number.contains("unknown"), !has, "{number}: {name}");
            let by_name = board.ask("get", &["--type", number, name]);
            match has {
                true => assert_eq!(listing(&by_name), by_number),
                false => failed(
                    &by_name,
                    2,
                    &format!("`{name}` is no row of type {number} ("),
                ),
            }
        }
    }
}

#[test]
fn get_all_is_every_row_of_the_type_and_no_entry() {
    for (number, count) in [("3", 50), ("4", 43), ("5", 39)] {
        let board = Board::of_type(number, &[]);
        let output = board.ask("get", &["--type", number, "all"]);
        let listed = listing(&output);
        let lines: Vec<&str> = listed.lines().collect();
        assert_eq!(lines.len(), 1 + count);
        assert!(lines[1..].is_sorted() && !listed.contains("unknown"));
        assert!(!listed.contains("0x0077,"));
        assert!(listed.contains(&format!("\n0x00B9,0{number}00\n")));
        assert_eq!(errors(&output), "");
        assert_packets(&board, 2);
        let rows = listing(&run(&["rows", "--type", number]));
        assert_eq!(rows.lines().count(), 1 + count);
    }
    assert_eq!(
        listing(&run(&["rows", "--type", "2"])),
        listing(&run(&["rows"]))
    );
}

/// That a board was asked so many packets.
fn assert_packets(board: &Board, count: usize) {
    board.listed("get", &["0x0001"]);
    let last = ": 29 bytes: response of 30 bytes";
    let packets = (0..=count).map(|_| board.line().ends_with(last));
    let lasts: Vec<bool> = packets.collect();
    assert_eq!(lasts.iter().position(|is_last| *is_last), Some(count));
}

const SHOWN: [&str; 16] = [
    "speed-mode",
    "night-party-timer",
    "timer-countdown-time",
    "rtc-battery-voltage",
    "humidity",
    "0-10v-sensor-signal",
    "supply-fan-level-1",
    "fan-1-speed",
    "filter-replacement-timer",
    "filter-replacement-countdown",
    "machine-hours",
    "alarm-indicator",
    "ventilator-operation-mode",
    "unit-type",
    "night-timer-setpoint",
    "humidity-sensor-status",
];

const TABLE: &str = "\
name                          number  value                                  raw
speed-mode                    0x0002  manual                                 FF
night-party-timer             0x0007  party                                  02
timer-countdown-time          0x000B  1h02m03s                               030201
rtc-battery-voltage           0x0024  3000 mV                                B80B
humidity                      0x0025  55 %                                   37
0-10v-sensor-signal           0x002D  40 %                                   28
supply-fan-level-1            0x003A  200                                    C8
fan-1-speed                   0x004A  1322 rpm                               2A05
filter-replacement-timer      0x0063  71 d                                   4700
filter-replacement-countdown  0x0064  180d23h59m                             3B17B4
machine-hours                 0x007E  400d05h06m                             06059001
alarm-indicator               0x0083  warning                                02
ventilator-operation-mode     0x00B7  heat recovery                          01
unit-type                     0x00B9  3 VENTO Expert A50-1, A85-1 or A100-1  0300
night-timer-setpoint          0x0302  08:30                                  1E08
humidity-sensor-status        0x0304  over setpoint                          01
";

/// The rows of the table, each with `ROW=VALUE` and its bytes.
fn assignments() -> impl Iterator<Item = (&'static Row, String, Vec<u8>)> {
    let lines = SHOWN.into_iter().zip(TABLE.lines().skip(1));
    lines.map(|(name, line)| {
        let row = rows::of(UnitType::ExpertA50).find(|row| row.name == name);
        let (value, digits) = line.split_at(VALUE_END);
        let value = value[VALUE..].trim_end();
        let bytes = udgornwy::hex::parse(digits).expect("bytes");
        (row.expect(name), format!("{name}={value}"), bytes)
    })
}

/// Where the values of the table stand.
const VALUE: usize = 38;
const VALUE_END: usize = 77;

/// Each value is measured or set in the words that it is shown in.
#[test]
fn values_of_an_expert_are_taken_and_shown_in_words() {
    let all: Vec<(&Row, String, Vec<u8>)> = assignments().collect();
    let mut measured = Vec::new();
    let mut written = vec!["--type", "3"];
    for (row, assignment, bytes) in &all {
        let parsed = values::parse_assignment(UnitType::ExpertA50, assignment);
        assert_eq!(parsed, Ok((row.number, bytes.clone())));
        match row.access {
            Access::Read if row.name == "unit-type" => {}
            Access::Read => measured.extend(["--measure", assignment]),
            _ => written.push(assignment),
        }
    }
    let board = Board::of_type("3", &measured);
    board.listed("set", &written);
    let shown = [&["--type", "3", "--format", "table"], &SHOWN[..]].concat();
    assert_eq!(board.listed("get", &shown), TABLE);
}

#[test]
fn an_expert_is_set_raised_and_lowered() {
    let board = Board::of_type("4", &[]);
    for (command, words, lines) in [
        (
            "set",
            &["speed-mode=3", "0x0302=23:59"][..],
            "0x0002,03\n0x0302,3B17\n",
        ),
        ("raise", &["speed-mode"], "0x0002,FF\n"),
        (
            "lower",
            &["speed-mode", "speed-mode"],
            "0x0002,03\n0x0002,02\n",
        ),
        ("raise", &["wifi-operation-mode"], "0x0094,02\n"),
        ("set", &["humidity-sensor-activation=invert"], "0x000F,01\n"),
        ("set", &["night-party-timer=2"], "0x0007,02\n"),
        (
            "get",
            &["0x001F", "0x0077", "0x00A0"],
            "0x001F,unknown\n0x0077,unknown\n0x00A0,unknown\n",
        ),
    ] {
        let words = [&["--type", "4"], words].concat();
        let listed = board.listed(command, &words);
        assert_eq!(listed, format!("number,value\n{lines}"));
    }
    let refused = board.ask("set", &["--type", "4", "humidity-threshold=39"]);
    let told =
        "udgornwy: humidity-threshold (0x0019) was not stored: sent 39 % (27), held 40 % (28)\n";
    assert_eq!(
        (errors(&refused).as_str(), refused.status.code()),
        (told, Some(1))
    );
}

#[test]
fn a_search_shows_the_type_and_its_product() {
    for (number, product) in [
        ("2", "Micra 100 WiFi"),
        ("3", "VENTO Expert A50-1, A85-1 or A100-1"),
        ("4", "VENTO Expert Duo A30-1"),
        ("5", "VENTO Expert A30"),
    ] {
        let board = Board::of_type(number, &[]);
        let search = |more: &[&str]| {
            let host = board.host();
            run(&[&["search", "--host", &host, "-t", "20"], more].concat())
        };
        let output = search(&[]);
        assert!(listing(&output).ends_with(&format!("\n0x00B9,0{number}00\n")));
        let told = format!("udgornwy: {ID} is type {number} ({product})\n");
        assert_eq!(errors(&output), told);
        let table = search(&["--format", "table"]);
        let row = format!("unit-type      0x00B9  {number} {product}");
        assert!(listing(&table).contains(&row), "{}", listing(&table));
        let json = search(&["--format", "json"]);
        let members =
            format!("\"name\":\"unit-type\",\"value\":\"{number} {product}\",\"unit\":null,");
        assert!(listing(&json).contains(&members));
        assert_eq!(errors(&table) + &errors(&json), "");
    }
}

/// A type that the guides do not have is shown as its number.
#[test]
fn a_search_shows_a_type_that_is_none() {
    let data = [&[0xFE, 16, 0x7C], ID.as_bytes(), &[0xFE, 2, 0xB9, 9, 0]].concat();
    for (format, part) in [
        ("listing", "0x00B9,0900\n"),
        ("table", "0x00B9  9  "),
        ("json", "\"value\":9,"),
    ] {
        let (output, _) = served(
            1,
            |_, _| vec![response(ID.as_bytes(), "", &data)],
            |host| run(&["search", "--host", host, "-t", "20", "--format", format]),
        );
        assert!(listing(&output).contains(part), "{}", listing(&output));
        let told = format!("udgornwy: {ID} is type 9 (which is none of 2 to 5)\n");
        let is_told = errors(&output) == told;
        assert_eq!(is_told, format == "listing", "{}", errors(&output));
    }
}

/// Nothing is sent: nobody is there to answer.
#[test]
fn wrong_types_are_refused_before_anything_is_sent() {
    let silent = open_socket();
    let host = silent.local_addr().expect("an address").to_string();
    let board = ["board", "--id", ID, "--password", PASSWORD, "--mode", "ap"];
    for bad in ["0", "1", "6", "02", "+3", "x", "", "258"] {
        let reason =
            format!("--type takes 2 (Micra 100 WiFi) or 3, 4 or 5 (VENTO Expert), not `{bad}`");
        for command in ["get", "set", "raise", "lower"] {
            let word = if command == "set" {
                "0x0002=1"
            } else {
                "0x0002"
            };
            failed(&asked(&host, command, &["--type", bad, word]), 2, &reason);
        }
        failed(
            &asked(&host, "schedule", &["--type", bad, "get"]),
            2,
            &reason,
        );
        failed(&run(&["rows", "--type", bad]), 2, &reason);
        failed(&run(&[&board[..], &["--type", bad]].concat()), 2, &reason);
    }
    let twice = asked(&host, "get", &["--type", "3", "--type", "3", "0x0002"]);
    failed(&twice, 2, "--type is given twice");
    let search = run(&["search", "--host", &host, "--type", "3"]);
    failed(&search, 2, "there is no option `--type` here");
    assert_nothing_came(&silent);
}

#[test]
fn an_expert_has_no_schedule_and_nothing_is_sent() {
    let silent = open_socket();
    let host = silent.local_addr().expect("an address").to_string();
    for unit_type in &UnitType::ALL[1..] {
        let number = unit_type.number().to_string();
        for words in [
            &["get"][..],
            &["get", "friday", "1"],
            &["set", "mon", "1", "3", "21", "08:30"],
        ] {
            let output = asked(&host, "schedule", &[&["--type", &number], words].concat());
            let reason = format!(
                "{unit_type} has no weekly schedule that can be asked for: 0x0077 is unknown there"
            );
            failed(&output, 2, &reason);
        }
        let by_name = asked(&host, "get", &["--type", &number, "schedule-setup"]);
        failed(&by_name, 2, "it is one of type 2");
    }
    assert_nothing_came(&silent);
}

#[test]
fn a_name_of_another_type_is_told_and_nothing_is_sent() {
    let silent = open_socket();
    let host = silent.local_addr().expect("an address").to_string();
    for (number, word, reason) in [
        (
            "2",
            "humidity",
            "`humidity` is no row of type 2 (Micra 100 WiFi): it is one of types 3, 4 and 5",
        ),
        ("5", "0-10v-sensor-signal", "it is one of types 3 and 4"),
        (
            "4",
            "filter-replacement-timer",
            "it is one of types 2 and 3",
        ),
        ("3", "supply-fan-speed-1", "it is one of type 2"),
        ("3", "fan", "(`udgornwy rows --type 3` lists them)"),
    ] {
        failed(&asked(&host, "get", &["--type", number, word]), 2, reason);
    }
    assert_nothing_came(&silent);
}

/// A measured value is of a row of the type.
#[test]
fn a_board_measures_the_rows_of_its_type() {
    let start = |more: &[&str]| {
        let board = ["board", "--id", ID, "--password", "", "--mode", "client"];
        run(&[&board[..], &["--listen", "127.0.0.1:0"], more].concat())
    };
    let measure = |number, value| start(&["--type", number, "--measure", value]);
    failed(
        &measure("3", "0x001F=0xCEFF"),
        1,
        "the measured value of 0x001F is refused 30",
    );
    failed(
        &measure("4", "0x0064=0x00000000"),
        1,
        "the measured value of 0x0064 is refused 31",
    );
    failed(
        &measure("5", "humidity-threshold=50"),
        1,
        "the measured value of 0x0019 is refused 30",
    );
    failed(
        &measure("5", "0-10v-sensor-signal=50"),
        2,
        "it is one of types 3 and 4",
    );
    failed(
        &start(&["--measure", "humidity=50"]),
        2,
        "it is one of types 3, 4 and 5",
    );
}

#[test]
fn a_board_of_another_type_than_was_asked_is_told() {
    let board = Board::of_type("3", &[]);
    let output = board.ask("get", &["0x0001", "unit-type"]);
    assert_eq!(listing(&output), "number,value\n0x0001,00\n0x00B9,0300\n");
    let told = "udgornwy: the board is type 3 (VENTO Expert A50-1, A85-1 or A100-1), but was asked as type 2 (Micra 100 WiFi): names and values are those of the latter\n";
    assert_eq!(errors(&output), told);
    // A length that the type does not have is no answer.
    let more = ["-t", "0.6", "-r", "0", "filter-replacement-countdown"];
    let output = ask(&board.host(), (ID, PASSWORD), "get", &more);
    failed(
        &output,
        1,
        "reports 0x0064 with 3 bytes, not the 4 of type 2 (Micra 100 WiFi)",
    );
}
