//! The three formats, and what a board cannot do to a terminal.

mod common;

use common::*;

fn measured() -> Board {
    let more = [
        "--measure",
        "intake-air-temperature=-5.0",
        "--measure",
        "supply-air-temperature=sensor missing",
        "--measure",
        "extract-air-temperature=short circuit",
        "--measure",
        "timer-countdown-time=1h02m03s",
    ];
    Board::start(ID, "client", &more)
}

const ROWS: [&str; 11] = [
    "unit-on-off",
    "timer-countdown-time",
    "temperature-setpoint-normal",
    "intake-air-temperature",
    "supply-air-temperature",
    "extract-air-temperature",
    "rtc-time",
    "rtc-calendar",
    "wifi-name",
    "wifi-ip-address",
    "0x0101",
];

const VALUES: [&str; 6] = [
    "unit-on-off=on",
    "temperature-setpoint-normal=21",
    "rtc-time=08:30:05",
    "rtc-calendar=2026-11-16",
    "wifi-name=Home 2",
    "wifi-ip-address=192.168.4.1",
];

#[test]
fn a_table_has_names_units_and_bytes() {
    let board = measured();
    board.listed("set", &VALUES);
    let table = "\
name                         number  value              raw
unit-on-off                  0x0001  on                 01
timer-countdown-time         0x000B  1h02m03s           030201
temperature-setpoint-normal  0x0018  21 degC            15
intake-air-temperature       0x001F  -5.0 degC          CEFF
supply-air-temperature       0x0020  sensor missing     0080
extract-air-temperature      0x0021  short circuit      FF7F
rtc-time                     0x006F  08:30:05           051E08
rtc-calendar                 0x0070  2026-11-16 monday  10010B1A
wifi-name                    0x0095  Home 2             486F6D652032
wifi-ip-address              0x009C  192.168.4.1        C0A80401
-                            0x0101  unknown            -
";
    let words = [&["--format", "table"], &ROWS[..]].concat();
    assert_eq!(board.listed("get", &words), table);
}

/// The members of a line but for its time, which is the first.
fn without_time(line: &str) -> &str {
    let rest = line.strip_prefix("{\"time\":\"20").expect("a time");
    let (time, members) = rest.split_at("26-11-16T04:36:17.123Z".len());
    let digits = time.bytes().filter(u8::is_ascii_digit).count();
    assert!(digits == 15 && time.ends_with('Z'), "{time}");
    members.strip_prefix("\",").expect("more members")
}

/// For each of the rows: number, name, value, unit and bytes.
#[rustfmt::skip]
const OBJECTS: [[&str; 5]; 11] = [
    ["0x0001", "'unit-on-off'", "'on'", "null", "'01'"],
    ["0x000B", "'timer-countdown-time'", "'1h02m03s'", "null", "'030201'"],
    ["0x0018", "'temperature-setpoint-normal'", "21", "'degC'", "'15'"],
    ["0x001F", "'intake-air-temperature'", "-5.0", "'degC'", "'CEFF'"],
    ["0x0020", "'supply-air-temperature'", "'sensor missing'", "null", "'0080'"],
    ["0x0021", "'extract-air-temperature'", "'short circuit'", "null", "'FF7F'"],
    ["0x006F", "'rtc-time'", "'08:30:05'", "null", "'051E08'"],
    ["0x0070", "'rtc-calendar'", "'2026-11-16 monday'", "null", "'10010B1A'"],
    ["0x0095", "'wifi-name'", "'Home 2'", "null", "'486F6D652032'"],
    ["0x009C", "'wifi-ip-address'", "'192.168.4.1'", "null", "'C0A80401'"],
    ["0x0101", "null", "null", "null", "null"],
];

#[test]
fn json_has_an_object_for_each_report() {
    let board = measured();
    board.listed("set", &VALUES);
    let listed = board.listed("get", &[&["--format", "json"], &ROWS[..]].concat());
    let members: Vec<&str> = listed.lines().map(without_time).collect();
    let expected = OBJECTS.map(|[number, name, value, unit, raw]| {
        let members = format!(
            "'board':null,'id':'{ID}','number':'{number}','name':{name},'value':{value},'unit':{unit},'raw':{raw}}}"
        );
        members.replace('\'', "\"")
    });
    assert_eq!(members, expected);
}

#[test]
fn the_schedule_has_the_words_that_set_takes() {
    let board = Board::client();
    board.listed("schedule", &["set", "friday", "1", "3", "21", "08:30"]);
    let json = board.listed("schedule", &["get", "--format", "json", "friday", "1"]);
    let value = "\"name\":\"schedule-setup\",\"value\":\"friday 1 3 21 08:30\",\"unit\":null,\"raw\":\"050103151E08\"}\n";
    assert!(json.ends_with(value), "{json}");
    let table = board.listed("schedule", &["get", "--format", "table", "friday"]);
    assert_eq!(table.lines().count(), 5);
    let entry = "schedule-setup  0x0077  friday     period 1  speed 3  21 degrees        until 08:30  050103151E08";
    assert!(table.lines().any(|line| line == entry), "{table}");
}

#[test]
fn a_search_has_formats_too() {
    let board = Board::start(ZERO_ID, "client", &[]);
    let search = |format| {
        listing(&run(&[
            "search",
            "--host",
            &board.host(),
            "--format",
            format,
        ]))
    };
    let table = search("table");
    assert!(table.contains(&format!("device-search  0x007C  {ZERO_ID}  {ZERO_ID}\n")));
    let json = search("json");
    assert!(json.contains(&format!("\"id\":\"{ZERO_ID}\"")));
    let unit_type =
        "\"name\":\"unit-type\",\"value\":\"2 Micra 100 WiFi\",\"unit\":null,\"raw\":\"0200\"}\n";
    assert!(json.contains(unit_type), "{json}");
}

#[test]
fn the_raw_response_is_all_there_is_on_standard_output() {
    let board = Board::client();
    for format in ["listing", "table", "json"] {
        let more = ["--raw", "-", "--format", format, "0x0002"];
        let output = board.ask("get", &more);
        let answer = response(ID.as_bytes(), PASSWORD, &[0x02, 1]);
        assert!(output.status.success() && output.stdout == answer);
    }
    let output = board.ask("set", &["--raw", "-", "0x0018=99"]);
    assert_eq!(output.status.code(), Some(1));
    assert_eq!(
        output.stdout,
        response(ID.as_bytes(), PASSWORD, &[0x18, 15])
    );
    assert!(errors(&output).contains("was not stored"));
    failed(
        &board.ask("get", &["--raw", "-", "all"]),
        2,
        "--raw keeps one response",
    );
}

#[test]
fn two_dashes_end_the_options() {
    let board = Board::client();
    let listed = board.listed("set", &["--", "wifi-name=--help"]);
    assert_eq!(listed, "number,value\n0x0095,2D2D68656C70\n");
    failed(
        &board.ask("get", &["--", "-d"]),
        2,
        "`-d` is neither a row's name",
    );
}

/// A name that would clear the screen, ring, or end a string of JSON.
const HOSTILE: &[u8] = b"\x1B[2J\x1B]0;x\x07\r\n\"\\\x00\x7F\x9B\xE2\x80\xAE";

#[test]
fn no_byte_of_a_board_reaches_the_terminal_raw() {
    let length = u8::try_from(HOSTILE.len()).expect("a short name");
    let data = [&[0xFE, length, 0x95], HOSTILE].concat();
    let packets = [response(ID.as_bytes(), PASSWORD, &data)];
    for format in ["listing", "table", "json"] {
        for (command, word) in [("get", "wifi-name"), ("set", "wifi-name=Home")] {
            let more = ["-t", "20", "-d", "--format", format, word];
            let output = answered(&packets, command, &more);
            assert!(is_printable(&output), "{output:?}");
            let seen = [shown(&output), errors(&output)].concat();
            let escaped = match format {
                "listing" => "1B5B324A",
                "table" => "\\x1B[2J\\x1B]0;x\\x07\\x0D\\x0A\"\\x5C\\x00\\x7F\\x9B\\xE2\\x80\\xAE",
                _ => "\"\\\\x1B[2J\\\\x1B]0;x\\\\x07\\\\x0D\\\\x0A\\\"\\\\x5C\\\\x00",
            };
            assert!(seen.contains(escaped), "{seen}");
        }
    }
}

/// The response's ID is the board's to choose where it is asked by the default ID.
#[test]
fn a_hostile_id_is_shown_as_digits() {
    let id = b"\x1B[2J\x1B]0;x\x07\r\n\"\\xx";
    let data = [&[0xFE, 16, 0x7C], &id[..], &[0xFE, 2, 0xB9, 2, 0]].concat();
    for format in ["listing", "table", "json"] {
        let (output, _) = served(
            1,
            |_, _| vec![response(id, "", &data)],
            |host| run(&["search", "--host", host, "-t", "20", "--format", format]),
        );
        assert!(
            is_printable(&output) && listing(&output).contains("1B5B324A1B5D303B78070D0A225C7878")
        );
    }
}
