//! What a change came to: stored, not stored, no further value; and what one packet has no room for.

mod common;

use common::*;
use std::process::Output;

/// A change that failed, or found nothing to do, still lists every row.
fn told(output: &Output, status: i32, listed: &str, notes: &[&str]) {
    assert_eq!(shown(output), format!("number,value\n{listed}"));
    let lines: String = notes
        .iter()
        .map(|note| format!("udgornwy: {note}\n"))
        .collect();
    assert_eq!(errors(output), lines);
    assert_eq!(output.status.code(), Some(status));
}

#[test]
fn a_value_that_was_not_stored_is_told_and_all_rows_are_listed() {
    let board = Board::client();
    let words = [
        "speed-mode=3",
        "temperature-setpoint-normal=31",
        "0x0063=72",
        "boost-mode=on",
        "0x0101=0x07",
        "unit-on-off=on",
    ];
    told(
        &board.ask("set", &words),
        1,
        "0x0002,03\n0x0018,0F\n0x0063,0000\n0x0006,00\n0x0101,unknown\n0x0001,01\n",
        &[
            "temperature-setpoint-normal (0x0018) was not stored: sent 31 degC (1F), held 15 degC (0F)",
            "filter-replacement-timer (0x0063) was not stored: sent 72 d (4800), held 0 d (0000)",
            "boost-mode (0x0006) was not stored: sent on (01), held off (00)",
            "0x0101 was not stored: sent 0x07, the board does not know it",
        ],
    );
    told(&board.ask("set", &["0x0018=15"]), 0, "0x0018,0F\n", &[]);
    told(
        &board.ask("set", &["0x0063=0x46"]),
        1,
        "0x0063,0000\n",
        &["filter-replacement-timer (0x0063) was not stored: sent 0x46, held 0 d (0000)"],
    );
}

#[test]
fn a_switch_may_be_inverted() {
    let board = Board::client();
    told(&board.ask("set", &["0x0001=2"]), 0, "0x0001,01\n", &[]);
    told(
        &board.ask("set", &["wifi-dhcp=invert"]),
        0,
        "0x009B,01\n",
        &[],
    );
    told(
        &board.ask("set", &["sound-generator=2"]),
        1,
        "0x0401,00\n",
        &["sound-generator (0x0401) was not stored: sent 2 (02), held off (00)"],
    );
    for (held, status) in [(0, 0), (1, 0), (2, 1), (3, 1)] {
        let packet = response(ID.as_bytes(), PASSWORD, &[0x01, held]);
        let output = answered(&[packet], "set", &["-t", "20", "0x0001=2"]);
        assert_eq!(output.status.code(), Some(status), "{held}");
    }
}

#[test]
fn a_raise_that_changed_nothing_is_told() {
    let board = Board::client();
    told(&board.ask("raise", &["0002"]), 0, "0x0002,02\n", &[]);
    told(
        &board.ask(
            "raise",
            &["maximum-fan-speed", "0002", "unit-on-off", "0x001F"],
        ),
        0,
        "0x0037,64\n0x0002,03\n0x0001,00\n0x001F,0000\n",
        &[
            "maximum-fan-speed (0x0037) stays 100 % (64): no further value",
            "unit-on-off (0x0001) stays off (00): the row takes no raise",
            "intake-air-temperature (0x001F) stays 0.0 degC (0000): the row takes no raise",
        ],
    );
    told(
        &board.ask("lower", &["0x0063", "0x0101"]),
        0,
        "0x0063,0000\n0x0101,unknown\n",
        &["filter-replacement-timer (0x0063) stays 0 d (0000): no further value"],
    );
    // The same row twice: the second raise is held against what the first left.
    told(
        &board.ask("raise", &["0x0002", "0x0002", "0x0002"]),
        0,
        "0x0002,04\n0x0002,05\n0x0002,05\n",
        &["speed-mode (0x0002) stays 5 (05): no further value"],
    );
}

#[test]
fn a_raise_is_one_packet_with_a_read_before_it() {
    let asked_for = request(ID.as_bytes(), PASSWORD, 1, &[0x02, 0xFC, 4, 0x02]);
    let (output, _) = served(
        1,
        |_, packet| {
            assert_eq!(packet, asked_for);
            vec![response(ID.as_bytes(), PASSWORD, &[0x02, 1, 0x02, 2])]
        },
        |host| asked(host, "raise", &["-t", "20", "speed-mode"]),
    );
    assert_eq!(listing(&output), "number,value\n0x0002,02\n");
}

#[test]
fn changes_that_do_not_fit_are_refused_and_not_sent() {
    let silent = open_socket();
    let host = silent.local_addr().expect("an address").to_string();
    let texts = vec!["wifi-name=Home"; 7];
    for (command, words) in [
        ("set", vec!["0x0001=1"; 115]),
        ("set", texts),
        ("raise", vec!["0x0002"; 39]),
        ("lower", vec!["0x0002"; 39]),
    ] {
        failed(&asked(&host, command, &words), 2, "do not fit one packet");
    }
    assert_nothing_came(&silent);
    let board = Board::client();
    let words = vec!["0x0001=2"; 114];
    assert_eq!(board.listed("set", &words).lines().count(), 115);
}

/// Texts of the longest size, so that what fits is cut close.
#[test]
fn reads_take_as_many_packets_as_they_need() {
    let board = Board::client();
    let name = format!("wifi-name={}", "n".repeat(32));
    let password = format!("wifi-password={}", "p".repeat(64));
    board.listed("set", &[&name, &password]);
    board.line();
    let mut words = Vec::new();
    for _ in 0..9 {
        words.extend(["wifi-name", "0x0402", "wifi-password", "0x0002", "0x0101"]);
    }
    let listed = board.listed("get", &words);
    let lines: Vec<&str> = listed.lines().collect();
    assert_eq!(lines.len(), 1 + words.len());
    for block in lines[1..].chunks(5) {
        assert_eq!(block[0], format!("0x0095,{}", "6E".repeat(32)));
        assert_eq!(block[1], "0x0402,00");
        assert_eq!(block[2], format!("0x0096,{}", "70".repeat(64)));
        assert_eq!(block[3..], ["0x0002,01", "0x0101,unknown"]);
    }
}

#[test]
fn get_all_is_every_row_and_the_schedule() {
    let board = Board::client();
    let listed = board.listed("get", &["all"]);
    let lines: Vec<&str> = listed.lines().collect();
    assert_eq!(lines.len(), 1 + 72 + 28);
    assert!(lines[1..].is_sorted() && !listed.contains("unknown"));
    let entries = lines.iter().filter(|line| line.starts_with("0x0077,"));
    assert_eq!(entries.count(), 28);
    assert!(listed.contains("\n0x0077,070400000000\n0x007C,"));
    for _ in 0..3 {
        let line = board.line();
        assert!(line.contains(" bytes: response of "), "{line}");
    }
}
