//! The weekly schedule by the command line client, against a board and against sockets that answer otherwise.

mod common;

use common::*;
use std::thread;

const START: &str = "standby  ventilation only  until 00:00";
const EVENING: &str = "speed 2  21 degrees        until 22:30";

fn line(day: &str, period: u8, fields: &str) -> String {
    format!("{day:<9}  period {period}  {fields}\n")
}

const DAYS: [&str; 7] = [
    "monday",
    "tuesday",
    "wednesday",
    "thursday",
    "friday",
    "saturday",
    "sunday",
];

/// The week in which a period of some days has other fields than at the start.
fn week(days: &[&str], period: u8, fields: &str) -> String {
    let places = DAYS
        .iter()
        .flat_map(|day| (1..=4).map(move |period| (*day, period)));
    let lines = places.map(|(day, at)| {
        let is_set = at == period && days.contains(&day);
        line(day, at, if is_set { fields } else { START })
    });
    lines.collect()
}

#[test]
fn a_week_is_28_lines_in_two_packets() {
    let board = Board::client();
    let listed = board.listed("schedule", &["get"]);
    assert_eq!(listed.lines().count(), 28);
    assert_eq!(listed, week(&[], 0, ""));
    // 25 reports of nine bytes and three, behind a head of 26 bytes, with a sum of two.
    for (asked, answered) in [(153, 253), (43, 55)] {
        let end = format!(": {asked} bytes: response of {answered} bytes");
        let said = board.line();
        assert!(said.ends_with(&end), "{said}");
    }
}

#[test]
fn one_day_is_set_and_no_other() {
    let board = Board::client();
    let set = ["set", "wednesday", "3", "2", "21", "22:30"];
    assert_eq!(
        board.listed("schedule", &set),
        line("wednesday", 3, EVENING)
    );
    assert_eq!(
        board.listed("schedule", &["get"]),
        week(&["wednesday"], 3, EVENING)
    );
    assert_eq!(
        board.listed("schedule", &["get", "3", "3"]),
        line("wednesday", 3, EVENING)
    );
    let day = board.listed("schedule", &["get", "wed"]);
    assert_eq!(day.lines().count(), 4);
    assert!(week(&["wednesday"], 3, EVENING).contains(&day));
}

#[test]
fn a_group_is_set_on_each_of_its_days() {
    for (group, days) in [
        ("weekdays", &DAYS[..5]),
        ("weekend", &DAYS[5..]),
        ("every-day", &DAYS[..]),
        ("all", &DAYS[..]),
    ] {
        let board = Board::client();
        let set = ["set", group, "1", "2", "21", "22:30"];
        assert_eq!(board.listed("schedule", &set), line(days[0], 1, EVENING));
        assert_eq!(board.listed("schedule", &["get"]), week(days, 1, EVENING));
        for day in days {
            assert_eq!(
                board.listed("schedule", &["get", day, "1"]),
                line(day, 1, EVENING)
            );
        }
    }
}

/// The rows' commands take the schedule as bytes, and the listing has them as they came.
#[test]
fn a_write_by_bytes_is_listed_as_bytes() {
    let board = Board::client();
    for (value, listed, reason) in [
        ("0x09010215160F", "0x0077,06010215160F\n", None),
        (
            "0x0A010215160F",
            "0x0077,unknown\n",
            Some("the board does not know it"),
        ),
        (
            "0x06010615160F",
            "0x0077,06010215160F\n",
            Some("sent saturday 1 6 21 15:22 (06010615160F)"),
        ),
        (
            "0x0601",
            "0x0077,unknown\n",
            Some("sent 0x0601, the board does not know it"),
        ),
    ] {
        let output = board.ask("set", &[&format!("schedule-setup={value}")]);
        let shown = String::from_utf8_lossy(&output.stdout).into_owned();
        assert_eq!(shown, format!("number,value\n{listed}"));
        assert_eq!(output.status.code(), Some(i32::from(reason.is_some())));
        assert!(errors(&output).contains(reason.unwrap_or("")));
    }
}

#[test]
fn a_response_is_kept_and_packets_are_dumped() {
    let board = Board::client();
    let raw = scratch("entry");
    let kept = raw.to_str().expect("a path of text");
    let output = board.ask("schedule", &["get", "-d", "--raw", kept, "sun", "4"]);
    assert_eq!(listing(&output), line("sunday", 4, START));
    let asked = request(ID.as_bytes(), PASSWORD, 1, &[0xFE, 2, 0x77, 7, 4]);
    let answer = response(ID.as_bytes(), PASSWORD, &[0xFE, 6, 0x77, 7, 4, 0, 0, 0, 0]);
    assert_eq!(std::fs::read(&raw).expect("the kept response"), answer);
    let host = board.host();
    let dumped = format!(
        "sent 33 bytes to {host}\n{}received 37 bytes from {host}\n{}",
        udgornwy::dump::dump(&asked),
        udgornwy::dump::dump(&answer)
    );
    assert_eq!(errors(&output), dumped);
}

/// Nothing is sent: nobody is there to answer.
#[test]
fn bad_arguments_are_told_before_anything_is_sent() {
    let asked = |more: &[&str]| asked(NOBODY, "schedule", more);
    for (more, reason) in [
        (&[][..], "schedule takes get or set"),
        (&["raise", "monday", "1"], "schedule takes get or set"),
        (&["get", "weekend"], "`weekend` is several days"),
        (&["get", "8"], "`8` is several days"),
        (&["get", "10"], "`10` is no day"),
        (&["get", "monday", "5"], "the period is 1 to 4, not `5`"),
        (&["get", "monday", "1", "2"], "DAY and PERIOD at most"),
        (&["get", "--raw", "week"], "--raw keeps one response"),
        (
            &["set", "monday", "1", "3", "21"],
            "takes DAY PERIOD SPEED TEMPERATURE HH:MM",
        ),
        (
            &["set", "moonday", "1", "3", "21", "08:30"],
            "`moonday` is no day",
        ),
        (
            &["set", "monday", "0", "3", "21", "08:30"],
            "the period is 1 to 4, not `0`",
        ),
        (
            &["set", "monday", "1", "6", "21", "08:30"],
            "the speed is 0 to 5, not `6`",
        ),
        (
            &["set", "monday", "1", "3", "14", "08:30"],
            "the temperature is 0 or 15 to 30, not `14`",
        ),
        (
            &["set", "monday", "1", "3", "21", "24:00"],
            "the end is 00:00 to 23:59, not `24:00`",
        ),
        (
            &["set", "monday", "1", "3", "21", "08:60"],
            "the end is 00:00 to 23:59, not `08:60`",
        ),
    ] {
        failed(&asked(more), 2, reason);
    }
}

const SET: [&str; 10] = [
    "set", "-t", "20", "-r", "0", "weekend", "4", "3", "21", "08:30",
];

fn reported(data: &[u8]) -> [Vec<u8>; 1] {
    [response(ID.as_bytes(), PASSWORD, data)]
}

#[test]
fn an_entry_that_was_not_stored_is_shown_and_told() {
    for held in [
        [0, 0, 0, 0],
        [3, 21, 30, 9],
        [4, 21, 30, 8],
        [3, 20, 30, 8],
        [3, 21, 31, 8],
    ] {
        let data = [&[0xFE, 6, 0x77, 6, 4], &held[..]].concat();
        let output = answered(&reported(&data), "schedule", &SET);
        assert_eq!(output.status.code(), Some(1));
        let shown = String::from_utf8(output.stdout.clone()).expect("text");
        assert!(shown.starts_with("saturday   period 4  ") && shown.lines().count() == 1);
        let told = errors(&output);
        let sent = "sent weekend 4 3 21 08:30 (090403151E08), held saturday 4 ";
        assert!(
            told.starts_with("udgornwy: schedule-setup (0x0077) was not stored: "),
            "{told}"
        );
        assert!(told.contains(sent) && told.lines().count() == 1, "{told}");
    }
    let stored = answered(
        &reported(&[0xFE, 6, 0x77, 6, 4, 3, 21, 30, 8]),
        "schedule",
        &SET,
    );
    let line = line("saturday", 4, "speed 3  21 degrees        until 08:30");
    assert_eq!(listing(&stored), line);
}

#[test]
fn an_entry_that_is_unknown_is_told() {
    let unknown = reported(&[0xFD, 0x77]);
    let get = answered(&unknown, "schedule", &["get", "-t", "20", "sat", "4"]);
    assert_eq!(get.status.code(), Some(1));
    assert_eq!(
        String::from_utf8_lossy(&get.stdout),
        "saturday, period 4: unknown\n"
    );
    let told = "udgornwy: the board reports 0x0077 as unknown for saturday, period 4\n";
    assert_eq!(errors(&get), told);
    let set = answered(&unknown, "schedule", &SET);
    assert_eq!(set.status.code(), Some(1));
    assert!(errors(&set).ends_with(", the board does not know it\n"));
    assert_eq!(errors(&set).lines().count(), 1);
}

/// Each is ignored, and told where no answer comes.
#[test]
fn reports_that_are_no_answer() {
    let get = ["get", "-t", "0.6", "-r", "0", "saturday", "4"];
    let set = ["set", "-t", "0.6", "sat", "4", "3", "21", "08:30"];
    let others = [
        (
            &[0xFE, 6, 0x77, 5, 4, 3, 21, 30, 8][..],
            "reports another entry of the schedule",
        ),
        (
            &[0xFE, 6, 0x77, 6, 3, 3, 21, 30, 8],
            "reports another entry of the schedule",
        ),
        (
            &[0xFE, 5, 0x77, 6, 4, 3, 21, 30],
            "reports 0x0077 with 5 bytes",
        ),
        (
            &[0xFE, 6, 0x78, 6, 4, 3, 21, 30, 8],
            "reports 0x0078, not 0x0077",
        ),
        (&[], "has 0 report(s), not 1"),
        (&[0xFD, 0x77, 0xFD, 0x77], "has 2 report(s), not 1"),
    ];
    thread::scope(|scope| {
        for (data, reason) in others {
            for words in [&get[..], &set] {
                scope.spawn(move || {
                    let reason = format!("packets ignored: 1, the last one {reason}");
                    failed(&answered(&reported(data), "schedule", words), 1, &reason);
                });
            }
        }
    });
}

#[test]
fn a_wrong_password_times_out_and_stores_nothing() {
    let board = Board::client();
    let set = ["set", "-t", "0.3", "all", "1", "2", "21", "22:30"];
    let output = ask(&board.host(), (ID, "2222"), "schedule", &set);
    failed(&output, 1, "no response from");
    assert_eq!(board.listed("schedule", &["get"]), week(&[], 0, ""));
}
