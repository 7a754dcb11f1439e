//! Boards by name, from a file, asked side by side.

mod common;

use common::*;
use std::fs::{self, Permissions};
use std::net::UdpSocket;
use std::os::unix::fs::PermissionsExt;
use std::process::Output;
use std::time::{Duration, Instant};

/// A file that only its owner reads, with these lines.
fn file(name: &str, text: &str) -> String {
    let path = scratch(name);
    fs::write(&path, text).expect("a file");
    fs::set_permissions(&path, Permissions::from_mode(0o600)).expect("permissions");
    path.to_str().expect("a path of text").to_string()
}

fn line(name: &str, host: &str) -> String {
    format!("{name}\t{host} {ID}  {PASSWORD}\n")
}

fn address(socket: &UdpSocket) -> String {
    socket.local_addr().expect("an address").to_string()
}

/// Two boards and the file that names them; the second has speed 3.
fn two_boards(name: &str) -> ([Board; 2], String) {
    let boards = [Board::client(), Board::client()];
    let lines = [
        "# the study's boards\n\n",
        &line("flat-1", &boards[0].host()),
        &line("flat-2", &boards[1].host()),
    ];
    boards[1].listed("set", &["speed-mode=3"]);
    (boards, file(name, &lines.concat()))
}

/// Runs a command on boards of a file.
fn asked_by_name(boards: &str, command: &str, more: &[&str]) -> Output {
    let options = [command, "--boards", boards, "-t", "20"];
    run(&[&options[..], more].concat())
}

#[test]
fn a_board_is_asked_by_its_name() {
    let (_boards, file) = two_boards("boards-one");
    for (name, listed) in [("flat-1", "0x0002,01"), ("flat-2", "0x0002,03")] {
        let output = asked_by_name(&file, "get", &["--board", name, "speed-mode"]);
        assert_eq!(listing(&output), format!("number,value\n{listed}\n"));
        assert_eq!(errors(&output), "");
    }
    let set = asked_by_name(&file, "set", &["--board", "flat-2", "speed-mode=4"]);
    assert_eq!(listing(&set), "number,value\n0x0002,04\n");
    let json = ["--board", "flat-2", "--format", "json", "speed-mode"];
    let json = listing(&asked_by_name(&file, "get", &json));
    let members = format!("\"board\":\"flat-2\",\"id\":\"{ID}\",\"number\":\"0x0002\"");
    assert!(json.contains(&members), "{json}");
}

/// Each is shown when it is there, in either order.
#[test]
fn several_boards_are_shown_with_their_names() {
    let (_boards, file) = two_boards("boards-two");
    for names in [
        &["--board", "flat-1", "--board", "flat-2"][..],
        &["--board", "all"],
    ] {
        for (command, words, shown) in [
            (
                "get",
                &["speed-mode"][..],
                [
                    "board,flat-1\nnumber,value\n0x0002,01\n",
                    "board,flat-2\nnumber,value\n0x0002,03\n",
                ],
            ),
            (
                "schedule",
                &["get", "sunday", "4"],
                [
                    "board flat-1\nsunday     period 4  standby  ventilation only  until 00:00\n",
                    "board flat-2\nsunday     period 4  standby  ventilation only  until 00:00\n",
                ],
            ),
            (
                "get",
                &["--format", "table", "speed-mode"],
                [
                    "board flat-1\nname        number  value  raw\nspeed-mode  0x0002  1      01\n",
                    "board flat-2\nname        number  value  raw\nspeed-mode  0x0002  3      03\n",
                ],
            ),
        ] {
            let listed = listing(&asked_by_name(&file, command, &[names, words].concat()));
            let [first, second] = shown;
            let is_right = [[first, second], [second, first]].map(|two| two.concat());
            assert!(is_right.contains(&listed), "{listed}");
        }
    }
}

#[test]
fn what_was_not_stored_is_told_of_each_board() {
    let (_boards, file) = two_boards("boards-told");
    let refused = asked_by_name(&file, "set", &["--board", "all", "0x0018=31"]);
    assert_eq!(refused.status.code(), Some(1));
    for name in ["flat-1", "flat-2"] {
        let told =
            format!("udgornwy: {name}: temperature-setpoint-normal (0x0018) was not stored: ");
        assert!(errors(&refused).contains(&told));
    }
    assert_eq!(errors(&refused).lines().count(), 2);
}

/// Eight that are silent take as long as one, and the one that answers is shown before they are given up.
#[test]
fn a_board_that_is_down_does_not_delay_the_others() {
    let silent: Vec<UdpSocket> = (0..8).map(|_| open_socket()).collect();
    let board = Board::client();
    let mut lines: String = (1..)
        .zip(&silent)
        .map(|(index, socket)| line(&format!("silent-{index}"), &address(socket)))
        .collect();
    lines += &line("closed", NOBODY);
    lines += &line("live", &board.host());
    let boards = file("boards-down", &lines);
    let begin = Instant::now();
    let more = ["--board", "all", "-t", "2", "-r", "0", "speed-mode"];
    let mut process = start(&[&["get", "--boards", &boards], &more[..]].concat());
    let output = read_lines(process.stdout.take().expect("a piped stream"));
    let errors = read_lines(process.stderr.take().expect("a piped stream"));
    for expected in ["board,live", "number,value", "0x0002,01"] {
        assert_eq!(output.recv_timeout(PATIENCE).expect("a line"), expected);
    }
    let first = errors.recv_timeout(PATIENCE).expect("a line");
    assert_eq!(
        first,
        format!("udgornwy: closed: nobody listens on {NOBODY}")
    );
    assert!(
        process.try_wait().expect("a process").is_none(),
        "the others were not waited for"
    );
    assert_eq!(wait(&mut process).code(), Some(1));
    assert!(begin.elapsed() < Duration::from_secs(8));
    let silent = errors
        .iter()
        .filter(|line| line.contains(": no response from "))
        .count();
    assert_eq!((silent, output.iter().count()), (8, 0));
}

#[test]
fn a_file_that_others_can_read_is_warned_of() {
    let board = Board::client();
    let boards = file("boards-open", &line("flat", &board.host()));
    for (mode, is_told) in [(0o644, true), (0o640, true), (0o604, true), (0o600, false)] {
        fs::set_permissions(&boards, Permissions::from_mode(mode)).expect("permissions");
        let output = run(&["get", "--boards", &boards, "--board", "flat", "0x0002"]);
        assert_eq!(listing(&output), "number,value\n0x0002,01\n");
        let warning = format!("udgornwy: warning: others can read {boards}, ");
        assert_eq!(errors(&output).starts_with(&warning), is_told);
        assert_eq!(errors(&output).lines().count(), usize::from(is_told));
    }
}

#[test]
fn a_wrong_file_is_refused_with_the_line() {
    let right = line("flat", NOBODY);
    for (text, reason) in [
        (
            format!("{right}\nflat-2 127.0.0.1\n"),
            "line 3: a board has a name",
        ),
        (
            format!("{right}{right}"),
            "line 2: this name stands there twice",
        ),
        (
            format!("#\n{}", line("flat", "broadcast")),
            "line 2: the second field is no host",
        ),
        (
            format!("flat h {PASSWORD} {PASSWORD}"),
            "line 1: the third field is no ID",
        ),
        (
            format!("flat h {ID} secret-word"),
            "line 1: a password is up to 8",
        ),
        (String::from("# nothing\n"), "has no board `all`"),
    ] {
        let boards = file("boards-wrong", &text);
        let output = asked_by_name(&boards, "get", &["--board", "all", "0x0002"]);
        failed(&output, 2, reason);
        assert!(!errors(&output).contains("secret"));
    }
}

#[test]
fn a_fifth_field_that_is_no_unit_type_is_refused_with_the_line() {
    let right = line("flat", NOBODY);
    for (text, reason) in [
        (
            format!("{right}flat-2 h {ID} 1111 secret"),
            "line 2: the fifth field is no unit type, which is 2 to 5",
        ),
        (
            format!("flat-2 h {ID} 1111 6"),
            "line 1: the fifth field is no unit type, which is 2 to 5",
        ),
        (
            format!("flat-2 h {ID} 1111 3 secret"),
            "line 1: a board has a name",
        ),
    ] {
        let boards = file("boards-wrong-type", &text);
        let output = asked_by_name(&boards, "get", &["--board", "all", "0x0002"]);
        failed(&output, 2, reason);
        assert!(!errors(&output).contains("secret"));
    }
}

#[test]
fn options_that_do_not_go_with_a_file_are_refused() {
    let boards = file("boards-options", &line("flat", NOBODY));
    let asked = |more: &[&str]| asked_by_name(&boards, "get", more);
    for (output, reason) in [
        (
            asked(&["--board", "other", "0x0002"]),
            "has no board `other`",
        ),
        (asked(&["0x0002"]), "--boards needs --board NAME"),
        (
            asked(&["--board", "flat", "--id", ID, "0x0002"]),
            "--id is not wanted",
        ),
        (
            asked(&["--board", "flat", "--type", "3", "0x0002"]),
            "--type is not wanted",
        ),
        (
            run(&["get", "--board", "flat", "0x0002"]),
            "--board needs --boards FILE",
        ),
        (
            asked_by_name("no/such/file", "get", &["--board", "all", "0x0002"]),
            "cannot read no/such/file",
        ),
    ] {
        failed(&output, 2, reason);
    }
    // Named twice, it is one board, of which one response is kept.
    let raw = ["--board", "flat", "--board", "all", "--raw", "-", "0x0002"];
    failed(&asked(&raw), 1, "flat: nobody listens on");
}

/// A Micra without a fifth field, and a board of each type with one.
fn boards_of_every_type(name: &str) -> (Vec<Board>, String) {
    let mut boards = vec![Board::client()];
    let mut lines = line("plain", &boards[0].host());
    for number in ["2", "3", "4", "5"] {
        let board = Board::of_type(number, &[]);
        let fields = line(&format!("type-{number}"), &board.host());
        lines += &format!("{}\t{number}\n", fields.trim_end());
        boards.push(board);
    }
    (boards, file(name, &lines))
}

#[test]
fn a_fifth_field_is_the_unit_type() {
    let (_boards, file) = boards_of_every_type("boards-types");
    for (name, count) in [
        ("plain", 72 + 28),
        ("type-2", 72 + 28),
        ("type-3", 50),
        ("type-4", 43),
        ("type-5", 39),
    ] {
        let output = asked_by_name(&file, "get", &["--board", name, "all"]);
        assert_eq!(listing(&output).lines().count(), 1 + count, "{name}");
        assert_eq!(errors(&output), "");
    }
    let experts = [
        "--board", "type-3", "--board", "type-4", "--board", "type-5",
    ];
    let more = [&experts[..], &["--format", "json", "humidity"]].concat();
    let json = listing(&asked_by_name(&file, "get", &more));
    for name in ["type-3", "type-4", "type-5"] {
        let members = format!("\"board\":\"{name}\",\"id\":\"{ID}\",\"number\":\"0x0025\",\"name\":\"humidity\",\"value\":0,\"unit\":\"%\"");
        assert!(json.contains(&members), "{json}");
    }
}

/// The same words are asked of boards of several types, each by its own rows.
#[test]
fn boards_of_several_types_are_asked_at_once() {
    let (_boards, file) = boards_of_every_type("boards-several-types");
    let set = asked_by_name(
        &file,
        "set",
        &["--board", "all", "unit-on-off=on", "speed-mode=3"],
    );
    assert_eq!(listing(&set).matches("0x0001,01\n0x0002,03\n").count(), 5);
    let all = listing(&asked_by_name(&file, "get", &["--board", "all", "all"]));
    assert_eq!(all.lines().count(), 5 * 2 + 2 * 100 + 50 + 43 + 39);
    let countdown = ["--board", "all", "filter-replacement-countdown"];
    let countdown = listing(&asked_by_name(&file, "get", &countdown));
    assert_eq!(countdown.matches("0x0064,00000000\n").count(), 2);
    assert_eq!(countdown.matches("0x0064,000000\n").count(), 3);
}

/// Nothing is sent to any of them.
#[test]
fn what_one_of_the_types_lacks_is_told_with_the_board() {
    let silent = open_socket();
    let lines = [
        line("micra", &address(&silent)),
        line("expert", &address(&silent)).trim_end().to_string() + " 4\n",
    ];
    let boards = file("boards-lacking", &lines.concat());
    for (command, words, reason) in [
        ("get", &["humidity"][..], "micra: `humidity` is no row of type 2 (Micra 100 WiFi): it is one of types 3, 4 and 5"),
        ("raise", &["filter-replacement-timer"], "expert: `filter-replacement-timer` is no row of type 4 (VENTO Expert Duo A30-1): it is one of types 2 and 3"),
        ("set", &["speed-mode=manual"], "micra: `manual` is no value of speed-mode (0x0002)"),
        ("schedule", &["get"], "expert: type 4 (VENTO Expert Duo A30-1) has no weekly schedule"),
    ] {
        let output = asked_by_name(&boards, command, &[&["--board", "all"], words].concat());
        failed(&output, 2, reason);
    }
    assert_nothing_came(&silent);
}
