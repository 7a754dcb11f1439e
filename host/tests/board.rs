//! The board on a socket.

mod common;

use common::*;
use std::ops::Range;
use std::thread;

/// Where a read of 0001 and 0063 shows what a write left behind.
fn switch_and_timer(client: &Client) -> Vec<u8> {
    let answer = client.ask(&request(ID.as_bytes(), PASSWORD, 1, &[0x01, 0x63]));
    answer[25..answer.len() - 2].to_vec()
}

const START: [u8; 8] = [6, 0x01, 0, 0xFE, 2, 0x63, 0, 0];

#[test]
fn the_guides_read_gets_the_guides_response() {
    let board = Board::start(ZERO_ID, "client", &[]);
    let client = Client::of(board.address);
    let write = request(&[0; 16], PASSWORD, 2, &[0x02, 0x03]);
    client.send(&write);
    assert_eq!(client.ask(&E1), E2);
}

#[test]
fn a_wrong_password_or_id_gets_silence_and_changes_nothing() {
    let board = Board::client();
    let client = Client::of(board.address);
    for password in ["", "111", "1112", "11111"] {
        client.gets_silence(&request(ID.as_bytes(), password, 3, &[0x01, 0x01]));
    }
    client.gets_silence(&request(b"002D6E1B34565816", PASSWORD, 3, &[0x01, 0x01]));
    assert_eq!(switch_and_timer(&client), START);
}

#[test]
fn a_search_is_answered_with_its_own_password() {
    let board = Board::client();
    let client = Client::of(board.address);
    for password in ["", "guess"] {
        let search = request(b"DEFAULT_DEVICEID", password, 1, &[0x7C, 0x01, 0xB9]);
        let data = [&[0xFE, 0x10, 0x7C], ID.as_bytes(), &[0xFE, 2, 0xB9, 2, 0]].concat();
        let answer = response(ID.as_bytes(), password, &data);
        assert_eq!(client.ask(&search), answer);
    }
    client.gets_silence(&request(b"DEFAULT_DEVICEID", "", 3, &[0x01, 0x01]));
}

#[test]
fn in_access_point_mode_the_default_id_is_the_boards() {
    let board = Board::start(ID, "ap", &[]);
    let client = Client::of(board.address);
    let read = request(b"DEFAULT_DEVICEID", PASSWORD, 1, &[0x02]);
    let answer = response(ID.as_bytes(), PASSWORD, &[0x02, 0x01]);
    assert_eq!(client.ask(&read), answer);
    client.gets_silence(&request(b"DEFAULT_DEVICEID", "", 1, &[0x7C]));
}

#[test]
fn a_cut_write_stores_nothing() {
    let board = Board::client();
    let client = Client::of(board.address);
    let write = request(
        ID.as_bytes(),
        PASSWORD,
        3,
        &[0x01, 1, 0xFE, 2, 0x63, 0x46, 0],
    );
    for length in 0..write.len() {
        client.gets_silence(&write[..length]);
    }
    // Cut inside its data, as the checksum of a careless radio would have it.
    for length in [1, 3, 4, 5, 6] {
        let cut = [0x01, 1, 0xFE, 2, 0x63, 0x46, 0];
        client.gets_silence(&request(ID.as_bytes(), PASSWORD, 3, &cut[..length]));
    }
    assert_eq!(switch_and_timer(&client), START);
    let stored = response(ID.as_bytes(), PASSWORD, &[0x01, 1, 0xFE, 2, 0x63, 0x46, 0]);
    assert_eq!(client.ask(&write), stored);
}

#[test]
fn damaged_datagrams_get_silence_and_change_nothing() {
    let board = Board::client();
    let client = Client::of(board.address);
    let write = request(ID.as_bytes(), PASSWORD, 3, &[0x01, 1]);
    for place in 0..write.len() {
        let mut damaged = write.clone();
        damaged[place] ^= 0x10;
        client.gets_silence(&damaged);
    }
    assert_eq!(switch_and_timer(&client), START);
}

#[test]
fn oversized_datagrams_are_refused_by_their_length() {
    let board = Board::client();
    let client = Client::of(board.address);
    for length in [257, 258, 1000, 9000, 65507] {
        let mut long = request(ID.as_bytes(), PASSWORD, 3, &[0x01, 1]);
        long.resize(length, 0);
        client.gets_silence(&long);
        let line = board.line();
        let end = format!(": {length} bytes: refused 2 (length under 24 or over 256 bytes)");
        assert!(line.ends_with(&end), "{line}");
        board.line();
    }
    // 256 bytes are taken: 114 silent writes.
    let longest = request(ID.as_bytes(), "1111", 2, &[0x01, 1].repeat(114));
    assert_eq!(longest.len(), 256);
    client.gets_silence(&longest);
    let line = board.line();
    assert!(line.ends_with(": 256 bytes: silence"), "{line}");
}

/// Each client writes a row of its own and reads it back, and raises one row that all of them raise.
fn write_and_raise(client: &Client, own: u8, values: Range<u8>) {
    for value in values {
        let data = [own, value, 0xFC, 4, SHARED, 0xFC, 1, own];
        let answer = client.ask(&request(ID.as_bytes(), PASSWORD, 3, &data));
        let raised = answer[29];
        let reports = [own, value, SHARED, raised, own, value];
        assert_eq!(answer, response(ID.as_bytes(), PASSWORD, &reports));
    }
}

const SHARED: u8 = 0x46;
const ROUNDS: u8 = 12;

#[test]
fn eight_clients_at_once_lose_and_mix_nothing() {
    let board = Board::client();
    let address = board.address;
    thread::scope(|scope| {
        for index in 0..8 {
            let values = ROUNDS * index..ROUNDS * (index + 1);
            scope.spawn(move || write_and_raise(&Client::of(address), 0x3A + index, values));
        }
    });
    let rows: Vec<u8> = (0x3A..0x42).chain([SHARED]).collect();
    let answer = Client::of(address).ask(&request(ID.as_bytes(), PASSWORD, 1, &rows));
    let own = (0..8).flat_map(|index| [0x3A + index, ROUNDS * (index + 1) - 1]);
    let held: Vec<u8> = own.chain([SHARED, 8 * ROUNDS]).collect();
    assert_eq!(answer, response(ID.as_bytes(), PASSWORD, &held));
}

/// Answers go to their sender and keep its order, also where it does not wait for them.
#[test]
fn requests_sent_in_one_go_are_answered_in_order() {
    let board = Board::client();
    let clients: Vec<Client> = (0..8).map(|_| Client::of(board.address)).collect();
    for value in 0..10 {
        for (own, client) in (0x3A..).zip(&clients) {
            client.send(&request(ID.as_bytes(), PASSWORD, 3, &[own, value]));
        }
    }
    for (own, client) in (0x3A..).zip(&clients) {
        for value in 0..10 {
            let answer = response(ID.as_bytes(), PASSWORD, &[own, value]);
            assert_eq!(client.receive(), answer);
        }
    }
}

/// Each block is answered with these reports.
fn schedule_answers(client: &Client, function: u8, cases: &[(&[u8], &[u8])]) {
    for (data, reports) in cases {
        let answer = client.ask(&request(ID.as_bytes(), PASSWORD, function, data));
        assert_eq!(answer, response(ID.as_bytes(), PASSWORD, reports));
    }
}

#[test]
fn the_schedule_is_written_by_groups_and_read_by_days() {
    let board = Board::client();
    let client = Client::of(board.address);
    let held = [0xFE, 6, 0x77, 6, 2, 5, 21, 30, 22];
    schedule_answers(
        &client,
        3,
        &[
            (&[0xFE, 6, 0x77, 9, 2, 5, 21, 30, 22], &held),
            // A field outside its set stores nothing, a wrong day, period or length is unknown.
            (&[0xFE, 6, 0x77, 9, 2, 4, 14, 31, 23], &held),
            (&[0xFE, 6, 0x77, 10, 2, 5, 21, 30, 22], &[0xFD, 0x77]),
            (&[0xFE, 6, 0x77, 9, 5, 5, 21, 30, 22], &[0xFD, 0x77]),
            (&[0xFE, 5, 0x77, 9, 2, 5, 21, 30], &[0xFD, 0x77]),
        ],
    );
    client.gets_silence(&request(
        ID.as_bytes(),
        PASSWORD,
        2,
        &[0xFE, 6, 0x77, 7, 3, 1, 0, 5, 6],
    ));
    schedule_answers(
        &client,
        1,
        &[
            (&[0xFE, 2, 0x77, 6, 2], &held),
            (
                &[0xFE, 2, 0x77, 7, 2],
                &[0xFE, 6, 0x77, 7, 2, 5, 21, 30, 22],
            ),
            (&[0xFE, 2, 0x77, 7, 3], &[0xFE, 6, 0x77, 7, 3, 1, 0, 5, 6]),
            (&[0xFE, 2, 0x77, 5, 2], &[0xFE, 6, 0x77, 5, 2, 0, 0, 0, 0]),
            (&[0xFE, 2, 0x77, 9, 2], &[0xFD, 0x77]),
            (&[0x77], &[0xFD, 0x77]),
        ],
    );
}

#[test]
fn measured_values_are_there_from_the_start() {
    for measured in [
        ["0x001F=CEFF", "boost-mode=01"],
        ["0x001F=0xCEFF", "boost-mode=0x01"],
        ["intake-air-temperature=-5.0", "boost-mode=on"],
    ] {
        let [first, second] = measured;
        let more = ["--measure", first, "--measure", second];
        let board = Board::start(ID, "client", &more);
        let read = request(ID.as_bytes(), PASSWORD, 1, &[0x1F, 0x06]);
        let data = [0xFE, 2, 0x1F, 0xCE, 0xFF, 0x06, 1];
        let answer = Client::of(board.address).ask(&read);
        assert_eq!(answer, response(ID.as_bytes(), PASSWORD, &data));
    }
}

#[test]
fn each_packet_has_a_line() {
    let board = Board::client();
    let client = Client::of(board.address);
    let sender = client.socket.local_addr().expect("an address");
    client.ask(&request(ID.as_bytes(), PASSWORD, 1, &[0x01]));
    assert_eq!(
        board.line(),
        format!("{sender}: 29 bytes: response of 30 bytes")
    );
    client.send(&request(ID.as_bytes(), PASSWORD, 2, &[0x01, 1]));
    assert_eq!(board.line(), format!("{sender}: 30 bytes: silence"));
    client.send(&request(ID.as_bytes(), "", 1, &[0x01]));
    assert_eq!(
        board.line(),
        format!("{sender}: 25 bytes: refused 8 (password differs)")
    );
    client.send(&[]);
    let empty = format!("{sender}: 0 bytes: refused 2 (length under 24 or over 256 bytes)");
    assert_eq!(board.line(), empty);
}

#[test]
fn a_signal_stops_the_board() {
    for number in [2, 15] {
        let mut board = Board::client();
        let client = Client::of(board.address);
        client.gets_silence(&[]);
        assert_eq!(board.signal(number).code(), Some(0));
    }
}

#[test]
fn a_board_that_cannot_be_set_up_does_not_start() {
    let start = |id, password, more: &[&str]| {
        let board = [
            "board",
            "--id",
            id,
            "--password",
            password,
            "--mode",
            "client",
        ];
        let listen = ["--listen", "127.0.0.1:0"];
        run(&[&board[..], &listen, more].concat())
    };
    for (output, reason) in [
        (
            start("DEFAULT_DEVICEID", "1111", &[]),
            "the set-up is refused 20",
        ),
        (start(ID, "123456789", &[]), "the set-up is refused 21"),
        (start(ID, "a*", &[]), "the set-up is refused 21"),
        (
            start(ID, "", &["--measure", "0x0001=01"]),
            "the measured value of 0x0001 is refused 30",
        ),
        (
            start(ID, "", &["--measure", "0x001F=0xCE"]),
            "the measured value of 0x001F is refused 31",
        ),
    ] {
        assert_eq!(output.status.code(), Some(1));
        let errors = errors(&output);
        assert!(
            errors.starts_with(&format!("udgornwy: {reason}")),
            "{errors}"
        );
        assert_eq!(errors.lines().count(), 1);
    }
    let taken = Board::client();
    let output = run(&[
        "board",
        "--id",
        ID,
        "--password",
        "",
        "--mode",
        "ap",
        "--listen",
        &taken.host(),
    ]);
    assert_eq!(output.status.code(), Some(1));
    assert!(errors(&output).starts_with("udgornwy: cannot listen on "));
}
