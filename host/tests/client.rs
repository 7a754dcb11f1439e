//! The command line client, against a board and against sockets that answer wrongly or not at all.

mod common;

use common::*;
use std::net::{SocketAddr, UdpSocket};
use std::process::Output;
use std::thread;
use std::time::Instant;
use udgornwy::exchange::Exchange;
use udgornwy::ffi::DEFAULT_ID;
use udgornwy::questions;
use udgornwy::target::Target;
use udgornwy::unit_type::UnitType;

#[test]
fn the_guides_read_is_sent_and_its_response_kept_and_listed() {
    let board = Board::start(ZERO_ID, "client", &[]);
    let (host, raw) = (board.host(), scratch("e2"));
    let identity = (ZERO_ID, PASSWORD);
    listing(&ask(&host, identity, "set", &["-t", "20", "0x0002=3"]));
    let kept = raw.to_str().expect("a path of text");
    let output = ask(
        &host,
        identity,
        "get",
        &["-d", "--raw", kept, "0x0001", "0x0002"],
    );
    assert_eq!(listing(&output), E2_LISTING);
    assert_eq!(std::fs::read(&raw).expect("the kept response"), E2);
    let dumped = format!(
        "sent 30 bytes to {host}\n{}received 32 bytes from {host}\n{}",
        udgornwy::dump::dump(&E1),
        udgornwy::dump::dump(&E2)
    );
    assert_eq!(errors(&output), dumped);
}

#[test]
fn values_are_set_raised_and_lowered() {
    let board = Board::client();
    for (command, words, lines) in [
        (
            "set",
            &["unit-on-off=1", "0x0063=70"][..],
            "0x0001,01\n0x0063,4600\n",
        ),
        ("raise", &["filter-replacement-timer"], "0x0063,4B00\n"),
        ("lower", &["0063", "0x0002"], "0x0063,4600\n0x0002,01\n"),
        ("set", &["0x0063=0x6D01"], "0x0063,6D01\n"),
        ("set", &["unit-on-off=2"], "0x0001,00\n"),
        ("set", &["unit-on-off=invert"], "0x0001,01\n"),
        ("set", &["wifi-name=text:Home 2"], "0x0095,486F6D652032\n"),
        (
            "get",
            &["wifi-name", "0x0101", "0x0401"],
            "0x0095,486F6D652032\n0x0101,unknown\n0x0401,00\n",
        ),
    ] {
        assert_eq!(
            board.listed(command, words),
            format!("number,value\n{lines}")
        );
    }
}

#[test]
fn a_search_lists_the_id_and_the_unit_type() {
    let board = Board::client();
    let listed = listing(&run(&["search", "--host", &board.host()]));
    let identity = "number,value\n0x007C,30303244364531423334353635383135\n0x00B9,0200\n";
    assert_eq!(listed, identity);
}

#[test]
fn a_wrong_password_times_out() {
    let board = Board::client();
    let output = ask(
        &board.host(),
        (ID, "2222"),
        "set",
        &["-t", "0.3", "unit-on-off=1"],
    );
    failed(&output, 1, "no response from");
    assert_eq!(
        board.listed("get", &["unit-on-off"]),
        "number,value\n0x0001,00\n"
    );
}

#[test]
fn nobody_there_times_out_after_all_retries() {
    let silent = open_socket();
    let host = silent.local_addr().expect("an address").to_string();
    let begin = Instant::now();
    let output = ask(
        &host,
        (ID, PASSWORD),
        "get",
        &["-t", "0.2", "-r", "2", "0x0001"],
    );
    failed(
        &output,
        1,
        &format!("no response from {host} within 0.2 s, requests sent: 3"),
    );
    assert!(begin.elapsed().as_millis() >= 600);
    let asked = request(ID.as_bytes(), PASSWORD, 1, &[0x01]);
    let mut packet = [0; 256];
    for _ in 0..3 {
        let (length, _) = silent.recv_from(&mut packet).expect("a request");
        assert_eq!(packet[..length], asked);
    }
    silent
        .set_nonblocking(true)
        .expect("a socket that does not wait");
    assert!(silent.recv_from(&mut packet).is_err(), "sent a fourth time");
}

/// Runs `get 0x0001` against a socket that answers with these packets.
fn answered_with(packets: &[Vec<u8>], limit: &str) -> Output {
    answered(packets, "get", &["-t", limit, "-r", "0", "0x0001"])
}

/// Packets that are no response to `get 0x0001`, with the reader's refusal of each.
fn other_packets() -> [(Vec<u8>, u8); 8] {
    let mut damaged = response(ID.as_bytes(), PASSWORD, &[0x01, 1]);
    damaged[26] = 0;
    [
        (vec![], 2),
        (vec![0; 60000], 2),
        (vec![0; 30], 3),
        (damaged, 4),
        (response(b"002D6E1B34565816", PASSWORD, &[0x01, 1]), 7),
        (response(ID.as_bytes(), "2222", &[0x01, 1]), 8),
        (request(ID.as_bytes(), PASSWORD, 1, &[0x01]), 9),
        (response(ID.as_bytes(), PASSWORD, &[0x01]), 10),
    ]
}

#[test]
fn other_packets_are_no_response() {
    thread::scope(|scope| {
        for (packet, number) in other_packets() {
            scope.spawn(move || {
                let reason = format!("packets ignored: 1, the last one refused {number} (");
                failed(&answered_with(&[packet], "1"), 1, &reason);
            });
        }
    });
}

#[test]
fn the_response_is_found_among_other_packets() {
    let others = other_packets().into_iter().map(|(packet, _)| packet);
    let good = response(ID.as_bytes(), PASSWORD, &[0x01, 1]);
    let packets: Vec<Vec<u8>> = others.chain([good]).collect();
    let listed = listing(&answered_with(&packets, "20"));
    assert_eq!(listed, "number,value\n0x0001,01\n");
}

/// Where every board may answer, each is heard once, whatever its address.
#[test]
fn a_search_hears_several_boards() {
    let boards: Vec<UdpSocket> = (0..3).map(|_| open_socket()).collect();
    let addresses: Vec<SocketAddr> = boards
        .iter()
        .map(|board| board.local_addr().expect("an address"))
        .collect();
    let search = [questions::read(0xB9)];
    let answer = response(&DEFAULT_ID, "", &[0xFE, 2, 0xB9, 2, 0]);
    let other = response(&DEFAULT_ID, "", &[0xB9, 1]);
    let exchange = Exchange {
        target: Target {
            address: addresses[0],
            every: true,
        },
        unit_type: UnitType::default(),
        id: &DEFAULT_ID,
        password: b"",
        limit: std::time::Duration::from_millis(500),
        retries: 0,
    };
    let responses = thread::scope(|scope| {
        scope.spawn(|| {
            let (_, client) = boards[0].recv_from(&mut [0; 256]).expect("a request");
            for board in boards.iter().chain(&boards) {
                board.send_to(&other, client).expect("a packet sent");
                board.send_to(&answer, client).expect("a packet sent");
            }
        });
        exchange.run(&search, |_, _, _| {})
    });
    let responses = responses.expect("responses");
    let senders: Vec<SocketAddr> = responses.iter().map(|response| response.sender).collect();
    assert_eq!(senders, addresses);
}

#[test]
fn requests_that_cannot_be_written_are_refused() {
    let board = Board::client();
    failed(
        &board.ask("get", &["0x00FC"]),
        1,
        "the request is refused 42 (",
    );
    let long = format!("0x0095=0x{}", "41".repeat(255));
    failed(&board.ask("set", &[&long]), 2, "do not fit one packet");
    failed(
        &ask(&board.host(), (ID, "a*"), "get", &["0x0001"]),
        1,
        "the request is refused 21 (",
    );
}

/// Also where others could be sent before it.
#[test]
fn a_number_that_no_packet_takes_is_refused_before_anything_is_sent() {
    let silent = open_socket();
    let host = silent.local_addr().expect("an address").to_string();
    for words in [&["all", "0x00FF"][..], &["0x00FF", "all"]] {
        failed(
            &asked(&host, "get", words),
            1,
            "the request is refused 42 (",
        );
    }
    assert_nothing_came(&silent);
}

/// One packet for what would be many, and the same lines.
#[test]
fn get_joins_what_fits_and_lists_the_same() {
    let board = Board::client();
    let words = [
        "unit-on-off",
        "0x0101",
        "0x0402",
        "0063",
        "wifi-name",
        "0x0001",
    ];
    let single: Vec<String> = words.map(|word| board.listed("get", &[word])).to_vec();
    for _ in words {
        board.line();
    }
    let joined = board.listed("get", &words);
    let lines = single.iter().flat_map(|listing| listing.lines().skip(1));
    assert_eq!(
        joined.lines().skip(1).collect::<Vec<_>>(),
        lines.collect::<Vec<_>>()
    );
    assert!(board.line().ends_with(": 40 bytes: response of 49 bytes"));
}

#[test]
fn bad_arguments_are_one_line() {
    let host = ["--host", NOBODY, "--id", ID, "--password", PASSWORD];
    let with = |command, more: &[&'static str]| run(&[&[command], &host[..], more].concat());
    for (output, reason) in [
        (run(&[]), "there is no command"),
        (run(&["fetch"]), "there is no command `fetch`"),
        (run(&["get", "0x0001"]), "--host is missing"),
        (with("get", &[]), "there is no row"),
        (with("get", &["fan"]), "`fan` is neither a row's name"),
        (with("set", &["0x0001"]), "`0x0001` has no value"),
        (
            with("set", &["0x0001=300"]),
            "`300` is no value of unit-on-off (0x0001): write off|on",
        ),
        (
            with("set", &["0x0070=1"]),
            "`1` is no value of rtc-calendar",
        ),
        (
            with("set", &["unit-on-off=on", "rtc-calendar=2026-02-29"]),
            "`2026-02-29` is no value of rtc-calendar (0x0070): 2026-02 has 28 days",
        ),
        (
            with("set", &["rtc-calendar=2026-11-16 tuesday"]),
            "`2026-11-16 tuesday` is no value of rtc-calendar (0x0070): 2026-11-16 is a monday",
        ),
        (with("set", &["0x0077=1"]), "`udgornwy schedule set`"),
        (with("get", &["0x0077"]), "`udgornwy schedule get`"),
        (with("get", &["-t", "0", "0x0001"]), "-t takes"),
        (with("get", &["-r", "x", "0x0001"]), "-r takes"),
        (
            with("get", &["--loud", "0x0001"]),
            "there is no option `--loud`",
        ),
        (with("get", &["--id", ID, "0x0001"]), "--id is given twice"),
    ] {
        failed(&output, 2, reason);
    }
}

#[test]
fn help_version_and_rows_are_on_standard_output() {
    let help = listing(&run(&["--help"]));
    assert!(help.contains("udgornwy search") && help.contains("Exit status"));
    let get = listing(&run(&["get", "--help"]));
    assert!(get.starts_with("udgornwy get ") && get.contains("\nExamples\n"));
    assert_eq!(listing(&run(&["help", "get"])), get);
    let version = format!("udgornwy {}\n", env!("CARGO_PKG_VERSION"));
    assert_eq!(listing(&run(&["--version"])), version);
    let rows = listing(&run(&["rows"]));
    assert_eq!(rows.lines().count(), 74);
    assert!(rows.contains("0x0063  2      filter-replacement-timer"));
    assert!(rows.contains("0x0077  6      schedule-setup"));
}
