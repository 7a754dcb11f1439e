//! Which packet is an answer: against sockets that answer another question, late, too often, cut short, or from elsewhere.

mod common;

use common::*;
use std::sync::atomic::{AtomicBool, Ordering};
use std::thread;
use std::time::{Duration, Instant};

/// Time for what does not come; what comes takes less, also on a busy machine.
const SHORT: &str = "0.6";

fn answer(data: &[u8]) -> Vec<u8> {
    response(ID.as_bytes(), PASSWORD, data)
}

/// Blocks that do not answer a read of 0002, with what is said of each.
const OTHERS: [(&[u8], &str); 8] = [
    (&[0x03, 3], "reports 0x0003, not 0x0002"),
    (&[0xFF, 1, 0x02, 3], "reports 0x0102, not 0x0002"),
    (&[0xFD, 0x03], "reports 0x0003, not 0x0002"),
    (&[], "has 0 report(s), not 1"),
    (&[0xFF, 1], "has 0 report(s), not 1"),
    (&[0x02, 3, 0x02, 3], "has 2 report(s), not 1"),
    (&[0x02, 3, 0x03, 3], "has 2 report(s), not 1"),
    (&[0xFE, 2, 0x02, 3, 0], "reports 0x0002 with 2 bytes"),
];

#[test]
fn an_answer_to_another_question_is_ignored_and_told() {
    thread::scope(|scope| {
        for (data, reason) in OTHERS {
            scope.spawn(move || {
                for (command, word) in [("get", "speed-mode"), ("set", "speed-mode=3")] {
                    let more = ["-t", SHORT, "-r", "0", word];
                    let output = answered(&[answer(data)], command, &more);
                    let reason = format!("packets ignored: 1, the last one {reason}");
                    failed(&output, 1, &reason);
                    assert!(!errors(&output).contains("a wrong ID or password"));
                    assert_eq!(errors(&output).ends_with(DOUBT), command == "set");
                }
            });
        }
    });
}

#[test]
fn the_answer_is_found_after_others() {
    let others = OTHERS.iter().map(|(data, _)| answer(data));
    let packets: Vec<Vec<u8>> = others.chain([answer(&[0x02, 4])]).collect();
    let output = answered(&packets, "get", &["-t", "20", "speed-mode"]);
    assert_eq!(listing(&output), "number,value\n0x0002,04\n");
}

#[test]
fn an_unknown_parameter_is_its_report() {
    let more = ["-t", "20", "speed-mode", "0x0101"];
    let output = answered(&[answer(&[0xFD, 0x02, 0xFF, 1, 0xFD, 0x01])], "get", &more);
    assert_eq!(
        listing(&output),
        "number,value\n0x0002,unknown\n0x0101,unknown\n"
    );
    // A row that the client does not know has any length.
    let output = answered(
        &[answer(&[0x02, 1, 0xFF, 1, 0xFE, 3, 0x01, 1, 2, 3])],
        "get",
        &more,
    );
    assert_eq!(listing(&output), "number,value\n0x0002,01\n0x0101,010203\n");
}

#[test]
fn reports_in_another_order_are_no_answer() {
    let more = ["-t", SHORT, "-r", "0", "0x0001", "0x0002"];
    let output = answered(&[answer(&[0x02, 1, 0x01, 1])], "get", &more);
    failed(&output, 1, "the last one reports 0x0002, not 0x0001");
}

/// The first client has gone when its answer comes; the second, of which the port might be the same, gets it before its own.
#[test]
fn a_late_answer_is_not_taken_for_the_next_question() {
    let late = answer(&[0x01, 1]);
    let late = &late;
    let (outputs, clients) = served(
        2,
        |index, _| match index {
            0 => Vec::new(),
            _ => vec![late.clone(), late.clone(), answer(&[0x02, 5])],
        },
        |host| {
            let first = asked(host, "get", &["-t", SHORT, "-r", "0", "0x0001"]);
            let second = asked(host, "get", &["-t", "20", "-r", "0", "0x0002"]);
            [first, second]
        },
    );
    failed(&outputs[0], 1, "no response from");
    assert_eq!(listing(&outputs[1]), "number,value\n0x0002,05\n");
    assert_ne!(clients[0], clients[1]);
}

/// The same question again, its first answer late: it goes where the first client was.
#[test]
fn a_late_answer_to_the_same_question_is_not_taken() {
    let board = open_socket();
    let host = board.local_addr().expect("an address").to_string();
    let outputs = thread::scope(|scope| {
        scope.spawn(|| {
            let clients = [(); 2].map(|()| {
                let (_, client) = board.recv_from(&mut [0; 256]).expect("a request");
                client
            });
            let _ = board.send_to(&answer(&[0x02, 1]), clients[0]);
            let sent = board.send_to(&answer(&[0x02, 5]), clients[1]);
            sent.expect("a packet sent");
        });
        [SHORT, "20"].map(|limit| asked(&host, "get", &["-t", limit, "-r", "0", "0x0002"]))
    });
    failed(&outputs[0], 1, "no response from");
    assert_eq!(listing(&outputs[1]), "number,value\n0x0002,05\n");
}

/// 115 reads of a byte each need two packets behind a password of four.
#[test]
fn each_packet_has_a_socket_of_its_own() {
    let words = vec!["0x0001"; 115];
    let more = [&["-t", "20"][..], &words].concat();
    let first = answer(&[0x01, 1].repeat(114));
    let (output, clients) = served(
        2,
        |index, request| {
            let answers = [first.clone(), answer(&[0x01, 0])];
            assert!(request.len() <= 256);
            match index {
                // Twice, so that one is there when the second packet is asked.
                0 => vec![first.clone(), first.clone()],
                _ => answers.to_vec(),
            }
        },
        |host| asked(host, "get", &more),
    );
    let listed = format!("number,value\n{}0x0001,00\n", "0x0001,01\n".repeat(114));
    assert_eq!(listing(&output), listed);
    assert_ne!(clients[0], clients[1]);
}

#[test]
fn a_packet_cut_short_is_no_answer() {
    let whole = answer(&[0x02, 4]);
    let mut packets: Vec<Vec<u8>> = (0..whole.len())
        .map(|length| whole[..length].to_vec())
        .collect();
    let more = ["-t", SHORT, "-r", "0", "speed-mode"];
    let reason = format!("packets ignored: {}, the last one refused 4", whole.len());
    failed(&answered(&packets, "get", &more), 1, &reason);
    packets.push(whole);
    let output = answered(&packets, "get", &["-t", "20", "speed-mode"]);
    assert_eq!(listing(&output), "number,value\n0x0002,04\n");
}

/// The right bytes, but not from the board that was asked.
#[test]
fn a_foreign_answer_is_not_taken() {
    let foreign = open_socket();
    for own in [None, Some(answer(&[0x02, 4]))] {
        let board = open_socket();
        let host = board.local_addr().expect("an address").to_string();
        let output = thread::scope(|scope| {
            scope.spawn(|| {
                let (_, client) = board.recv_from(&mut [0; 256]).expect("a request");
                let sent = foreign.send_to(&answer(&[0x02, 5]), client);
                sent.expect("a packet sent");
                if let Some(own) = &own {
                    board.send_to(own, client).expect("a packet sent");
                }
            });
            let limit = if own.is_some() { "20" } else { SHORT };
            asked(&host, "get", &["-t", limit, "-r", "0", "speed-mode"])
        });
        match own {
            Some(_) => assert_eq!(listing(&output), "number,value\n0x0002,04\n"),
            None => failed(&output, 1, &format!("no response from {host}")),
        }
    }
}

/// However many packets come, the time limit stands.
#[test]
fn a_flood_does_not_hold_the_client() {
    let socket = open_socket();
    let host = socket.local_addr().expect("an address").to_string();
    let (over, begin) = (AtomicBool::new(false), Instant::now());
    let others: Vec<Vec<u8>> = OTHERS.iter().map(|(data, _)| answer(data)).collect();
    let output = thread::scope(|scope| {
        scope.spawn(|| {
            let (_, client) = socket.recv_from(&mut [0; 256]).expect("a request");
            let mut packets = others.iter().cycle();
            while !over.load(Ordering::Relaxed) && begin.elapsed() < Duration::from_secs(8) {
                let _ = socket.send_to(packets.next().expect("a packet"), client);
            }
        });
        let output = asked(&host, "get", &["-t", "0.2", "-r", "2", "speed-mode"]);
        over.store(true, Ordering::Relaxed);
        output
    });
    let took = begin.elapsed();
    assert!(took < Duration::from_secs(6), "{took:?}");
    failed(
        &output,
        1,
        "within 0.2 s, requests sent: 3, packets ignored: ",
    );
}

#[test]
fn a_closed_port_is_told_at_once() {
    let closed = NOBODY;
    let begin = Instant::now();
    for (command, row) in [("get", "0x0001"), ("set", "0x0001=1"), ("raise", "0x0002")] {
        let output = asked(closed, command, &["-t", "60", row]);
        failed(&output, 1, &format!("nobody listens on {closed}\n"));
    }
    failed(
        &run(&["search", "--host", closed, "-t", "60"]),
        1,
        &format!("nobody listens on {closed}\n"),
    );
    assert!(begin.elapsed() < Duration::from_secs(15));
}

/// What is said of a change without an answer.
const DOUBT: &str = "; the change may have been made\n";

const HINT: &str = "(a wrong ID or password gets none either)";

#[test]
fn a_wrong_id_or_password_is_named_where_it_can_be_the_cause() {
    let silent = open_socket();
    let host = silent.local_addr().expect("an address").to_string();
    let more = ["-t", SHORT, "-r", "0"];
    let get = asked(&host, "get", &[&more[..], &["0x0001"]].concat());
    failed(&get, 1, &format!("{HINT}\n"));
    let set = asked(&host, "set", &[&more[..], &["0x0001=1"]].concat());
    failed(&set, 1, &format!("{HINT}{DOUBT}"));
    let search = run(&[&["search", "--host", &host], &more[..]].concat());
    failed(&search, 1, "no response from");
    assert!(!errors(&search).contains(HINT));
    // Whoever has answered the first packet knows both.
    let words = [&more[..], &["0x0001"; 115]].concat();
    let first = answer(&[0x01, 1].repeat(114));
    let (output, _) = served(
        2,
        |index, _| {
            if index == 0 {
                vec![first.clone()]
            } else {
                vec![]
            }
        },
        |host| asked(host, "get", &words),
    );
    failed(&output, 1, "no response from");
    assert!(!errors(&output).contains(HINT));
}

#[test]
fn broadcast_is_refused_before_anything_is_sent() {
    for (command, words) in [
        ("get", &["0x0001"][..]),
        ("set", &["0x0001=1"]),
        ("raise", &["0x0002"]),
        ("lower", &["0x0002"]),
        ("schedule", &["get"]),
        ("schedule", &["set", "mon", "1", "0", "0", "08:00"]),
    ] {
        for host in ["broadcast", "broadcast:4001"] {
            let output = asked(host, command, words);
            failed(&output, 2, "`broadcast` is for search alone");
        }
    }
}

/// Numbers that look like chance, the same in every run.
struct Chance(u64);

impl Chance {
    fn byte(&mut self) -> u8 {
        self.0 = self
            .0
            .wrapping_mul(6364136223846793005)
            .wrapping_add(1442695040888963407);
        (self.0 >> 56) as u8
    }

    fn bytes(&mut self) -> Vec<u8> {
        let length = usize::from(self.byte()) % 64;
        (0..length).map(|_| self.byte()).collect()
    }
}

/// Blocks of any bytes in a right frame, and packets of any bytes: none ends the client otherwise than with 0 or 1.
#[test]
fn no_packet_breaks_the_client() {
    let mut chance = Chance(18);
    for format in ["listing", "table", "json"] {
        // Not more than a socket's buffer holds.
        let mut packets = Vec::new();
        for _ in 0..60 {
            packets.push(answer(&chance.bytes()));
            packets.push(chance.bytes());
        }
        packets.push(answer(&[0x02, 4]));
        let more = ["-t", "10", "-r", "0", "--format", format, "speed-mode"];
        let output = answered(&packets, "get", &more);
        assert!(output.status.success(), "{}", errors(&output));
        assert!(is_printable(&output) && shown(&output).contains("0x0002"));
    }
}

/// A raise takes two reports: of the read and of the raise.
#[test]
fn a_raise_is_answered_by_both_its_reports() {
    let more = ["-t", SHORT, "speed-mode"];
    let one = answered(&[answer(&[0x02, 3])], "raise", &more);
    failed(&one, 1, "the last one has 1 report(s), not 2");
    let other = answered(&[answer(&[0x02, 3, 0x03, 3])], "raise", &more);
    failed(&other, 1, "the last one reports 0x0003, not 0x0002");
    let both = answered(&[answer(&[0x02, 3, 0x02, 4])], "raise", &more);
    assert_eq!(listing(&both), "number,value\n0x0002,04\n");
}
