//! E1 to E13 of the rules and the guides' packets, as calls of a replay, with their bytes written out.

mod board;

use board::{Board, CODE_WORD, ZERO_ID, packet};

const E1: &str = "FDFD02100000000000000000000000000000000004313131310101 02DE00";
const E2: &str = "FDFD021000000000000000000000000000000000043131313106010002 03E600";

#[test]
fn e1_the_guides_read_is_30_bytes() {
    let e1 = E1.replace(' ', "");
    assert_eq!(e1.len(), 60);
    assert_eq!(packet(ZERO_ID, "31313131", 1, "01 02"), e1);
    let mut board = Board::new("31313131", 1);
    let written = board.call(&format!("write 256 {ZERO_ID} 31313131 1:0001:- 1:0002:-"));
    assert_eq!(written, format!("packet {e1}"));
}

#[test]
fn e2_its_response_and_listing() {
    let (e1, e2) = (E1.replace(' ', ""), E2.replace(' ', ""));
    assert_eq!(e2.len(), 64);
    let mut board = Board::new("31313131", 1);
    assert_eq!(board.ask(2, "01 00 02 03"), "silence");
    assert_eq!(
        board.call(&format!("packet 256 {e1}")),
        format!("response {e2}")
    );
    let listing = board.call(&format!("list {e2}"));
    assert_eq!(listing, "number,value|0x0001,00|0x0002,03");
    let read = board.call(&format!("read {ZERO_ID} 31313131 {e2}"));
    assert_eq!(read, "reports 0001=00 0002=03");
}

#[test]
fn e3_the_guides_write_keeps_the_calendar() {
    let mut board = Board::new("", 1);
    let data = "9B 02 FE 04 70 04 85 37 42 07 01";
    board.expect(3, data, "9B 01 FE 04 70 01 06 01 00 07 01");
    let read = board.call(&format!(
        "read {ZERO_ID} - {}",
        packet(ZERO_ID, "", 6, data)
    ));
    assert_eq!(read, "reports 009B=02 0070=04853742 0007=01");
}

#[test]
fn e4_and_e5_pages() {
    let mut board = Board::new("", 1);
    board.expect(1, "FF 01 01 04 FF 02 40", "FF 01 FD 01 FD 04 FF 02 FD 40");
    let written = board.call(&format!("write 256 {ZERO_ID} - 1:0101:- 1:0104:- 1:0240:-"));
    let e4 = packet(ZERO_ID, "", 1, "FF 01 01 04 FF 02 40");
    assert_eq!(written, format!("packet {e4}"));
    let e5 = packet(ZERO_ID, "", 6, "FF 01 FD 01 04 05 FF 02 FE 02 40 51 68");
    let read = board.call(&format!("read {ZERO_ID} - {e5}"));
    assert_eq!(read, "reports 0101=unknown 0104=05 0240=5168");
    let listing = board.call(&format!("list {e5}"));
    assert_eq!(listing, "number,value|0x0101,unknown|0x0104,05|0x0240,5168");
}

#[test]
fn e6_the_shortest_packet() {
    let e6 = format!("FDFD0210{ZERO_ID}00011300");
    assert_eq!(e6.len(), 48);
    let mut open = Board::new("", 1);
    assert_eq!(open.call(&format!("packet 256 {e6}")), "silence");
    assert_eq!(open.call(&format!("packet 256 {}", &e6[..46])), "refused 2");
    let mut closed = Board::new("31313131", 1);
    assert_eq!(closed.call(&format!("packet 256 {e6}")), "refused 8");
    assert_eq!(
        open.call(&format!("write 256 {ZERO_ID} -")),
        format!("packet {e6}")
    );
}

#[test]
fn e7_and_e8_filter_timer() {
    let mut board = Board::new("", 1);
    board.expect(4, "63", "FE 02 63 46 00");
    board.expect(4, "63", "FE 02 63 4B 00");
    board.expect(3, "FE 02 63 48 00", "FE 02 63 4B 00");
    board.expect(
        3,
        "FE 02 63 6D 01 FC 04 63",
        "FE 02 63 6D 01 FE 02 63 6D 01",
    );
    board.expect(
        3,
        "FE 02 63 46 00 FC 05 63",
        "FE 02 63 46 00 FE 02 63 00 00",
    );
}

#[test]
fn e9_and_e10_writes() {
    let mut board = Board::new("", 1);
    board.expect(3, "01 01 01 02", "01 01 01 00");
    board.expect(3, "02 05 FC 02 02 01 FC 01 02", "02 05 02 01");
}

#[test]
fn e11_a_cut_write_stores_nothing() {
    let mut board = Board::new("", 1);
    assert_eq!(board.ask(3, "01 01 FE 02 63 46"), "refused 10");
    board.expect(1, "01", "01 00");
}

#[test]
fn e12_a_search_gets_its_own_password_back() {
    let mut board = Board::new("31313131", 1);
    for password in ["", "2A", "31313131"] {
        let search = packet(CODE_WORD, password, 1, "7C 01 B9");
        let data = format!("FE 10 7C {ZERO_ID} FE 02 B9 02 00");
        let response = packet(ZERO_ID, password, 6, &data);
        let answer = board.call(&format!("packet 256 {search}"));
        assert_eq!(answer, format!("response {response}"));
    }
}

#[test]
fn e13_the_longest_response() {
    let mut board = Board::new("31313131", 1);
    let answer = board.ask(1, &"7C".repeat(12));
    assert_eq!(answer.len(), "response ".len() + 512);
    assert_eq!(board.ask(1, &"7C".repeat(13)), "refused 12");
}
