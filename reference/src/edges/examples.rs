//! E1 to E13 and the guides' other bytes.

use super::{Edges, PASSWORD, ZERO_ID, bytes, framed};
use crate::hex;
use crate::packet::CODE_WORD;

const ZERO: &str = "00000000000000000000000000000000";
/// The guide's read of 0001 and 0002.
pub const E1: &str =
    "FD FD 02 10 00 00 00 00 00 00 00 00 00 00 00 00 00 00 00 00 04 31 31 31 31 01 01 02 DE 00";
/// The guide's response to it.
pub const E2: &str = "FD FD 02 10 00 00 00 00 00 00 00 00 00 00 00 00 00 00 00 00 04 31 31 31 31 06 01 00 02 03 E6 00";

pub fn add(edges: &mut Edges) {
    before_setup(edges);
    guide_packets(edges);
    guide_blocks(edges);
    shortest_packet(edges);
    writes(edges);
    searches(edges);
    longest_response(edges);
}

fn before_setup(edges: &mut Edges) {
    edges.rule("Before the first set-up the board is that of a refused one: zero ID, empty password, client");
    edges.record(1, &[]);
    edges.expect(1, "7C B9", &format!("FE 10 7C {ZERO} FE 02 B9 02 00"));
}

fn guide_packets(edges: &mut Edges) {
    let (e1, e2) = (hex::field(&bytes(E1)), hex::field(&bytes(E2)));
    edges.set_up(&ZERO_ID, PASSWORD, 1);
    edges.rule("E1: the guide's read of 0001 and 0002, written by the tool");
    let write = format!("write 256 {ZERO} 31313131 1:0001:- 1:0002:-");
    edges.line(write, format!("packet {e1}"));
    edges.rule("E1 on a start record, then E2: 0001 at 0 and 0002 at 3");
    edges.expect(1, "01 02", "01 00 02 01");
    edges.ask(2, "01 00 02 03", "silence");
    edges.packet(&bytes(E1), &format!("response {e2}"));
    edges.rule("E2 read and listed");
    let read = format!("read {ZERO} 31313131 {e2}");
    edges.line(read, "reports 0001=00 0002=03");
    let listing = "number,value|0x0001,00|0x0002,03";
    edges.line(format!("list {e2}"), listing);
}

fn guide_blocks(edges: &mut Edges) {
    edges.rule("E3: three commands under 03; weekday 133 is read and not stored");
    let data = "9B 02 FE 04 70 04 85 37 42 07 01";
    edges.expect(3, data, "9B 01 FE 04 70 01 06 01 00 07 01");
    let write = format!("write 256 {ZERO} 31313131 3:009B:02 3:0070:04853742 3:0007:01");
    let request = framed(&ZERO_ID, PASSWORD, 3, data);
    edges.line(write, format!("packet {request}"));
    edges.rule("The guide's response to that write, read and listed as it is");
    let response = framed(&ZERO_ID, PASSWORD, 6, data);
    edges.line(
        format!("read {ZERO} 31313131 {response}"),
        "reports 009B=02 0070=04853742 0007=01",
    );
    edges.line(
        format!("list {response}"),
        "number,value|0x009B,02|0x0070,04853742|0x0007,01",
    );
    edges.rule("E4: reads 0101, 0104, 0240; none of them is a row");
    let data = "FF 01 01 04 FF 02 40";
    edges.expect(1, data, "FF 01 FD 01 FD 04 FF 02 FD 40");
    let request = framed(&ZERO_ID, PASSWORD, 1, data);
    edges.line(
        format!("write 256 {ZERO} 31313131 1:0101:- 1:0104:- 1:0240:-"),
        format!("packet {request}"),
    );
    edges.rule("E5: the guide's response with an unknown parameter");
    let data = "FF 01 FD 01 04 05 FF 02 FE 02 40 51 68";
    let response = framed(&ZERO_ID, PASSWORD, 6, data);
    edges.line(
        format!("read {ZERO} 31313131 {response}"),
        "reports 0101=unknown 0104=05 0240=5168",
    );
    edges.line(
        format!("list {response}"),
        "number,value|0x0101,unknown|0x0104,05|0x0240,5168",
    );
}

fn shortest_packet(edges: &mut Edges) {
    let e6 = format!("FDFD0210{ZERO}00011300");
    edges.rule("E6: refusal 8 with a password, silence without, refusal 2 for 23 bytes");
    edges.packet(&bytes(&e6), "refused 8");
    edges.set_up(&ZERO_ID, b"", 1);
    edges.packet(&bytes(&e6), "silence");
    edges.packet(&bytes(&e6)[..23], "refused 2");
    edges.line(format!("write 256 {ZERO} -"), format!("packet {e6}"));
}

fn writes(edges: &mut Edges) {
    edges.rule("E7: 0063 raised from 0, from 70 and from 365, lowered from 70");
    edges.expect(4, "63", "FE 02 63 46 00");
    edges.expect(4, "63", "FE 02 63 4B 00");
    edges.expect(3, "FE 02 63 6D 01", "FE 02 63 6D 01");
    edges.expect(4, "63", "FE 02 63 6D 01");
    edges.expect(3, "FE 02 63 46 00", "FE 02 63 46 00");
    edges.expect(5, "63", "FE 02 63 00 00");
    edges.rule("E8: 0063 written with 72 is unchanged");
    edges.expect(3, "FE 02 63 48 00", "FE 02 63 00 00");
    edges.ask(2, "FE 02 63 48 00", "silence");
    edges.expect(1, "63", "FE 02 63 00 00");
    edges.rule("E9: 0001 at 1, written 2, is 0");
    edges.expect(3, "01 01 01 02", "01 01 01 00");
    edges.rule("E10: the page and the order hold over FC");
    edges.expect(3, "02 05 FC 02 02 01 FC 01 02", "02 05 02 01");
    edges.rule("E11: a cut write stores nothing");
    edges.ask(3, "01 01 FE 02 63 46", "refused 10");
    edges.expect(1, "01", "01 00");
    edges.record(1, &[]);
}

fn searches(edges: &mut Edges) {
    edges.rule("E12: a search gets ID and unit type, and its own password back");
    edges.set_up(&ZERO_ID, PASSWORD, 1);
    for password in [&b""[..], b"1111", b"zzzzzzzz", b"*"] {
        let request = framed(&CODE_WORD, password, 1, "7C 01 B9");
        let reports = format!("FE 10 7C {ZERO} FE 02 B9 02 00");
        let response = framed(&ZERO_ID, password, 6, &reports);
        edges.line(
            format!("packet 256 {request}"),
            format!("response {response}"),
        );
        let read = format!("read {ZERO} {} {response}", hex::field(password));
        let legal = password != b"*";
        let reports = format!("reports 007C={ZERO} 00B9=0200");
        edges.line(
            read,
            if legal {
                reports.as_str()
            } else {
                "refused 21"
            },
        );
    }
}

fn longest_response(edges: &mut Edges) {
    edges.rule(
        "E13: 007C twelve times with a password of four is 256 bytes, thirteen times is refusal 12",
    );
    let report = format!("FE 10 7C {ZERO}");
    edges.expect(1, &"7C".repeat(12), &report.repeat(12));
    edges.ask(1, &"7C".repeat(13), "refused 12");
}
