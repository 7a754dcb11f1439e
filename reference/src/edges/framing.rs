//! Refusals 1 to 6: buffer, length, start, checksum, sizes.

use super::{Edges, ID, PASSWORD, bytes, framed};
use crate::hex;
use crate::packet;

pub fn add(edges: &mut Edges) {
    buffers(edges);
    lengths(edges);
    start_and_checksum(edges);
    type_and_sizes(edges);
    password_sizes(edges);
    order(edges);
}

fn buffers(edges: &mut Edges) {
    edges.set_up(&ID, PASSWORD, 1);
    edges.rule("1: a response buffer under 256 bytes, whatever the packet is");
    let read = framed(&ID, PASSWORD, 1, "01");
    let quiet = framed(&ID, PASSWORD, 2, "01 00");
    let response = framed(&ID, PASSWORD, 6, "01 00");
    for length in [0, 1, 31, 32, 255] {
        edges.line(format!("packet {length} {read}"), "refused 1");
        edges.line(format!("packet {length} {quiet}"), "refused 1");
        edges.line(format!("packet {length} -"), "refused 1");
    }
    edges.rule("The rest of a longer buffer stays");
    for length in [256, 257, 1023, 1024] {
        let answer = format!("response {response}");
        edges.line(format!("packet {length} {read}"), answer);
        edges.line(format!("packet {length} {quiet}"), "silence");
        edges.line(format!("packet {length} -"), "refused 2");
    }
}

fn lengths(edges: &mut Edges) {
    edges.rule("2 and 3: zero bytes of every length");
    for length in 0..=260 {
        let inside = (24..=256).contains(&length);
        edges.packet(
            &vec![0; length],
            if inside { "refused 3" } else { "refused 2" },
        );
    }
    edges.rule("2 and 5: FD FD and zero bytes of every length; their sum is zero");
    for length in 2..=260 {
        let mut packet = vec![0; length];
        packet[..2].fill(0xFD);
        let inside = (24..=256).contains(&length);
        edges.packet(&packet, if inside { "refused 5" } else { "refused 2" });
    }
    edges.rule("A silent write of every length; one or three bytes of data are a cut item");
    edges.set_up(&ID, b"", 1);
    for length in 24..=260 {
        let room = length - 24;
        let mut data = Vec::new();
        if room % 2 == 1 && room >= 5 {
            data.extend_from_slice(&[0xFE, 2, 0x77, 0, 0]);
        }
        while data.len() < room {
            data.push(if data.len() % 2 == room % 2 { 0x77 } else { 0 });
        }
        let answer = match (length, room) {
            (257.., _) => "refused 2",
            (_, 1 | 3) => "refused 10",
            _ => "silence",
        };
        edges.packet(&packet::write(&ID, b"", 2, &data), answer);
    }
}

fn start_and_checksum(edges: &mut Edges) {
    edges.set_up(&ID, PASSWORD, 1);
    let good = packet::write(&ID, PASSWORD, 1, &[1]);
    let end = good.len() - 2;
    edges.rule("3: each of the first two bytes counts, before the checksum");
    for (place, byte) in [(0, 0xFC), (1, 0xFE), (0, 0x00), (1, 0xDF)] {
        let mut packet = good.clone();
        packet[place] = byte;
        edges.packet(&packet, "refused 3");
        packet[end] ^= 1;
        edges.packet(&packet, "refused 3");
    }
    edges.rule("4: each checksum byte counts, low byte first");
    for (place, change) in [(end, 0x01), (end, 0x80), (end + 1, 0x01), (end + 1, 0x80)] {
        let mut packet = good.clone();
        packet[place] ^= change;
        edges.packet(&packet, "refused 4");
    }
    let mut swapped = good.clone();
    swapped.swap(end, end + 1);
    edges.packet(&swapped, "refused 4");
    edges.rule("4: the sum starts at TYPE and ends before itself");
    let mut packet = good.clone();
    let sum: u16 = good[..end].iter().map(|byte| u16::from(*byte)).sum();
    packet[end..].copy_from_slice(&sum.to_le_bytes());
    edges.packet(&packet, "refused 4");
    edges.rule("The greatest sum, 64,260: right, so that 5 is next");
    let mut packet = vec![0xFF; 256];
    packet[..2].fill(0xFD);
    packet[254..].copy_from_slice(&64_260_u16.to_le_bytes());
    edges.packet(&packet, "refused 5");
}

/// The packet with one byte changed and its checksum repaired.
fn repaired(packet: &[u8], place: usize, byte: u8) -> Vec<u8> {
    let mut packet = packet.to_vec();
    packet[place] = byte;
    let end = packet.len() - 2;
    let sum: u16 = packet[2..end].iter().map(|byte| u16::from(*byte)).sum();
    packet[end..].copy_from_slice(&sum.to_le_bytes());
    packet
}

fn type_and_sizes(edges: &mut Edges) {
    let good = packet::write(&ID, PASSWORD, 1, &[1]);
    edges.rule("5: TYPE 02 and ID size 10 only");
    for byte in [0, 1, 3, 0x12, 0x82, 0xFF] {
        edges.packet(&repaired(&good, 2, byte), "refused 5");
    }
    for byte in [0, 8, 0x0F, 0x11, 0x90, 0xFF] {
        edges.packet(&repaired(&good, 3, byte), "refused 5");
    }
    edges.rule("6: password size over 8");
    let long = packet::write(&ID, PASSWORD, 1, &[1; 40]);
    for byte in [9, 10, 0x10, 0x84, 0xFF] {
        edges.packet(&repaired(&long, 20, byte), "refused 6");
        edges.packet(&repaired(&good, 20, byte), "refused 6");
    }
}

fn password_sizes(edges: &mut Edges) {
    edges.rule("6: no room for FUNC and checksum after the password");
    for length in 24..=33usize {
        for size in 0..=9u8 {
            let packet = packet::write(&ID, b"", 0, &vec![0x31; length - 24]);
            let fits = size <= 8 && usize::from(size) + 24 <= length;
            let answer = if fits { "refused 8" } else { "refused 6" };
            // The password starts with the byte 00, so it is not the board's.
            edges.packet(&repaired(&packet, 20, size), answer);
        }
    }
    edges.rule("A password of eight, and of none, on boards that have it");
    edges.set_up(&ID, b"azAZ0909", 1);
    edges.expect(1, "01", "01 00");
    edges.packet(&packet::write(&ID, b"azAZ090", 1, &[1]), "refused 8");
    edges.set_up(&ID, b"", 1);
    edges.expect(1, "01", "01 00");
    edges.packet(&packet::write(&ID, b"\0", 1, &[1]), "refused 8");
}

fn order(edges: &mut Edges) {
    edges.set_up(&ID, PASSWORD, 1);
    edges.rule("The lowest number is given where all of 1 to 10 apply, one taken away at a time");
    let steps = [
        "refused 1",
        "refused 2",
        "refused 3",
        "refused 4",
        "refused 5",
        "refused 6",
        "refused 7",
        "refused 8",
        "refused 9",
        "refused 10",
    ];
    for (right, answer) in steps.iter().enumerate() {
        let password: &[u8] = if right >= 8 { PASSWORD } else { b"1112" };
        let id = if right >= 7 { ID } else { [9; 16] };
        let function = if right >= 9 { 1 } else { 7 };
        let mut packet = packet::write(&id, password, function, &bytes("01 FD"));
        if right < 6 {
            packet = repaired(&packet, 20, 9);
        }
        if right < 5 {
            packet = repaired(&packet, 3, 15);
        }
        if right < 4 {
            packet[28] ^= 0x40;
        }
        if right < 3 {
            packet[0] = 0;
        }
        if right < 2 {
            packet.truncate(23);
        }
        let length = if right < 1 { 255 } else { 256 };
        edges.line(format!("packet {length} {}", hex::field(&packet)), *answer);
    }
}
