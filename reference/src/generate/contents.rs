//! Contents of a table's fields: at the edges of each form and outside it.

use crate::hex;
use crate::packet::ID_SIZE;
use crate::random::Random;

const DIRECTIONS: [&str; 12] = [
    "0", "0", "2", "2", "01", "01", "", "11", "10", "+1", " 1", "x1",
];

const COUNTERS: [&str; 34] = [
    "0",
    "4294967295",
    "4294967295",
    "4294967296",
    "4294967296",
    "4294967296",
    "4294967296",
    "4294967297",
    "4294967300",
    "4300000000",
    "5000000000",
    "8589934592",
    "9999999999",
    "10000000000",
    "42949672950",
    "42949672960",
    "04294967295",
    "00",
    "00",
    "01",
    "01",
    "007",
    "18446744073709551615",
    "18446744073709551616",
    "18446744073709551617",
    "340282366920938463463374607431768211456",
    "-1",
    "+1",
    "",
    "",
    "1.0",
    "1e3",
    "0x1",
    "4.12E+09",
];

const NUMBERS: [&str; 22] = [
    "0x0000", "0xFFFF", "0x00FC", "0x001", "0x001", "0x00001", "0x00001", "0x000001", "0x", "",
    "x0001", "0001", "0001", "0001", "0X0001", "0xabcd", "0x000a", "0x000G", "0x 001", "00x0001",
    "0x0x01", "1",
];

/// How many bytes a value has, at the edges.
pub fn value_length(random: &mut Random) -> usize {
    random.pick(&[0, 1, 127, 128, 254, 255, 255, 255, 256, 256, 257, 300])
}

/// Another content for a field that holds one: an edge of its form, or a small change.
pub fn other(random: &mut Random, place: usize, held: &[u8]) -> Vec<u8> {
    if random.chance(45) {
        return changed(random, held);
    }
    match place {
        0 => board(random),
        1 => random.pick(&DIRECTIONS).as_bytes().to_vec(),
        2 => counter(random),
        3 => random.pick(&NUMBERS).as_bytes().to_vec(),
        _ => value(random),
    }
}

fn board(random: &mut Random) -> Vec<u8> {
    let mut text = prefixed(random, ID_SIZE);
    match random.between(0, 5) {
        0 => text.make_ascii_lowercase(),
        1 => drop(text.pop()),
        2 => text.push(b'0'),
        3 => drop(text.remove(0)),
        _ => {
            let size = random.pick(&[0, 1, 8, 15, 15, 16, 17, 17, 32]);
            text = prefixed(random, size);
        }
    }
    text
}

fn counter(random: &mut Random) -> Vec<u8> {
    if random.chance(75) {
        return random.pick(&COUNTERS).as_bytes().to_vec();
    }
    let count = random.between(1, 28);
    let digits = (0..count).map(|_| random.pick(b"0123456789"));
    digits.collect()
}

fn value(random: &mut Random) -> Vec<u8> {
    let odd = [
        "", "0", "00", "-", "x-", "X00", "0x00", "xx", "x 00", "unknown",
    ];
    if random.chance(25) {
        return random.pick(&odd).as_bytes().to_vec();
    }
    let size = value_length(random);
    let mut text = prefixed(random, size);
    match random.between(0, 9) {
        0 => text.make_ascii_lowercase(),
        1 => drop(text.pop()),
        2 => text.push(b'0'),
        3 => drop(text.remove(0)),
        _ => {}
    }
    text
}

/// `x` and so many bytes in hex.
fn prefixed(random: &mut Random, size: usize) -> Vec<u8> {
    let bytes = random.bytes(size);
    format!("x{}", hex::digits(&bytes)).into_bytes()
}

/// The content with a byte changed, left out or put in, or in lowercase.
fn changed(random: &mut Random, held: &[u8]) -> Vec<u8> {
    let mut content = held.to_vec();
    let place = random.between(0, content.len());
    let byte = random.byte();
    // The neighbours of the digits, and what a number may have elsewhere.
    let near = random.pick(b"/:@G`g -+.x,");
    let put_in = [
        &b"\r"[..],
        b"\r",
        b"\n",
        b"\n",
        b"\"\"",
        b"\"\"",
        b"0",
        b"A",
        b",",
        b"\0",
        b" ",
    ];
    let put_in = random.pick(&put_in);
    match random.between(0, 9) {
        0 => content.make_ascii_lowercase(),
        1 => content.make_ascii_uppercase(),
        2 => content.clear(),
        3..=6 => drop(content.splice(place..place, put_in.iter().copied())),
        _ if place == content.len() => drop(content.pop()),
        7 => drop(content.remove(place)),
        8 => content[place] = near,
        _ => content[place] = byte,
    }
    content
}
