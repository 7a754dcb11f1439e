//! The linked board stores, and the client reads and writes, the dates that the system's `date` knows, and no other value.

#[path = "../../reference/tests/dates/mod.rs"]
mod dates;

use std::collections::BTreeSet;
use std::fmt::Write;

use udgornwy::calendar;
use udgornwy::ffi::{self, Answer, Command};

const ID: &[u8] = b"002D6E1B34565815";
const PASSWORD: &[u8] = b"1111";
const CLIENT: u8 = 1;
/// A unit type of each product.
const UNITS: [u8; 2] = [2, 5];

/// The calendar's number, and how many writes of it go into a packet.
const NUMBER: u16 = 0x0070;
const WRITES: usize = 30;

#[test]
fn a_board_stores_every_date_and_nothing_else() {
    let dates = dates::all();
    let values: Vec<[u8; 4]> = dates::candidates().collect();
    for unit in UNITS {
        check_board(unit, &dates, &values);
    }
}

fn check_board(unit: u8, dates: &BTreeSet<[u8; 4]>, values: &[[u8; 4]]) {
    let mut board = ffi::set_up(ID, PASSWORD, CLIENT, unit).expect("a board");
    let mut held = [1, 6, 1, 0];
    for values in values.chunks(WRITES) {
        let writes: Vec<Command> = values
            .iter()
            .map(|value| Command::new(3, NUMBER, value))
            .collect();
        let packet = ffi::write(ID, PASSWORD, &writes).expect("a packet");
        let Answer::Response(response) = ffi::packet(&mut board, &packet) else {
            panic!("no response to {values:?}");
        };
        let mut expected = String::from("number,value\n");
        for value in values {
            held = if dates.contains(value) { *value } else { held };
            let [day, weekday, month, year] = held;
            writeln!(
                expected,
                "0x0070,{day:02X}{weekday:02X}{month:02X}{year:02X}"
            )
            .expect("a text grows");
        }
        let listing = ffi::list(&response).expect("a listing");
        assert_eq!(String::from_utf8(listing), Ok(expected), "{values:?}");
    }
}

#[test]
fn the_client_reads_and_writes_every_date_and_nothing_else() {
    let dates = dates::all();
    for value in dates::candidates() {
        let shown = calendar::show(&value);
        assert_eq!(shown.is_some(), dates.contains(&value), "{value:?}");
        let Some(text) = shown else {
            continue;
        };
        let (date, _) = text.split_once(' ').expect("a date and its weekday");
        assert_eq!(calendar::parse(&text), Ok(value.to_vec()), "{text}");
        assert_eq!(calendar::parse(date), Ok(value.to_vec()), "{date}");
    }
}
