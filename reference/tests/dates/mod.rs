//! The dates of the years 2000 to 2099 as the system's `date` (GNU coreutils) gives them.

use std::collections::BTreeSet;
use std::io::Write;
use std::process::{Command, Stdio};
use std::thread;

const DAYS: usize = 36_525;
const SECONDS_A_DAY: usize = 24 * 60 * 60;
/// 1 January 2000 in seconds of the system's clock.
const FIRST: usize = 946_684_800;

/// Day, weekday, month and year of each, as a board holds them.
pub fn all() -> BTreeSet<[u8; 4]> {
    let mut date = Command::new("date")
        .args(["--utc", "--file=-", "+%-d %u %-m %-y"])
        .stdin(Stdio::piped())
        .stdout(Stdio::piped())
        .spawn()
        .expect("the tests need `date` of GNU coreutils");
    let mut input = date.stdin.take().expect("a pipe");
    let asked: String = (0..DAYS)
        .map(|day| format!("@{}\n", FIRST + day * SECONDS_A_DAY))
        .collect();
    let asking = thread::spawn(move || input.write_all(asked.as_bytes()));
    let output = date.wait_with_output().expect("what `date` writes");
    asking.join().expect("a thread").expect("`date` reads");
    assert!(output.status.success());
    let text = String::from_utf8(output.stdout).expect("text");
    let dates: BTreeSet<[u8; 4]> = text.lines().map(of_line).collect();
    assert_eq!(dates.len(), DAYS);
    dates
}

fn of_line(line: &str) -> [u8; 4] {
    let bytes: Vec<u8> = line
        .split(' ')
        .map(|number| number.parse().expect("a number of a date"))
        .collect();
    bytes.try_into().expect("four numbers")
}

/// Every value whose bytes are dates', zero, or past the greatest of a date by one.
pub fn candidates() -> impl Iterator<Item = [u8; 4]> {
    let years = 0..=100;
    let months = years.flat_map(|year| (0..=13).map(move |month| (month, year)));
    let weekdays =
        months.flat_map(|(month, year)| (0..=8).map(move |weekday| (weekday, month, year)));
    weekdays.flat_map(|(weekday, month, year)| (0..=32).map(move |day| [day, weekday, month, year]))
}
