//! The weekly schedule, 0077, rule by rule, as calls of a replay with their bytes written out.

mod board;

use board::{Board, CODE_WORD, ZERO_ID, packet};

/// The entries that the record shows, in their order.
fn entries(board: &mut Board) -> Vec<String> {
    let shown = board.call("record");
    let entries = shown.split(' ').filter(|word| word.starts_with("0077:"));
    entries.map(String::from).collect()
}

/// A board whose entries are all `05 1E 3B 17`.
fn filled() -> Board {
    let mut board = Board::new("", 1);
    for period in 1..=4 {
        let write = format!("FE 06 77 00 {period:02X} 05 1E 3B 17");
        assert_eq!(board.ask(2, &write), "silence");
    }
    assert_eq!(changed(&mut board), [""; 0]);
    board
}

/// The places of a filled board that hold another entry now.
fn changed(board: &mut Board) -> Vec<String> {
    let entries = entries(board);
    assert_eq!(entries.len(), 28);
    entries
        .iter()
        .filter_map(|entry| entry.strip_prefix("0077:")?.split_once('='))
        .filter(|(_, value)| *value != "051E3B17")
        .map(|(place, _)| place.to_string())
        .collect()
}

#[test]
fn a_read_in_full_bytes() {
    let mut board = Board::new("31313131", 1);
    assert_eq!(board.ask(2, "FE 06 77 03 02 04 15 1E 16"), "silence");
    // FE 02 77 03 02: 02 + 10 + 04 + 4 * 31 + 01 + FE + 02 + 77 + 03 + 02 is 0257.
    let read = format!("FDFD0210{ZERO_ID}043131313101FE027703025702");
    // FE 06 77 03 02 04 15 1E 16: 02 + 10 + 04 + 4 * 31 + 06 + FE + 06 + 77 + 03 + 02 + 4D is 02AD.
    let response = format!("FDFD0210{ZERO_ID}043131313106FE0677030204151E16AD02");
    assert_eq!(
        board.call(&format!("packet 256 {read}")),
        format!("response {response}")
    );
    let written = board.call(&format!("write 256 {ZERO_ID} 31313131 1:0077:0302"));
    assert_eq!(written, format!("packet {read}"));
    let reports = board.call(&format!("read {ZERO_ID} 31313131 {response}"));
    assert_eq!(reports, "reports 0077=030204151E16");
    let listing = board.call(&format!("list {response}"));
    assert_eq!(listing, "number,value|0x0077,030204151E16");
}

#[test]
fn entries_start_at_their_lowest_values() {
    let mut board = Board::new("", 2);
    board.expect(1, "FE 02 77 01 01", "FE 06 77 01 01 00 00 00 00");
    board.expect(1, "FE 02 77 07 04", "FE 06 77 07 04 00 00 00 00");
    let entries = entries(&mut board);
    assert_eq!(entries.len(), 28);
    assert_eq!(entries[0], "0077:1.1=00000000");
    assert_eq!(entries[4], "0077:2.1=00000000");
    assert_eq!(entries[27], "0077:7.4=00000000");
}

#[test]
fn groups_are_every_day_the_weekdays_and_the_weekend() {
    for (day, first, places) in [
        ("00", "01", "1.3 2.3 3.3 4.3 5.3 6.3 7.3"),
        ("08", "01", "1.3 2.3 3.3 4.3 5.3"),
        ("09", "06", "6.3 7.3"),
        ("05", "05", "5.3"),
        ("06", "06", "6.3"),
    ] {
        let write = format!("FE 06 77 {day} 03 01 0F 00 00");
        let mut board = filled();
        assert_eq!(board.ask(2, &write), "silence");
        assert_eq!(changed(&mut board).join(" "), places);
        let mut board = filled();
        let report = format!("FE 06 77 {first} 03 01 0F 00 00");
        board.expect(3, &write, &report);
        assert_eq!(changed(&mut board).join(" "), places);
    }
}

#[test]
fn fields_are_stored_up_to_their_bounds() {
    for (fields, stored) in [
        ("00 15 00 00", true),
        ("05 15 00 00", true),
        ("06 15 00 00", false),
        ("FF 15 00 00", false),
        ("01 00 00 00", true),
        ("01 01 00 00", false),
        ("01 0E 00 00", false),
        ("01 0F 00 00", true),
        ("01 1E 00 00", true),
        ("01 1F 00 00", false),
        ("01 0F 3B 00", true),
        ("01 0F 3C 00", false),
        ("01 0F 00 17", true),
        ("01 0F 00 18", false),
    ] {
        for (day, first, count) in [("00", "01", 7), ("08", "01", 5), ("09", "06", 2)] {
            let write = format!("FE 06 77 {day} 04 {fields}");
            let held = if stored { fields } else { "05 1E 3B 17" };
            let report = format!("FE 06 77 {first} 04 {held}");
            let mut board = filled();
            board.expect(3, &write, &report);
            let changes = changed(&mut board).len();
            assert_eq!(changes, if stored { count } else { 0 }, "{write}");
            let mut board = filled();
            assert_eq!(board.ask(2, &write), "silence");
            assert_eq!(changed(&mut board).len(), changes, "{write}");
        }
    }
}

#[test]
fn other_reads_are_unknown() {
    let mut board = filled();
    for data in [
        "77",
        "FE 01 77 01",
        "FE 03 77 01 01 00",
        "FE 06 77 01 01 05 1E 3B 17",
        "FE 02 77 00 01",
        "FE 02 77 08 01",
        "FE 02 77 09 01",
        "FE 02 77 0A 01",
        "FE 02 77 01 00",
        "FE 02 77 01 05",
    ] {
        board.expect(1, data, "FD 77");
    }
}

#[test]
fn other_writes_are_unknown_before_their_fields() {
    for data in [
        "77 01",
        "FE 05 77 01 01 00 00 00",
        "FE 07 77 01 01 00 00 00 00 00",
        "FE 05 77 01 01 06 01 3C",
        "FE 06 77 0A 01 00 00 00 00",
        "FE 06 77 0A 01 06 01 3C 18",
        "FE 06 77 01 00 00 00 00 00",
        "FE 06 77 01 05 00 00 00 00",
        "FE 06 77 00 05 06 01 3C 18",
    ] {
        let mut board = filled();
        board.expect(3, data, "FD 77");
        assert_eq!(board.ask(2, data), "silence");
        assert_eq!(changed(&mut board), [""; 0], "{data}");
    }
}

#[test]
fn raise_and_lower_are_unknown() {
    let mut board = filled();
    for data in ["77", "FE 02 77 01 01", "FE 06 77 01 01 00 00 00 00"] {
        board.expect(4, data, "FD 77");
        board.expect(5, data, "FD 77");
    }
    assert_eq!(changed(&mut board), [""; 0]);
}

#[test]
fn a_search_passes_the_schedule_over() {
    let mut board = Board::new("31313131", 1);
    for data in ["FE 02 77 01 01", "77", "FE 06 77 00 01 05 1E 3B 17"] {
        let search = packet(CODE_WORD, "", 1, data);
        assert_eq!(board.call(&format!("packet 256 {search}")), "silence");
        let search = packet(CODE_WORD, "", 1, &format!("{data} B9 {data}"));
        let response = packet(ZERO_ID, "", 6, "FE 02 B9 02 00");
        let answer = board.call(&format!("packet 256 {search}"));
        assert_eq!(answer, format!("response {response}"));
    }
}

#[test]
fn the_schedule_takes_no_measurement() {
    let mut board = Board::new("", 1);
    for value in ["-", "00", "0101", "010100000000"] {
        let answer = board.call(&format!("measure 0077 {value}"));
        assert_eq!(answer, "refused 30");
    }
}

#[test]
fn an_entry_outside_its_fields_is_70() {
    for (value, legal) in [
        ("05000000", true),
        ("06000000", false),
        ("00010000", false),
        ("000E0000", false),
        ("000F0000", true),
        ("001E0000", true),
        ("001F0000", false),
        ("00003B00", true),
        ("00003C00", false),
        ("00000017", true),
        ("00000018", false),
    ] {
        for place in ["1.1", "4.3", "7.4"] {
            let mut board = Board::new("", 1);
            assert_eq!(board.call(&format!("poke 0077:{place} {value}")), "poked");
            let shown = format!("0077:{place}={value}");
            assert!(entries(&mut board).contains(&shown));
            let silence = if legal { "silence" } else { "refused 70" };
            assert_eq!(board.ask(1, ""), silence, "{value}");
            let accepted = if legal { "accepted" } else { "refused 70" };
            assert_eq!(board.call("measure 0006 01"), accepted, "{value}");
        }
    }
}
