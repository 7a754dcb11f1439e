//! The commands that README shows, and the page about the client.

mod common;

use common::*;
use udgornwy::entry::NUMBER;
use udgornwy::rows;
use udgornwy::unit_type::UnitType;

/// The words of each command in a document.
fn commands(text: &str) -> Vec<Vec<&str>> {
    let program = "    host/target/release/udgornwy ";
    let lines = text.lines().filter_map(|line| line.strip_prefix(program));
    let words = lines.map(|line| line.trim_end_matches(" &").split_whitespace().collect());
    words.collect()
}

#[test]
fn the_commands_of_the_readme_work() {
    let text = document("README.md");
    let commands = commands(&text);
    let (board, commands) = commands.split_first().expect("commands");
    assert_eq!(board[..2], ["board", "--id"]);
    let board = Board::client();
    let host = board.host();
    for command in commands {
        let here = command.iter().map(|word| match *word {
            "127.0.0.1" => &host,
            word => word,
        });
        let output = run(&here.collect::<Vec<&str>>());
        assert!(!listing(&output).is_empty(), "{command:?}");
        assert_eq!(errors(&output), "", "{command:?}");
    }
    assert!(commands.len() >= 4);
}

/// What the page shows is what a board answers.
#[test]
fn the_clients_page_shows_what_is_seen() {
    let page = document("docs/CLIENT.md").replace("\n    ", "\n");
    let more = ["--measure", "intake-air-temperature=-5.0"];
    let board = Board::start(ID, "client", &more);
    let set = board.ask("set", &["speed-mode=3", "temperature-setpoint-normal=31"]);
    assert!(page.contains(&(shown(&set) + &errors(&set))));
    board.listed("set", &["temperature-setpoint-normal=21"]);
    let rows = [
        "temperature-setpoint-normal",
        "intake-air-temperature",
        "0x0101",
    ];
    for format in ["listing", "table"] {
        let listed = board.listed("get", &[&["--format", format], &rows[..]].concat());
        assert!(page.contains(&listed), "{listed}");
    }
    let entry = ["set", "friday", "1", "3", "21", "08:30"];
    assert!(page.contains(&board.listed("schedule", &entry)));
    let json = board.listed("get", &["--format", "json", rows[1]]);
    let (_, members) = json.split_once("\"id\"").expect("an ID");
    assert!(page.contains(members), "{json}");
}

/// What the page shows of a VENTO Expert.
#[test]
fn the_clients_page_shows_what_is_seen_of_an_expert() {
    let page = document("docs/CLIENT.md").replace("\n    ", "\n");
    let board = Board::of_type("3", &[]);
    let host = board.host();
    let search = run(&["search", "--host", &host]);
    assert!(page.contains(&(shown(&search) + &errors(&search))));
    let table = listing(&run(&["search", "--host", &host, "--format", "table"]));
    assert!(page.contains(&table), "{table}");
    let lacking = asked(NOBODY, "get", &["--type", "5", "0-10v-sensor-signal"]);
    assert!(page.contains(&errors(&lacking)), "{}", errors(&lacking));
    for unit_type in UnitType::ALL {
        let rows = rows::of(unit_type).filter(|row| row.number != NUMBER);
        let (number, count) = (unit_type.number(), rows.count());
        let line = page
            .lines()
            .find(|line| line.starts_with(&format!("| {number} |")));
        let said = line.is_some_and(|line| line.contains(&format!(" | {count}")));
        assert!(said, "{unit_type}");
    }
}
