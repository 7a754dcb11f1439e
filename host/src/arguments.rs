//! What the command line asks for.

use std::net::SocketAddr;
use std::path::PathBuf;
use std::time::Duration;

use crate::boards::{self, Unit};
use crate::capture::Source;
use crate::ffi::{Command, DEFAULT_ID, LOWER, RAISE};
use crate::format::Format;
use crate::help;
use crate::options::{Form, Options, END};
use crate::questions;
use crate::request::{Kind, Question, Raw, Request};
use crate::rows;
use crate::server::Settings;
use crate::target;
use crate::unit_type::UnitType;
use crate::values;

#[derive(Debug)]
pub enum Task {
    /// Something to read, on standard output.
    Print(String),
    Board(Settings),
    Summary(Source),
    /// A capture, and where its new file goes.
    Rewrite(Source, PathBuf),
    /// A capture, and where its table goes.
    Export(Source, PathBuf),
    Import(Source),
    Request(Request),
}

const BOARD: Form = Form {
    valued: &[
        "--id",
        "--password",
        "--mode",
        "--type",
        "--listen",
        "--measure",
    ],
    flags: &["--verbose"],
};

const ROWS: Form = Form {
    valued: &["--type"],
    flags: &[],
};

const REQUEST: Form = Form {
    valued: &[
        "--host",
        "--id",
        "--password",
        "--type",
        "--boards",
        "--board",
        "-t",
        "-r",
        "--format",
        "--raw",
    ],
    flags: &["-d"],
};

const SEARCH: Form = Form {
    valued: &["--host", "-t", "-r", "--format", "--raw"],
    flags: &["-d"],
};

/// Of summary, rewrite, export and import.
const FILES: Form = Form {
    valued: &[],
    flags: &[],
};

const LISTEN: &str = "127.0.0.1:4000";

/// As snmpget has them.
const LIMIT: Duration = Duration::from_secs(1);
const RETRIES: u32 = 5;

const SHORTEST_LIMIT: f64 = 0.001;
const LONGEST_LIMIT: f64 = 3600.0;
const MOST_RETRIES: u32 = 1000;

/// A request that changes the board is sent once: a lost response does not tell whether the change was made.
const NO_RETRIES: u32 = 0;

pub fn parse(arguments: &[String]) -> Result<Task, String> {
    let (command, rest) = match arguments {
        [] => return Err(String::from("there is no command")),
        [command, rest @ ..] => (command.as_str(), rest),
    };
    let mut options = arguments.iter().take_while(|argument| *argument != END);
    if options.any(|argument| argument == "--help" || argument == "-h") {
        return Ok(Task::Print(
            help::of(command).unwrap_or_else(help::overview),
        ));
    }
    match command {
        "--version" | "-V" => Ok(Task::Print(help::version())),
        "help" => parse_help(rest),
        "rows" => parse_rows(rest),
        "board" => parse_board(rest),
        "get" => parse_request(rest, RETRIES, questions::reads),
        "set" => parse_request(rest, NO_RETRIES, questions::writes),
        "raise" => parse_request(rest, NO_RETRIES, steps(RAISE)),
        "lower" => parse_request(rest, NO_RETRIES, steps(LOWER)),
        "schedule" => parse_schedule(rest),
        "search" => parse_search(rest),
        "summary" => parse_file(rest, Task::Summary),
        "rewrite" => parse_files(rest, "a capture is rewritten", Task::Rewrite),
        "export" => parse_files(rest, "a table is written", Task::Export),
        "import" => parse_file(rest, Task::Import),
        _ => Err(format!("there is no command `{command}`")),
    }
}

fn parse_help(arguments: &[String]) -> Result<Task, String> {
    match arguments {
        [] => Ok(Task::Print(help::overview())),
        [command] => match help::of(command) {
            Some(text) => Ok(Task::Print(text)),
            None => Err(format!("there is no command `{command}`")),
        },
        [_, word, ..] => Err(unwanted(word)),
    }
}

fn parse_rows(arguments: &[String]) -> Result<Task, String> {
    let options = Options::parse(arguments, &ROWS)?;
    if let Some(word) = options.words().first() {
        return Err(unwanted(word));
    }
    Ok(Task::Print(rows::table(parse_type(&options)?)))
}

fn parse_board(arguments: &[String]) -> Result<Task, String> {
    let options = Options::parse(arguments, &BOARD)?;
    if let Some(word) = options.words().first() {
        return Err(unwanted(word));
    }
    let unit_type = parse_type(&options)?;
    let measured = options
        .values_of("--measure")
        .map(|text| values::parse_measurement(unit_type, text));
    Ok(Task::Board(Settings {
        id: boards::parse_id(options.needed("--id")?)?,
        password: options.needed("--password")?.as_bytes().to_vec(),
        mode: parse_mode(options.needed("--mode")?)?,
        unit_type,
        listen: parse_listen(options.value("--listen")?.unwrap_or(LISTEN))?,
        measured: measured.collect::<Result<_, _>>()?,
        verbose: options.has("--verbose"),
    }))
}

/// What some words ask a board of a unit type, or what is wrong with them.
type Commands = Result<Vec<Command>, String>;

fn steps(function: u8) -> impl Fn(UnitType, &[&str]) -> Commands {
    move |unit_type, words| questions::steps(function, unit_type, words)
}

fn parse_request(
    arguments: &[String],
    retries: u32,
    commands: impl Fn(UnitType, &[&str]) -> Commands,
) -> Result<Task, String> {
    let options = Options::parse(arguments, &REQUEST)?;
    let words = options.words();
    if words.is_empty() {
        return Err(String::from("there is no row"));
    }
    let commands = |unit_type| commands(unit_type, &words);
    request(&options, Kind::Rows, commands, retries)
}

fn parse_schedule(arguments: &[String]) -> Result<Task, String> {
    let options = Options::parse(arguments, &REQUEST)?;
    let words = options.words();
    match words[..] {
        ["get", ref words @ ..] => {
            let commands = |unit_type| questions::entry_reads(unit_type, words);
            request(&options, Kind::Schedule, commands, RETRIES)
        }
        ["set", ref words @ ..] => {
            let commands = |unit_type| questions::entry_write(unit_type, words);
            request(&options, Kind::Schedule, commands, NO_RETRIES)
        }
        _ => Err(String::from("schedule takes get or set")),
    }
}

/// A search asks every board for its ID and its unit type.
fn parse_search(arguments: &[String]) -> Result<Task, String> {
    let options = Options::parse(arguments, &SEARCH)?;
    if let Some(word) = options.words().first() {
        return Err(unwanted(word));
    }
    let commands = |_| Ok(vec![questions::read(0x007C), questions::read(0x00B9)]);
    request(&options, Kind::Search, commands, RETRIES)
}

fn parse_file(arguments: &[String], task: impl Fn(Source) -> Task) -> Result<Task, String> {
    let options = Options::parse(arguments, &FILES)?;
    match options.words()[..] {
        [] => Err(String::from("there is no file")),
        [source] => Ok(task(parse_source(source))),
        [_, word, ..] => Err(unwanted(word)),
    }
}

/// One that is read, and a new one.
fn parse_files(
    arguments: &[String],
    work: &str,
    task: impl Fn(Source, PathBuf) -> Task,
) -> Result<Task, String> {
    let options = Options::parse(arguments, &FILES)?;
    match options.words()[..] {
        [] => Err(String::from("there is no file")),
        [_] => Err(String::from("there is no new file")),
        [_, "-"] => Err(format!("{work} to a file, not to `-`")),
        [source, place] => Ok(task(parse_source(source), PathBuf::from(place))),
        [_, _, word, ..] => Err(unwanted(word)),
    }
}

fn parse_source(text: &str) -> Source {
    match text {
        "-" => Source::StandardInput,
        path => Source::File(PathBuf::from(path)),
    }
}

fn request(
    options: &Options,
    kind: Kind,
    commands: impl Fn(UnitType) -> Commands,
    retries: u32,
) -> Result<Task, String> {
    let (units, warning) = match kind {
        Kind::Search => (vec![searched(options)?], None),
        _ => units(options)?,
    };
    let questions = units.into_iter().map(|unit| question(unit, &commands));
    let request = Request {
        questions: questions.collect::<Result<_, _>>()?,
        warning,
        kind,
        limit: parse_limit(options.value("-t")?)?,
        retries: parse_retries(options.value("-r")?, retries)?,
        dump: options.has("-d"),
        format: parse_format(options.value("--format")?, kind)?,
        raw: options.value("--raw")?.map(parse_raw),
    };
    request.check()?;
    Ok(Task::Request(request))
}

/// What a board is asked; an error says which board it is about, where it has a name.
fn question(unit: Unit, commands: impl Fn(UnitType) -> Commands) -> Result<Question, String> {
    match (commands(unit.unit_type), &unit.name) {
        (Ok(commands), _) => Ok(Question { unit, commands }),
        (Err(error), Some(name)) => Err(format!("{name}: {error}")),
        (Err(error), None) => Err(error),
    }
}

/// What a search asks. Its unit type is what it asks for, so it goes by any; its password is not compared, so it has none.
fn searched(options: &Options) -> Result<Unit, String> {
    Ok(Unit {
        name: None,
        host: options.needed("--host")?.to_string(),
        id: DEFAULT_ID.to_vec(),
        password: Vec::new(),
        unit_type: UnitType::default(),
    })
}

/// The boards that the options name, and a warning about their file.
fn units(options: &Options) -> Result<(Vec<Unit>, Option<String>), String> {
    let names: Vec<&str> = options.values_of("--board").collect();
    let Some(path) = options.value("--boards")? else {
        return match names[..] {
            [] => Ok((vec![named(options)?], None)),
            _ => Err(String::from("--board needs --boards FILE")),
        };
    };
    if names.is_empty() {
        return Err(String::from("--boards needs --board NAME, or --board all"));
    }
    for name in ["--host", "--id", "--password", "--type"] {
        if options.value(name)?.is_some() {
            return Err(format!(
                "{name} is not wanted: --board has it from the file"
            ));
        }
    }
    let (units, warning) = boards::load(path)?;
    Ok((boards::choose(&units, &names)?, warning))
}

fn named(options: &Options) -> Result<Unit, String> {
    let host = options.needed("--host")?;
    target::check(host)?;
    Ok(Unit {
        name: None,
        host: host.to_string(),
        id: boards::parse_id(options.needed("--id")?)?,
        password: options.needed("--password")?.as_bytes().to_vec(),
        unit_type: parse_type(options)?,
    })
}

fn unwanted(word: &str) -> String {
    format!("`{word}` is not wanted here")
}

fn parse_format(text: Option<&str>, kind: Kind) -> Result<Format, String> {
    match text {
        None | Some("listing") if kind == Kind::Schedule => Ok(Format::Schedule),
        None | Some("listing") => Ok(Format::Listing),
        Some("table") => Ok(Format::Table),
        Some("json") => Ok(Format::Json),
        Some(text) => Err(format!(
            "--format takes listing, table or json, not `{text}`"
        )),
    }
}

fn parse_raw(text: &str) -> Raw {
    match text {
        "-" => Raw::Output,
        path => Raw::File(PathBuf::from(path)),
    }
}

fn parse_mode(text: &str) -> Result<u8, String> {
    match text {
        "client" => Ok(1),
        "ap" => Ok(2),
        _ => Err(format!("the mode `{text}` is neither client nor ap")),
    }
}

/// A unit is a Micra where nothing is said.
fn parse_type(options: &Options) -> Result<UnitType, String> {
    let Some(text) = options.value("--type")? else {
        return Ok(UnitType::default());
    };
    UnitType::parse(text).ok_or_else(|| {
        format!("--type takes 2 (Micra 100 WiFi) or 3, 4 or 5 (VENTO Expert), not `{text}`")
    })
}

fn parse_listen(text: &str) -> Result<SocketAddr, String> {
    let address = text.parse();
    address.map_err(|_| format!("`{text}` is no address and port like {LISTEN}"))
}

fn parse_limit(text: Option<&str>) -> Result<Duration, String> {
    let Some(text) = text else {
        return Ok(LIMIT);
    };
    match text.parse::<f64>() {
        Ok(seconds) if (SHORTEST_LIMIT..=LONGEST_LIMIT).contains(&seconds) => {
            Ok(Duration::from_secs_f64(seconds))
        }
        _ => Err(format!(
            "-t takes {SHORTEST_LIMIT} to {LONGEST_LIMIT} seconds, not `{text}`"
        )),
    }
}

fn parse_retries(text: Option<&str>, without: u32) -> Result<u32, String> {
    let Some(text) = text else {
        return Ok(without);
    };
    match text.parse() {
        Ok(retries @ 0..=MOST_RETRIES) => Ok(retries),
        _ => Err(format!("-r takes 0 to {MOST_RETRIES}, not `{text}`")),
    }
}

#[cfg(test)]
mod tests {
    use super::*;
    use crate::entry;

    const IDENTITY: &str = "--host h --id 002D6E1B34565815 --password 1111";

    fn parsed(text: &str) -> Result<Task, String> {
        let words: Vec<String> = text.split_whitespace().map(String::from).collect();
        parse(&words)
    }

    fn request(text: &str) -> Request {
        match parsed(text) {
            Ok(Task::Request(request)) => request,
            other => panic!("{text}: {other:?}"),
        }
    }

    #[test]
    fn requests_have_their_functions_and_their_retries() {
        for (command, functions, retries) in [
            ("get", &[1, 1][..], 5),
            ("raise", &[1, 4, 1, 4], 0),
            ("lower", &[1, 5, 1, 5], 0),
        ] {
            let request = request(&format!("{command} {IDENTITY} speed-mode 0x0063"));
            let commands = &request.questions[0].commands;
            let asked: Vec<u8> = commands.iter().map(|one| one.function).collect();
            assert_eq!(asked, functions);
            assert_eq!((request.retries, request.limit), (retries, LIMIT));
        }
        let set = request(&format!("set {IDENTITY} -t 0.5 -r 2 0x0063=70"));
        let command = &set.questions[0].commands[0];
        assert_eq!((command.function, &command.value[..]), (3, &[70, 0][..]));
        assert_eq!((set.retries, set.limit), (2, Duration::from_millis(500)));
    }

    fn schedule(text: &str) -> Request {
        match parsed(&format!("schedule {IDENTITY} {text}")) {
            Ok(Task::Request(request)) => request,
            other => panic!("{text}: {other:?}"),
        }
    }

    #[test]
    fn a_schedule_is_read_by_places_and_written_by_entries() {
        for (text, first, count) in [
            ("get", [1, 1], 28),
            ("get tue", [2, 1], 4),
            ("get sunday 4", [7, 4], 1),
        ] {
            let request = schedule(text);
            let commands = &request.questions[0].commands;
            let command = &commands[0];
            assert_eq!((command.function, command.number), (1, 0x0077));
            assert_eq!((&command.value[..], commands.len()), (&first[..], count));
            assert_eq!(request.retries, RETRIES);
        }
        let set = schedule("set weekend 2 5 21 22:30");
        let command = Command {
            function: 3,
            number: 0x0077,
            value: vec![9, 2, 5, 21, 30, 22],
        };
        assert_eq!(set.questions[0].commands, [command]);
        assert_eq!(set.retries, NO_RETRIES);
    }

    #[test]
    fn schedules_that_are_none() {
        for bad in [
            "",
            "monday",
            "raise monday 1",
            "get weekdays",
            "get monday 5",
            "get monday 1 1",
            "get --raw file",
            "set",
            "set monday 1 3 21",
            "set monday 1 3 21 08:30 more",
            "set monday 1 3 31 08:30",
        ] {
            assert!(
                parsed(&format!("schedule {IDENTITY} {bad}")).is_err(),
                "{bad}"
            );
        }
        assert!(parsed("schedule get monday").is_err());
        assert!(schedule("get --raw file monday").raw.is_some());
        for command in [
            "get 0x0077",
            "raise schedule-setup",
            "lower 0077",
            "set 0x0077=1",
        ] {
            let (command, row) = command.split_once(' ').expect("a row");
            let error = parsed(&format!("{command} {IDENTITY} {row}")).expect_err(row);
            assert_eq!(error, entry::HINT, "{command}");
        }
    }

    #[test]
    fn a_unit_type_is_2_to_5_and_2_where_none_is_given() {
        for (option, unit_type) in [
            ("", UnitType::Micra),
            ("--type 2", UnitType::Micra),
            ("--type=3", UnitType::ExpertA50),
            ("--type 4", UnitType::ExpertDuo),
            ("--type 5", UnitType::ExpertA30),
        ] {
            let get = request(&format!("get {IDENTITY} {option} speed-mode"));
            assert_eq!(get.questions[0].unit.unit_type, unit_type);
            let board = "board --id 002D6E1B34565815 --password 1111 --mode ap";
            match parsed(&format!("{board} {option}")) {
                Ok(Task::Board(settings)) => assert_eq!(settings.unit_type, unit_type),
                other => panic!("{option}: {other:?}"),
            }
            match parsed(&format!("rows {option}")) {
                Ok(Task::Print(text)) => assert_eq!(text, rows::table(unit_type)),
                other => panic!("{option}: {other:?}"),
            }
            let schedule = parsed(&format!("schedule {IDENTITY} {option} get"));
            assert_eq!(schedule.is_ok(), unit_type == UnitType::Micra);
        }
    }

    #[test]
    fn unit_types_that_are_none() {
        for bad in [
            "--type 1",
            "--type 6",
            "--type 02",
            "--type x",
            "--type=",
            "--type 3 --type 3",
        ] {
            for command in [
                format!("get {IDENTITY} speed-mode"),
                String::from("board --id 002D6E1B34565815 --password 1111 --mode ap"),
                String::from("rows"),
            ] {
                let error = parsed(&format!("{command} {bad}")).expect_err(bad);
                assert!(error.starts_with("--type "), "{error}");
            }
        }
        assert!(parsed("search --host h --type 3").is_err());
    }

    /// The rows that a measured value or a request is for are those of the unit type.
    #[test]
    fn rows_go_by_the_unit_type() {
        let board = "board --id 002D6E1B34565815 --password 1111 --mode ap --measure humidity=55";
        assert!(parsed(&format!("{board} --type 5")).is_ok());
        assert!(parsed(board).is_err());
        for (command, types) in [
            ("get humidity", &["3", "4", "5"][..]),
            ("get 0-10v-sensor-signal", &["3", "4"]),
            ("raise supply-fan-level-1", &["3"]),
            ("lower filter-replacement-timer", &["2", "3"]),
            ("set night-party-timer=party", &["3", "4", "5"]),
            ("get intake-air-temperature", &["2"]),
            ("get 0x0025 all", &["2", "3", "4", "5"]),
        ] {
            for number in ["2", "3", "4", "5"] {
                let asked = parsed(&format!("{command} {IDENTITY} --type {number}"));
                assert_eq!(asked.is_ok(), types.contains(&number), "{command} {number}");
            }
        }
    }

    #[test]
    fn a_search_reads_the_id_and_the_unit_type() {
        let search = request("search --host h");
        let Question { unit, commands } = &search.questions[0];
        let numbers: Vec<u16> = commands.iter().map(|one| one.number).collect();
        assert_eq!(numbers, [0x007C, 0x00B9]);
        assert_eq!((unit.host.as_str(), &unit.id[..]), ("h", &DEFAULT_ID[..]));
        assert!(unit.password.is_empty() && search.questions.len() == 1);
    }

    #[test]
    fn a_file_is_read_by_its_name_or_from_standard_input() {
        for command in ["summary", "import"] {
            for (words, source) in [
                ("-", Source::StandardInput),
                ("-- -", Source::StandardInput),
                ("./-", Source::File(PathBuf::from("./-"))),
                ("-- --help", Source::File(PathBuf::from("--help"))),
            ] {
                match parsed(&format!("{command} {words}")) {
                    Ok(Task::Summary(parsed)) if command == "summary" => assert_eq!(parsed, source),
                    Ok(Task::Import(parsed)) if command == "import" => assert_eq!(parsed, source),
                    other => panic!("{command} {words}: {other:?}"),
                }
            }
        }
    }

    #[test]
    fn what_is_made_of_a_capture_goes_to_a_file() {
        let file = |path: &str| Source::File(PathBuf::from(path));
        for command in ["rewrite", "export"] {
            for (words, source, place) in [
                ("a b", file("a"), "b"),
                ("- b", Source::StandardInput, "b"),
                ("a ./-", file("a"), "./-"),
                ("-- --help -d", file("--help"), "-d"),
            ] {
                let (from, to) = match parsed(&format!("{command} {words}")) {
                    Ok(Task::Rewrite(from, to)) if command == "rewrite" => (from, to),
                    Ok(Task::Export(from, to)) if command == "export" => (from, to),
                    other => panic!("{command} {words}: {other:?}"),
                };
                assert_eq!((from, to), (source, PathBuf::from(place)));
            }
        }
    }

    #[test]
    fn time_limits_and_retries_have_bounds() {
        for bad in ["0", "-1", "nan", "inf", "1e9", "1s", ""] {
            assert!(parse_limit(Some(bad)).is_err(), "{bad}");
        }
        for bad in ["-1", "1001", "1.5", "x", ""] {
            assert!(parse_retries(Some(bad), 5).is_err(), "{bad}");
        }
        assert_eq!(parse_retries(Some("0"), 5), Ok(0));
    }

    #[test]
    fn commands_that_are_none() {
        for bad in [
            "",
            "fetch",
            "rows all",
            "get",
            "get speed-mode",
            "get --host h --id 002D6E1B34565815 speed-mode",
            "get --host h --id 1 --password 1111 speed-mode",
            "search",
            "search --host h 0x0001",
            "search --host h --id 002D6E1B34565815",
            "board --id 002D6E1B34565815 --password 1111",
            "board --id 002D6E1B34565815 --password 1111 --mode 1",
            "board --id 002D6E1B34565815 --password 1111 --mode ap --listen here",
            "board --id 002D6E1B34565815 --password 1111 --mode ap --measure 0x001E",
            "board --id 002D6E1B34565815 --password 1111 --mode ap extra",
            "summary",
            "summary a b",
            "summary - -",
            "summary --format json a",
            "summary -d",
            "rewrite",
            "rewrite a",
            "rewrite a -",
            "rewrite - -",
            "rewrite a b c",
            "rewrite --raw a b",
        ] {
            assert!(parsed(bad).is_err(), "{bad}");
        }
    }

    #[test]
    fn help_is_of_a_command_or_of_all() {
        let printed = |text: &str| match parsed(text) {
            Ok(Task::Print(text)) => text,
            other => panic!("{text}: {other:?}"),
        };
        assert_eq!(printed("get --help"), printed("help get"));
        assert_eq!(printed("lower -h"), printed("help lower"));
        for text in ["--help", "-h", "help", "fetch --help"] {
            assert_eq!(printed(text), help::overview());
        }
        assert!(parsed("help fetch").is_err() && parsed("help get set").is_err());
        let set = request(&format!("set {IDENTITY} -- wifi-name=--help"));
        assert_eq!(set.questions[0].commands[0].value, b"--help");
        assert!(parsed(&format!("get {IDENTITY} -- --help")).is_err());
    }

    #[test]
    fn broadcast_is_for_search_alone() {
        let identity = "--id 002D6E1B34565815 --password 1111";
        for host in ["broadcast", "broadcast:4000"] {
            for command in [
                "get 0x0001",
                "set 0x0001=1",
                "raise 0x0002",
                "lower 0x0002",
                "schedule get",
                "schedule set mon 1 1 0 08:00",
            ] {
                let asked = parsed(&format!("{command} --host {host} {identity}"));
                assert!(asked.expect_err(command).contains("for search alone"));
            }
            assert!(parsed(&format!("search --host {host}")).is_ok());
            assert!(parsed(&format!("search --host {host} --raw file")).is_err());
        }
    }

    #[test]
    fn formats_and_raw_bytes() {
        for (text, format) in [
            ("get 1", Format::Listing),
            ("get --format listing 0001", Format::Listing),
            ("get --format table 0001", Format::Table),
            ("get --format=json 0001", Format::Json),
            ("schedule get", Format::Schedule),
            ("schedule get --format listing", Format::Schedule),
            ("schedule get --format json", Format::Json),
        ] {
            let text = text.replace("get 1", "get 0001");
            assert_eq!(request(&format!("{text} {IDENTITY}")).format, format);
        }
        assert!(parsed(&format!("get --format csv 0001 {IDENTITY}")).is_err());
        let raw = |text: &str| request(&format!("get 0001 {IDENTITY} --raw {text}")).raw;
        assert_eq!(raw("-"), Some(Raw::Output));
        assert_eq!(raw("file"), Some(Raw::File(PathBuf::from("file"))));
    }

    #[test]
    fn changes_are_not_split() {
        let set = |count| {
            let words = "0x0063=70 ".repeat(count);
            parsed(&format!("set {IDENTITY} {words}"))
        };
        assert!(set(45).is_ok());
        assert!(set(46)
            .expect_err("too many")
            .contains("do not fit one packet"));
        let raise = |count| parsed(&format!("raise {IDENTITY} {}", "0002 ".repeat(count)));
        assert!(raise(38).is_ok() && raise(39).is_err());
        assert!(parsed(&format!("get {IDENTITY} {}", "0002 ".repeat(1000))).is_ok());
        let raw = |count| parsed(&format!("get {IDENTITY} --raw f {}", "0002 ".repeat(count)));
        assert!(raw(114).is_ok() && raw(115).is_err());
    }

    #[test]
    fn boards_are_named_by_options_or_a_file() {
        for bad in [
            "get --board a 0001",
            "get --boards f 0001",
            "get --boards f --board a --host h 0001",
            "get --boards f --board a --id 002D6E1B34565815 0001",
            "get --boards f --board a --password 1111 0001",
            "get --boards f --board a --type 3 0001",
            "get --boards no/such/file --board a 0001",
            "search --boards f --board a",
        ] {
            assert!(parsed(bad).is_err(), "{bad}");
        }
    }
}
