//! What the program says of itself.

const OVERVIEW: &str = include_str!("help/overview.txt");
const UNIT: &str = include_str!("help/unit.txt");
const OPTIONS: &str = include_str!("help/options.txt");
const EXIT: &str = include_str!("help/exit.txt");

pub fn overview() -> String {
    [OVERVIEW, EXIT].concat()
}

pub fn version() -> String {
    format!("udgornwy {}\n", env!("CARGO_PKG_VERSION"))
}

/// The help of a command.
pub fn of(command: &str) -> Option<String> {
    let parts: &[&str] = match command {
        "board" => &[include_str!("help/board.txt")],
        "rows" => &[include_str!("help/rows.txt")],
        "get" => &[include_str!("help/get.txt"), UNIT, OPTIONS, EXIT],
        "set" => &[include_str!("help/set.txt"), UNIT, OPTIONS, EXIT],
        "raise" | "lower" => &[include_str!("help/steps.txt"), UNIT, OPTIONS, EXIT],
        "schedule" => &[include_str!("help/schedule.txt"), UNIT, OPTIONS, EXIT],
        "search" => &[include_str!("help/search.txt"), OPTIONS, EXIT],
        "summary" => &[include_str!("help/summary.txt"), EXIT],
        "rewrite" => &[include_str!("help/rewrite.txt"), EXIT],
        "export" => &[include_str!("help/export.txt"), EXIT],
        "import" => &[include_str!("help/import.txt"), EXIT],
        _ => return None,
    };
    Some(parts.concat())
}

#[cfg(test)]
mod tests {
    use super::*;
    use crate::arguments;

    const COMMANDS: [&str; 12] = [
        "board", "rows", "get", "set", "raise", "lower", "schedule", "search", "summary",
        "rewrite", "export", "import",
    ];

    /// But for the file of boards, which is not there to be read.
    #[test]
    fn every_example_is_taken() {
        for command in COMMANDS {
            let text = of(command).expect(command);
            let (_, examples) = text.split_once("\nExamples\n").expect("examples");
            let lines = examples.lines().take_while(|line| !line.is_empty());
            for line in lines {
                let words: Vec<String> = line.split_whitespace().map(String::from).collect();
                assert_eq!(words[0], "udgornwy");
                let boards = words.iter().any(|word| word == "--boards");
                let parsed = arguments::parse(&words[1..]);
                let error = parsed.err().unwrap_or_default();
                assert!(
                    error.is_empty() || boards && error.contains("boards.txt"),
                    "{error}"
                );
            }
        }
    }

    #[test]
    fn every_command_is_in_the_overview() {
        for command in COMMANDS {
            assert!(
                OVERVIEW.contains(&format!("  udgornwy {command} ")),
                "{command}"
            );
            let lines = of(command).expect(command);
            assert!(lines.lines().all(|line| line.len() <= 132), "{command}");
        }
        assert!(overview().lines().all(|line| line.len() <= 132));
        assert_eq!(of("fetch"), None);
    }
}
