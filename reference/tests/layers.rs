//! README's drawing of the crates is that of crates.txt, without the uses that another path implies.

use std::collections::{BTreeMap, BTreeSet};
use std::fs;
use std::path::Path;

type Uses = BTreeMap<String, BTreeSet<String>>;

/// The crate of the kit that a program uses.
const KIT: &str = "io";

fn file(name: &str) -> String {
    let root = Path::new(env!("CARGO_MANIFEST_DIR")).join("..");
    fs::read_to_string(root.join(name)).expect("a file of the repository")
}

fn listed() -> Uses {
    let list = file("crates.txt");
    let lines = list.lines().filter_map(|line| line.split_once(':'));
    let words = |uses: &str| {
        let words = uses.split_whitespace().filter(|word| *word != KIT);
        words.map(String::from).collect()
    };
    // Behind the name of a static library stands what it is.
    let name = |names: &str| names.split_whitespace().next().map(String::from);
    lines
        .filter_map(|(names, uses)| Some((name(names)?, words(uses))))
        .collect()
}

/// Whether a crate stands on another, in one step or in several.
fn stands_on(all: &Uses, name: &str, other: &str) -> bool {
    let mut below = all[name].iter();
    below.any(|used| used == other || stands_on(all, used, other))
}

/// Each crate with what it uses and no other crate that it uses stands on.
fn direct(all: &Uses) -> Uses {
    let is_direct = |uses: &BTreeSet<String>, used: &str| {
        let mut others = uses.iter();
        !others.any(|other| stands_on(all, other, used))
    };
    let crates = all.iter().map(|(name, uses)| {
        let kept = uses.iter().filter(|used| is_direct(uses, used));
        (name.clone(), kept.cloned().collect())
    });
    crates.collect()
}

/// What the drawing shows: a line's depth is where its names begin, four columns a step; one line may have several crates.
fn drawn() -> Uses {
    let page = file("README.md");
    let (_, section) = page.split_once("\n## Layers\n").expect("the section");
    let (drawing, _) = section.split_once("\n| Crate |").expect("its table");
    let mut uses = Uses::new();
    let mut above: Vec<Vec<String>> = Vec::new();
    for line in drawing.lines().filter_map(|line| line.strip_prefix("    ")) {
        let start = line.find(|letter: char| letter.is_ascii_lowercase());
        let start = start.expect("a crate's name");
        let (names, _) = line[start..]
            .split_once("  ")
            .unwrap_or((&line[start..], ""));
        let names: Vec<String> = names.split(", ").map(String::from).collect();
        above.truncate(start / 4);
        for parent in above.last().into_iter().flatten() {
            let below = uses.entry(parent.clone()).or_default();
            below.extend(names.iter().cloned());
        }
        for name in &names {
            uses.entry(name.clone()).or_default();
        }
        above.push(names);
    }
    uses
}

#[test]
fn the_drawing_shows_what_each_crate_stands_on() {
    assert_eq!(drawn(), direct(&listed()));
}

#[test]
fn the_table_has_every_crate() {
    let page = file("README.md");
    let (_, table) = page
        .split_once("\n| Crate | What it holds |\n|---|---|\n")
        .expect("the table");
    let rows = table.lines().take_while(|line| line.starts_with('|'));
    let crates: BTreeSet<String> = rows
        .filter_map(|row| row.split('|').nth(1))
        .map(|name| name.trim().to_string())
        .collect();
    assert_eq!(crates, listed().into_keys().collect());
}
