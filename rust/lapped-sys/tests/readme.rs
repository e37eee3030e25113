//! What the README quotes: the examples, the answers in words, and the statements that are proved; and
//! that the changelog begins with the version that this is.

mod common;
use common::*;
use lapped::{Mode, Refusal};
use std::fs;

fn readme() -> String {
    fs::read_to_string(root().join("README.md")).unwrap()
}

#[test]
fn examples_are_quoted_whole() {
    for (language, path) in
        [("c", "examples/roundtrip.c"), ("rust", "rust/lapped/examples/roundtrip.rs")]
    {
        let example = fs::read_to_string(root().join(path)).unwrap();
        let quoted = format!("```{language}\n{example}```\n");
        assert!(readme().contains(&quoted), "the README does not quote {path} as it is");
    }
}

/// Each line of a statement stands in the file that the text before it links, in the same order.
#[test]
fn statements_are_quoted_as_they_are() {
    let readme = readme();
    let mut quotes = readme.split("```text\n");
    let mut before = quotes.next().unwrap();
    let mut count = 0;
    for quote in quotes {
        let (statement, after) = quote.split_once("```\n").unwrap();
        let path = before.rsplit("](").next().unwrap().split(')').next().unwrap();
        let source = fs::read_to_string(root().join(path)).expect(path);
        let mut lines = source.lines();
        for line in statement.lines() {
            assert!(
                lines.any(|other| other == line),
                "{path} does not have, at its place:\n{line}"
            );
        }
        (before, count) = (after, count + 1);
    }
    assert_eq!(count, 2);
}

/// It is to be read in ten minutes, and every file that it links is there.
#[test]
fn short_and_without_dead_links() {
    let readme = readme();
    assert!(readme.lines().count() <= 200, "{} lines", readme.lines().count());
    let links = readme.split("](").skip(1).map(|rest| rest.split(')').next().unwrap());
    let pictures = readme.split("<img src=\"").skip(1).map(|rest| rest.split('"').next().unwrap());
    for link in links.chain(pictures) {
        assert!(root().join(link).exists(), "{link}");
    }
}

#[test]
fn answers_are_the_wrappers() {
    let words = (1..=15).map(|number| Refusal::from_number(number).unwrap().to_string());
    let answers = std::iter::once("done".to_string()).chain(words).enumerate();
    let table: String =
        answers.map(|(number, words)| format!("| {number} | {words} |\n")).collect();
    let table = format!("| number | meaning |\n|---|---|\n{table}\n");
    assert!(readme().contains(&table), "the README's table of answers is not\n{table}");
}

#[test]
fn modes_have_the_wrappers_names() {
    for mode in Mode::ALL {
        let (number, name) = (mode.number(), format!("`Mode::{mode:?}`"));
        let row = readme().lines().any(|line| {
            let cells: Vec<&str> = line.split('|').map(str::trim).collect();
            cells.len() > 3 && cells[1] == number.to_string() && cells[3] == name
        });
        assert!(row, "the README has no row for mode {number}, {name}");
    }
}

#[test]
fn changelog_begins_with_this_version() {
    let changelog = fs::read_to_string(root().join("CHANGELOG.md")).unwrap();
    let newest = changelog.lines().find_map(|line| line.strip_prefix("## "));
    assert_eq!(newest, Some(env!("CARGO_PKG_VERSION")));
}
