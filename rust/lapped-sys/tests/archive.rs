//! What liblapped.a brings with it: the functions of the header, and no memory of its own.

mod common;
use common::*;
use std::path::Path;
use std::process::Command;

/// The symbols of the library, each with the letter by which nm tells its kind.
fn symbols() -> Vec<(String, String)> {
    let archive = Path::new(LIBRARY).join("liblapped.a");
    let text = succeed(Command::new("nm").arg("--format=posix").arg(archive));
    let lines = text.lines().map(|line| line.split_whitespace().map(String::from));
    lines.filter_map(|mut words| Some((words.next()?, words.next()?))).collect()
}

/// The functions that the header declares and leaves to the library, by the lines on which their
/// declarations start.
fn declared() -> Vec<String> {
    let header = std::fs::read_to_string(root().join("include/lapped.h")).unwrap();
    let starts = header.lines().filter(|line| {
        line.starts_with(|c: char| c.is_ascii_lowercase()) && !line.starts_with("static")
    });
    let before = starts.filter_map(|line| Some(line.split_once('(')?.0));
    let mut names: Vec<String> =
        before.filter_map(|text| text.rsplit(' ').next()).map(String::from).collect();
    names.sort();
    names
}

#[test]
fn exports_are_those_of_the_header() {
    let exported = symbols().into_iter().filter(|(_, kind)| kind == "T").map(|(name, _)| name);
    let mut exported: Vec<String> = exported.collect();
    exported.sort();
    assert_eq!(exported, declared());
}

/// Calls may run concurrently because there is nothing that they share: only code (T, t), constants
/// (R, r) and the C library's memset (U), no data that is written.
#[test]
fn no_call_keeps_anything() {
    for (name, kind) in symbols() {
        match kind.as_str() {
            "T" | "t" | "R" | "r" => {}
            "U" => assert_eq!(name, "memset", "is needed from outside"),
            _ => panic!("{name} is of kind {kind}"),
        }
    }
}
