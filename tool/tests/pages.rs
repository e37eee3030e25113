//! The manual pages and the completions for shells: that they have every command and every option.

mod common;
use common::*;
use std::collections::BTreeSet;
use std::fs;
use std::process::Command;

const PAGES: &str = env!("CARGO_BIN_EXE_lapped-pages");

const COMPLETIONS: [&str; 3] = ["_lapped", "lapped.bash", "lapped.fish"];

fn pages_in(folder: &str) -> Ran {
    Ran::of(Command::new(PAGES).arg(folder).output().unwrap())
}

/// The commands that the help of the program lists.
fn commands() -> Vec<String> {
    let help = lapped(&["-h"]);
    let list = help.text().split("Commands:\n").nth(1).expect("a list of commands");
    let names = list.lines().take_while(|line| !line.is_empty());
    let names = names.map(|line| line.split_whitespace().next().unwrap().to_string());
    names.filter(|name| name != "help").collect()
}

/// The long options that the help of a command has.
fn options(command: &str) -> BTreeSet<String> {
    let help = lapped(&[command, "-h"]);
    let name_of = |word: &str| {
        let end = |c: char| !c.is_ascii_lowercase() && c != '-';
        word.split(end).next().unwrap().to_string()
    };
    let words = help.text().split_whitespace();
    words.filter(|word| word.starts_with("--")).map(name_of).collect()
}

fn names_in(folder: &str) -> Vec<String> {
    let mut names: Vec<String> = fs::read_dir(folder)
        .unwrap()
        .map(|entry| entry.unwrap().file_name().into_string().unwrap())
        .collect();
    names.sort();
    names
}

#[test]
fn every_command_and_option_has_its_place() {
    let folder = Folder::new("pages");
    pages_in(&folder.path("")).assert_done("lapped-pages");
    assert_eq!(folder.names(), ["completions", "man"]);
    assert_eq!(names_in(&folder.path("completions")), COMPLETIONS);
    let commands = commands();
    assert!(commands.len() >= 9, "{commands:?}");
    let mut expected: Vec<String> =
        commands.iter().map(|name| format!("lapped-{name}.1")).chain(["lapped.1".into()]).collect();
    expected.sort();
    assert_eq!(names_in(&folder.path("man/man1")), expected);

    let text = |name: &str| String::from_utf8(folder.read(name)).unwrap();
    let own = text("man/man1/lapped.1");
    for command in &commands {
        let page = text(&format!("man/man1/lapped-{command}.1"));
        let title = command.replace('-', "\\-");
        assert!(own.contains(&format!("\\fBlapped\\-{title}\\fR(1)")), "{command}: {own}");
        for heading in ["NAME", "SYNOPSIS", "DESCRIPTION", "OPTIONS", "EXIT STATUS", "EXAMPLE"] {
            assert!(page.contains(&format!("\n.SH {heading}\n")), "{command}: {page}");
        }
        assert!(options(command).contains("--help"), "{command}");
        for option in options(command) {
            let name = format!("\\fB{}\\fR", option.replace('-', "\\-"));
            assert!(page.contains(&name), "{command}: {option}: {page}");
            for file in COMPLETIONS {
                let name = option.trim_start_matches('-');
                assert!(text(&format!("completions/{file}")).contains(name), "{file}: {option}");
            }
        }
    }
}

/// What the pages say of a command, as it is read: groff finds no fault, and nothing is lost on the
/// way.
#[test]
fn pages_as_they_are_read() {
    let folder = Folder::new("pages_read");
    pages_in(&folder.path("")).assert_done("lapped-pages");
    for name in names_in(&folder.path("man/man1")) {
        let line = "groff -man -Tutf8 -Kutf8 -ww -rLL=1000n -P-c \"$1\" | sed 's/.\\x08//g'";
        let ran = shell(line, &[&folder.path(&format!("man/man1/{name}"))]);
        ran.assert_done(&name);
        let command = name.trim_start_matches("lapped").trim_end_matches(".1").replacen('-', "", 1);
        let help = match command.as_str() {
            "" => lapped(&["--help"]),
            command => lapped(&[command, "--help"]),
        };
        let plain = |text: &str| {
            let text = text.replace('`', "").replace(['‐', '−'], "-");
            text.split_whitespace().collect::<Vec<_>>().join(" ")
        };
        let page = plain(ran.text()).to_lowercase();
        // What the help says above the list of arguments: what the command does, and its usage.
        let front = help.text().split("\n\n").take_while(|part| {
            !["Arguments:", "Options:", "Commands:"].iter().any(|list| part.starts_with(list))
        });
        let parts: Vec<String> =
            front.map(|part| plain(part.trim_start_matches("Usage: ")).to_lowercase()).collect();
        assert!(parts.len() >= 2, "{name}: {parts:?}");
        for words in parts {
            assert!(page.contains(&words), "{name}: {words:?}: {page}");
        }
    }
}

/// Bash completes commands and options.
#[test]
fn completions_of_bash() {
    let folder = Folder::new("completions");
    pages_in(&folder.path("")).assert_done("lapped-pages");
    for (words, expected) in [
        ("lapped ex", "export"),
        ("lapped find-step --tol", "--tolerance"),
        ("lapped export --format p", "png pgm"),
    ] {
        let line = "exec bash -c 'source \"$1\"; COMP_WORDS=($2); \
                    COMP_CWORD=$((${#COMP_WORDS[@]} - 1)); \
                    _lapped lapped \"${COMP_WORDS[COMP_CWORD]}\"; \
                    echo \"${COMPREPLY[@]}\"' bash \"$1\" \"$2\"";
        let ran = shell(line, &[&folder.path("completions/lapped.bash"), words]);
        ran.assert_done(words);
        assert_eq!(ran.text().trim(), expected, "{words}");
    }
}

#[test]
fn no_folder_or_none_that_can_be_made() {
    let folder = Folder::new("no_pages");
    for arguments in [&[][..], &["--help"], &["one", "two"]] {
        let ran = Ran::of(Command::new(PAGES).args(arguments).output().unwrap());
        assert_eq!((ran.status, ran.text()), (2, ""), "{arguments:?}");
        assert!(ran.err.starts_with("Usage: lapped-pages DIR"), "{arguments:?}: {}", ran.err);
    }
    let place = folder.write("file", b"") + "/pages";
    let ran = pages_in(&place);
    assert_eq!(ran.status, 1);
    assert_eq!(ran.err, format!("lapped-pages: {place}: Not a directory (os error 20)\n"));
}
