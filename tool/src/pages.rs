//! The manual pages: one for the program and one for each command, made of what the help says.

use crate::EXIT_STATUS;
use clap::{Arg, Command};

/// The pages by their file names.
pub fn manual(mut program: Command) -> Vec<(String, String)> {
    program.build();
    let name = program.get_name().to_string();
    let version = format!("{name} {}", program.get_version().unwrap_or_default());
    let (mut pages, mut list, mut others) = (Vec::new(), String::new(), Vec::new());
    for command in program.get_subcommands_mut().filter(|command| command.get_name() != "help") {
        let title = format!("{name}-{}", command.get_name());
        list += &entry(&reference(&title), &about(command));
        let see = section("SEE ALSO", &format!("{}\n", reference(&name)));
        pages.push((format!("{title}.1"), page(command, &title, &version) + &see));
        others.push(reference(&title));
    }
    let own = page(&mut program, &name, &version)
        + &section("COMMANDS", &list)
        + &section("SEE ALSO", &(others.join(",\n") + "\n"));
    pages.insert(0, (format!("{name}.1"), own));
    pages
}

/// A page but for its references to others.
fn page(command: &mut Command, title: &str, version: &str) -> String {
    let usage = command.render_usage().to_string();
    let usage = usage.trim_start_matches("Usage: ");
    let about = about(command);
    let more = command.get_long_about().map(ToString::to_string).unwrap_or_default();
    let paragraphs: Vec<String> =
        more.split("\n\n").skip(1).filter(|words| *words != EXIT_STATUS).map(prose).collect();
    let description = match paragraphs.is_empty() {
        true => prose(&about),
        false => paragraphs.join(".PP\n"),
    };
    let (positionals, options): (Vec<&Arg>, Vec<&Arg>) = command
        .get_arguments()
        .filter(|arg| !arg.is_hide_set())
        .partition(|arg| arg.is_positional());
    let arguments: String = positionals.into_iter().chain(options).map(argument).collect();
    let after = command.get_after_help().map(ToString::to_string).unwrap_or_default();
    let (heading, examples) = after.split_once(":\n").unwrap_or_default();

    format!(".TH {} 1 \"\" \"{version}\" \"User Commands\"\n", literal(&title.to_uppercase()))
        + &section("NAME", &format!("{} \\- {}", literal(title), prose(&uncapitalised(&about))))
        + &section("SYNOPSIS", &format!(".B {}\n", literal(usage)))
        + &section("DESCRIPTION", &description)
        + &section("OPTIONS", &arguments)
        + &section("EXIT STATUS", &prose(EXIT_STATUS))
        + &section(&heading.to_uppercase(), &format!(".nf\n{}.fi\n", lines(examples)))
}

/// The line of a command in a list.
fn about(command: &Command) -> String {
    command.get_about().map(ToString::to_string).unwrap_or_default()
}

/// As lists of pages have it.
fn uncapitalised(about: &str) -> String {
    let mut letters = about.chars();
    letters.next().map(|first| first.to_lowercase().chain(letters).collect()).unwrap_or_default()
}

fn section(heading: &str, text: &str) -> String {
    format!(".SH {heading}\n{text}")
}

/// An argument or option and what it means.
fn argument(arg: &Arg) -> String {
    let values: Vec<String> = match arg.get_action().takes_values() {
        true => arg.get_value_names().unwrap_or_default().iter().map(|name| value(name)).collect(),
        false => Vec::new(),
    };
    let short = arg.get_short().map(|short| format!("\\fB\\-{short}\\fR"));
    let long = arg.get_long().map(|long| format!("\\fB\\-\\-{}\\fR", literal(long)));
    let names: Vec<String> = short.into_iter().chain(long).collect();
    let head = [names.join(", "), values.join(" ")].join(" ");
    let help = arg.get_long_help().or_else(|| arg.get_help());
    let mut help = help.map(ToString::to_string).unwrap_or_default();
    let choices: Vec<String> =
        arg.get_possible_values().iter().map(|value| value.get_name().to_string()).collect();
    if arg.get_action().takes_values() && !choices.is_empty() {
        help += &format!(" ({})", choices.join(" or "));
    }
    entry(head.trim(), &help)
}

fn value(name: &str) -> String {
    format!("\\fI{}\\fR", literal(name))
}

/// A head and, indented under it, what it means.
fn entry(head: &str, meaning: &str) -> String {
    format!(".TP\n{head}\n{}", prose(meaning))
}

/// Another page.
fn reference(title: &str) -> String {
    format!("\\fB{}\\fR(1)", literal(title))
}

/// Text with its ends of lines kept.
fn lines(text: &str) -> String {
    text.lines().map(|line| literal(line.trim()) + "\n").collect()
}

/// Text that is filled into lines; what stands between backquotes is bold.
fn prose(text: &str) -> String {
    let mut bold = false;
    let mut words = String::new();
    for (place, part) in text.trim().split('`').enumerate() {
        if place > 0 {
            bold = !bold;
            words += if bold { "\\fB" } else { "\\fR" };
        }
        words += &match bold {
            true => literal(part),
            false => part.replace('\\', "\\e"),
        };
    }
    // A line that begins with one of these would be read as a request.
    if words.starts_with(['.', '\'']) {
        words.insert_str(0, "\\&");
    }
    words.replace('\n', " ") + "\n"
}

/// Text that can be typed: a hyphen stays the sign on the keyboard.
fn literal(text: &str) -> String {
    text.replace('\\', "\\e").replace('-', "\\-")
}
