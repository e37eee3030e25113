//! How the program is called: wrong usage, help with examples that work, progress.

mod common;
use common::pictures::Grey;
use common::*;
use reference::random::{Random, Values};
use reference::Size;
use std::fs;

#[test]
fn wrong_usage() {
    let folder = Folder::new("wrong_usage");
    let (file, out) = (folder.write("planes", &some_file(50)), folder.path("out.png"));
    let other = folder.path("out.tiff");
    let calls: [&[&str]; 41] = [
        &[],
        &["quantize"],
        &["info"],
        &["forecast"],
        &["forecast", &file, &file],
        &["forecast", &file, "--size", "2x1", "-m", "1"],
        &["forecast", &file, "-m", "1"],
        &["forecast", "--size", "2x1"],
        &["forecast", "-m", "1"],
        &["forecast", "--size", "2x1", "-m", "3"],
        &["forecast", "--size", "526x1", "-m", "1"],
        &["roundtrip"],
        &["export", &file],
        &["export", "-o", &out],
        &["export", &file, "-o", &other],
        &["export", &file, "-o", &out, "--range", "5"],
        &["export", &file, "-o", &out, "--range", "5:5"],
        &["export", &file, "-o", &out, "--range", "7:-7"],
        &["export", &file, "-o", &out, "--range", "0:2147483648"],
        &["export", &file, "-o", &out, "--bits", "12"],
        &["export", &file, "-o", &out, "--format", "tiff"],
        &["import", &file, "-o", &out],
        &["import", &file, "-m", "3", "-o", &out],
        &["import", &file, "-m", "two", "-o", &out],
        &["import", &file, "-m", "2"],
        &["find-step", &file],
        &["find-step", "-t", "5"],
        &["find-step", &file, "-t"],
        &["find-step", &file, "-t", "-1"],
        &["find-step", &file, "-t", "4294967296", "-o", &out],
        &["find-step", &file, "-t", "five"],
        &["quantise", &file, "-o", &out],
        &["quantise", &file, "-s", "40"],
        &["quantise", &file, "-s", "-o", &out],
        &["restore", &file, "-o", &out],
        &["restore", &file, "-s", "40"],
        &["restore", "-s", "40", "-o", &out],
        &["diff", &file],
        &["diff", &file, &file, "-o", &other],
        &["diff", "-", "-"],
        &["info", "-", &file, "-"],
    ];
    for arguments in calls {
        let ran = lapped_reading(arguments, &some_file(50));
        assert_eq!((ran.status, ran.text()), (2, ""), "{arguments:?}: {}", ran.err);
        assert!(!ran.err.is_empty(), "{arguments:?}");
        assert_eq!(folder.names(), ["planes"], "{arguments:?}");
    }
}

/// The lines under "Example" or "Examples" of a help.
fn examples(help: &str) -> Vec<String> {
    let lines = help.lines().skip_while(|line| !line.starts_with("Example")).skip(1);
    lines.map(|line| line.trim().to_string()).filter(|line| !line.is_empty()).collect()
}

/// The help of the program and of each command has an example for each command, and they do what
/// they say when they are run where such files are.
#[test]
fn examples_of_the_help_work() {
    let folder = Folder::new("examples");
    fs::create_dir(folder.path("archive")).unwrap();
    let grey = Grey::any(48, 32, 8);
    let planes = file_of_samples(2, Size::new(3, 2), &grey.samples);
    folder.write("ring.planes", &planes);
    for (name, seed) in [
        ("archive/1.planes", 1),
        ("archive/2.planes", 2),
        ("before.planes", 3),
        ("after.planes", 4),
    ] {
        folder.write(name, &some_file(seed));
    }

    let help = lapped(&["--help"]);
    help.assert_done("--help");
    let all = examples(help.text());
    let commands = [
        "info",
        "forecast",
        "export",
        "import",
        "find-step",
        "quantise",
        "restore",
        "roundtrip",
        "diff",
    ];
    assert_eq!(all.len(), commands.len(), "{all:?}");
    for (example, command) in all.iter().zip(commands) {
        assert!(example.starts_with(&format!("lapped {command} ")), "{example}");
        let own = lapped(&[command, "--help"]);
        own.assert_done(command);
        assert_eq!(examples(own.text()), [example.as_str()], "{command} --help");
        let line = format!("cd \"$1\" && lapped() {{ \"$lapped\" \"$@\"; }} && {example}");
        let ran = shell(&line, &[&folder.path("")]);
        // The two files of the last example differ.
        assert_eq!((ran.status, ran.err.as_str()), (i32::from(command == "diff"), ""), "{example}");
    }
    assert!(folder.read("ring.planes") == planes, "out as a picture and in again");
    assert_eq!(Grey::from_file("png", &folder.read("ring.png")), grey);
    assert!(folder.names().contains(&"heat.png".to_string()));
    for name in ["ring.levels", "restored.planes"] {
        assert_eq!(folder.read(name).len(), planes.len(), "{name}");
    }
}

/// Runs the program on a terminal, which `script` makes; gives all that the terminal shows.
fn on_a_terminal(arguments: &str) -> String {
    let line = "TERM=xterm script -qec \"$lapped $1\" /dev/null";
    let ran = shell(line, &[arguments]);
    assert_eq!(ran.status, 0, "{arguments}: {}", ran.err);
    ran.text().to_string()
}

/// Only on a terminal, and not with `--quiet`.
#[test]
fn progress() {
    let folder = Folder::new("progress");
    let size = Size::new(60, 60);
    let file = folder.write("planes", &file_of_samples(1, size, &vec![5; 256 * 3600]));
    let picture = folder.write("in.pgm", &Grey::any(960, 960, 8).to_file("pgm"));
    let (out, planes) = (folder.path("out.png"), folder.path("out.planes"));
    for (command, sign) in [
        (format!("find-step {file} -t 5"), "of at most 254 tries, up to about 0:0"),
        (format!("find-step {file} -t 5 -o {planes}"), "megabytes"),
        (format!("export {file} -o {out}"), "rows"),
        (format!("import {picture} -m 2 -o {planes}"), "megabytes"),
        (format!("quantise {file} -s 40 -o {planes}"), "megabytes"),
        (format!("restore {file} -s 40 -o {planes}"), "megabytes"),
        (format!("diff {file} {file} -o {out}"), "rows"),
        (format!("roundtrip {file} {file} {file}"), "files"),
        (format!("info {file} {file}"), "files"),
    ] {
        let shown = on_a_terminal(&command);
        assert!(shown.contains(sign) && shown.contains(" of "), "{command}: {shown:?}");
        for quiet in [format!("--quiet {command}"), format!("{command} -q")] {
            let shown = on_a_terminal(&quiet);
            assert!(!shown.contains(sign), "{quiet}: {shown:?}");
        }
        let arguments: Vec<&str> = command.split(' ').collect();
        lapped(&arguments).assert_done(&command);
    }
}

/// A search in vain tries every index. What is shown of it rises to at most their number while the time
/// to go falls.
#[test]
fn progress_of_a_search() {
    let folder = Folder::new("progress_of_a_search");
    let size = Size::new(100, 100);
    let planes = random_planes(&mut Random::new(51), size, Values::Small);
    let file = folder.write("planes", &file_of_planes(2, size, &planes));
    let shown = on_a_terminal(&format!("find-step {file} -t 0"));
    assert!(shown.contains("no index from 2 to 255 keeps it"), "{shown:?}");
    let number = |text: &str| -> f64 { text.parse().unwrap_or_else(|_| panic!("{text:?}")) };
    let lines: Vec<(f64, f64)> = shown
        .split("finding a step: about ")
        .skip(1)
        .map(|line| {
            let (tries, rest) = line.split_once(" of at most 254 tries, up to about ").expect(line);
            let (minutes, rest) = rest.split_once(':').expect(line);
            let seconds = rest.split_once(" to go").expect(line).0;
            (number(tries), 60.0 * number(minutes) + number(seconds))
        })
        .collect();
    let (first, last) = (lines[0], lines[lines.len() - 1]);
    assert!(first.0 < 20.0 && last.0 > 40.0, "{lines:?}");
    assert!(first.1 > last.1, "{lines:?}");
    assert!(lines.windows(2).all(|pair| pair[0].0 <= pair[1].0 && pair[0].1 >= pair[1].1));
    assert!(lines.iter().all(|line| line.0 <= 254.0), "{lines:?}");
    // What is done and what is to go are of one whole: 254 tries.
    let one_try = first.1 / (254.0 - first.0);
    let told = lines.iter().all(|(tries, left)| ((254.0 - tries) * one_try - left).abs() <= 2.0);
    assert!(told, "{lines:?}");
}

/// Where a product of level and step leaves the range, no one try can be timed, and the time so far is
/// shown.
#[test]
fn progress_of_a_wild_search() {
    let folder = Folder::new("progress_of_a_wild_search");
    let size = Size::new(4, 4);
    let mut planes = random_planes(&mut Random::new(52), size, Values::Small);
    planes[2][7] = i32::MAX;
    let file = folder.write("planes", &file_of_planes(1, size, &planes));
    let shown = on_a_terminal(&format!("find-step {file} -t 5"));
    assert!(shown.contains("finding a step 0s") && !shown.contains(" tries"), "{shown:?}");
}

/// A picture or a plane file is not written to a terminal, be it standard output or a device.
#[test]
fn no_bytes_to_a_terminal() {
    let folder = Folder::new("terminal");
    let file = folder.write("planes", &some_file(53));
    let picture = folder.write("in.pgm", &Grey::any(16, 16, 8).to_file("pgm"));
    for command in [
        format!("import {picture} -m 2"),
        format!("export {file} --range auto -f pgm"),
        format!("find-step {file} -t 5"),
        format!("quantise {file} -s 3"),
        format!("restore {file} -s 3"),
        format!("diff {file} {file}"),
    ] {
        for out in ["-", "/dev/tty"] {
            if command.starts_with("diff") && out != "-" {
                continue; // The name of its picture ends in .png.
            }
            let line = "TERM=xterm script -qec \"$lapped $1\" /dev/null";
            let ran = shell(line, &[&format!("{command} -o {out}")]);
            let message = format!(
                "lapped: {out}: binary data is not written to a terminal; \
                 name a file or use a pipe\r\n"
            );
            assert_eq!((ran.status, ran.text()), (1, message.as_str()), "{command} -o {out}");
        }
    }
}

/// How long the parts took, for whoever asks.
#[test]
fn times() {
    let folder = Folder::new("times");
    let file = folder.write("planes", &file_of_samples(1, Size::new(1, 1), &[5; 256]));
    let ran = lapped(&["export", &file, "-o", &folder.path("out.png"), "--times"]);
    assert_eq!(ran.status, 0);
    let seconds: Vec<f64> = ["reading", "the transform", "writing", "together"]
        .iter()
        .map(|part| {
            let rest = ran.err.split(&format!("{part} ")).nth(1).expect("each part is there");
            rest.split(" s").next().unwrap().parse().unwrap()
        })
        .collect();
    let sum: f64 = seconds[..3].iter().sum();
    // Each is rounded to a thousandth.
    assert!((sum - seconds[3]).abs() < 0.0021, "{}", ran.err);
}

/// The tool has the version that the library's header has.
#[test]
fn version() {
    let header = include_str!("../../include/lapped.h");
    let parts = ["MAJOR", "MINOR", "PATCH"].map(|part| {
        let rest = header.split(&format!("#define LAPPED_VERSION_{part} ")).nth(1).unwrap();
        rest.lines().next().unwrap()
    });
    let ran = lapped(&["--version"]);
    ran.assert_done("--version");
    assert_eq!(ran.text(), format!("lapped {}\n", parts.join(".")));
}
